//! Filters and their three truth values.

use crate::decide::Judge;
use crate::directory::{Directory, Entry};
use crate::edition::Edition;
use crate::fault::{planted, Fault};
use crate::permissions::FILTER_MATCH;
use crate::schema::Slot;
use crate::value::{substrings, Piece, Value};
use std::cmp::Ordering;

#[derive(Clone, Copy, Debug, PartialEq, Eq)]
pub enum Truth {
    False,
    Undefined,
    True,
}

impl From<bool> for Truth {
    fn from(truth: bool) -> Self {
        if truth {
            Truth::True
        } else {
            Truth::False
        }
    }
}

#[derive(Debug)]
pub enum Filter<'a> {
    And(Vec<Filter<'a>>),
    Or(Vec<Filter<'a>>),
    Not(Box<Filter<'a>>),
    Item(Slot, Assertion<'a>),
    /// An item of an unknown type, with a value or piece that does not fit, or without a rule.
    Undefined,
}

#[derive(Debug)]
pub enum Assertion<'a> {
    Equality(Value<'a>),
    AtLeast(Value<'a>),
    AtMost(Value<'a>),
    Present,
    Substrings(Vec<Piece>),
}

impl Filter<'_> {
    /// The truth for the entry that the judge is at. The edition concerns the operators alone.
    pub fn evaluate(
        &self,
        edition: Edition,
        directory: &Directory,
        entry: &Entry,
        judge: &mut Judge,
    ) -> Truth {
        let within =
            if planted(Fault::FirstEditionOutermostOnly) { Edition::Later } else { edition };
        let mut part = |part: &Filter| part.evaluate(within, directory, entry, judge);
        let wrongly = |fault| edition == Edition::First && planted(fault);
        match self {
            Filter::And(parts) => {
                let empty = planted(Fault::EmptyAndFalse) && parts.is_empty();
                if empty {
                    return Truth::False;
                }
                edition.and(parts.iter().map(part))
            }
            Filter::Or(parts) => edition.or(parts.iter().map(part)),
            Filter::Not(negated) => edition.not(part(negated)),
            Filter::Item(slot, assertion) if wrongly(Fault::FirstEditionUnjudged) => {
                assertion.unjudged(*slot, directory, entry)
            }
            Filter::Item(slot, assertion) => assertion.evaluate(*slot, directory, entry, judge),
            Filter::Undefined if wrongly(Fault::FirstUndefinedItemIsFalse) => Truth::False,
            Filter::Undefined => Truth::Undefined,
        }
    }
}

/// False as soon as a part is false; an undefined part does not end the search for one.
pub fn and(parts: impl IntoIterator<Item = Truth>) -> Truth {
    let mut result = Truth::True;
    for part in parts {
        match part {
            Truth::False => return Truth::False,
            Truth::Undefined if planted(Fault::AndStopsAtUndefined) => return part,
            Truth::Undefined => result = Truth::Undefined,
            Truth::True => {}
        }
    }
    result
}

pub fn or(parts: impl IntoIterator<Item = Truth>) -> Truth {
    let mut result = Truth::False;
    for part in parts {
        match part {
            Truth::True => return Truth::True,
            Truth::Undefined if planted(Fault::OrStopsAtUndefined) => return part,
            Truth::Undefined => result = Truth::Undefined,
            Truth::False => {}
        }
    }
    result
}

pub fn not(part: Truth) -> Truth {
    match part {
        Truth::False => Truth::True,
        Truth::Undefined if planted(Fault::NotUndefinedIsTrue) => Truth::True,
        Truth::Undefined => Truth::Undefined,
        Truth::True => Truth::False,
    }
}

impl Assertion<'_> {
    fn evaluate(
        &self,
        slot: Slot,
        directory: &Directory,
        entry: &Entry,
        judge: &mut Judge,
    ) -> Truth {
        if planted(Fault::FilterMatchOnlyWhenHeld) && !entry.holds(slot) {
            return Truth::False;
        }
        if planted(Fault::PresentUnjudged) && matches!(self, Assertion::Present) {
            return entry.holds(slot).into();
        }
        if judge.of_type(slot) & FILTER_MATCH == 0 {
            let wrong = planted(Fault::FilterRefusedIsFalse);
            return if wrong { Truth::False } else { Truth::Undefined };
        }
        if planted(Fault::NotHeldIsUndefined) && !entry.holds(slot) {
            return Truth::Undefined;
        }
        let by_type = matches!(self, Assertion::Present) && !planted(Fault::PresentNeedsAValue);
        if by_type {
            return entry.holds(slot).into();
        }
        let unjudged = planted(Fault::FilterValuesUnjudged);
        directory
            .places_of(entry, slot)
            .any(|place| {
                self.fits(&directory.values[place])
                    && (judge.of_value(slot, place) & FILTER_MATCH != 0 || unjudged)
            })
            .into()
    }

    /// The truth as if nothing were refused, for a planted fault.
    fn unjudged(&self, slot: Slot, directory: &Directory, entry: &Entry) -> Truth {
        directory.values_of(entry, slot).iter().any(|value| self.fits(value)).into()
    }

    fn fits(&self, value: &Value) -> bool {
        match self {
            Assertion::Equality(wanted) => value.equals_under(Fault::EqualityCountsBlanks, wanted),
            Assertion::AtLeast(bound) => {
                let strictly = planted(Fault::AtLeastIsAbove);
                match value.compare(bound) {
                    Some(Ordering::Equal) => !strictly,
                    order => order == Some(Ordering::Greater),
                }
            }
            Assertion::AtMost(bound) => {
                let strictly = planted(Fault::AtMostIsBelow);
                match value.compare(bound) {
                    Some(Ordering::Equal) => !strictly,
                    order => order == Some(Ordering::Less),
                }
            }
            Assertion::Present => true,
            Assertion::Substrings(pieces) => substrings(value, pieces),
        }
    }
}

//! The guest's order of what a search finds: by each entry's key, rising or falling.

use crate::decide::Judge;
use crate::directory::{Directory, Number};
use crate::fault::{planted, Fault};
use crate::permissions::{FILTER_MATCH, READ};
use crate::request::Selection;
use crate::schema::Slot;
use crate::text::without_blanks;
use crate::value::{Syntax, Value};
use std::cmp::Ordering;

/// K 16, of a type that has an order.
#[derive(Clone, Copy, Debug)]
pub struct Order {
    pub slot: Slot,
    pub falling: bool,
}

/// An entry that was found.
#[derive(Clone, Copy)]
pub struct Found<'a> {
    pub number: Number,
    pub key: Option<Value<'a>>,
}

impl Order {
    /// The smallest value of the type in the entry that the judge is at, with Read on type and
    /// value, in either direction.
    pub fn key<'a>(
        self,
        directory: &Directory<'a>,
        number: Number,
        judge: &mut Judge,
        selection: &Selection,
    ) -> Option<Value<'a>> {
        let wanted = if planted(Fault::KeyByFilterMatch) { FILTER_MATCH } else { READ };
        let of_type = judge.of_type(self.slot) & wanted != 0;
        let unselected = planted(Fault::KeyOnlyIfSelected) && !selection.contains(self.slot);
        if !(of_type || planted(Fault::KeyTypeUnjudged)) || unselected {
            return None;
        }
        let unjudged = planted(Fault::KeyValueUnjudged);
        let places = directory.places_of(directory.entry(number), self.slot);
        let mut values = places
            .filter(|&place| unjudged || judge.of_value(self.slot, place) & wanted != 0)
            .map(|place| directory.values[place]);
        let largest = (planted(Fault::LargestKeyWhenFalling) && self.falling)
            || (planted(Fault::LargestKeyWhenRising) && !self.falling);
        match () {
            _ if planted(Fault::FirstValueIsKey) => values.next(),
            _ if planted(Fault::LastValueIsKey) => values.last(),
            _ if largest => values.max_by(compare),
            _ => values.min_by(compare),
        }
    }

    /// By key, those without one last, ties as they were found.
    pub fn sort(self, found: &mut Vec<Found>) {
        let falling = match () {
            _ if planted(Fault::FallingIgnored) => false,
            _ if planted(Fault::OrderTurned) => !self.falling,
            _ => self.falling,
        };
        if planted(Fault::KeylessDropped) {
            found.retain(|one| one.key.is_some());
        }
        let reversed = match () {
            _ if planted(Fault::TiesReversedWhenFalling) => falling,
            _ if planted(Fault::TiesReversedWhenRising) => !falling,
            _ => false,
        };
        if reversed {
            found.reverse();
        }
        let first = match () {
            _ if planted(Fault::KeylessFirstWhenRising) => !falling,
            _ if planted(Fault::KeylessFirstWhenFalling) => falling,
            _ => false,
        };
        let base = found.first().map(|one| one.number);
        found.sort_by(|one, other| match (&one.key, &other.key) {
            (Some(one), Some(other)) if falling => compare(other, one),
            (Some(one), Some(other)) => compare(one, other),
            (Some(_), None) if first => Ordering::Greater,
            (None, Some(_)) if first => Ordering::Less,
            (Some(_), None) => Ordering::Less,
            (None, Some(_)) => Ordering::Greater,
            (None, None) => Ordering::Equal,
        });
        if planted(Fault::FirstFoundStaysFirst) {
            found.sort_by_key(|one| Some(one.number) != base);
        }
        if planted(Fault::KeylessReversedWhenFalling) && falling {
            let keyless = found.iter().position(|one| one.key.is_none()).unwrap_or(found.len());
            found[keyless..].reverse();
        }
    }
}

/// The type's ordering rule.
fn compare(one: &Value, other: &Value) -> Ordering {
    let number = |value: &Value| -> i64 {
        std::str::from_utf8(value.bytes).ok().and_then(|text| text.parse().ok()).unwrap_or(0)
    };
    match one.syntax() {
        _ if planted(Fault::KeysByBytes) => one.bytes.cmp(other.bytes),
        Syntax::Text if planted(Fault::KeysCountBlanks) => {
            one.bytes.to_ascii_lowercase().cmp(&other.bytes.to_ascii_lowercase())
        }
        Syntax::Text if planted(Fault::KeysByCase) => {
            without_blanks(one.bytes).cmp(without_blanks(other.bytes))
        }
        Syntax::Text if planted(Fault::ShorterKeysFirst) => {
            (one.bytes.len().cmp(&other.bytes.len()))
                .then(one.compare(other).unwrap_or(Ordering::Equal))
        }
        Syntax::Integer if planted(Fault::IntegerKeysAsText) => one.bytes.cmp(other.bytes),
        Syntax::Integer if planted(Fault::IntegerKeysUnsigned) => {
            number(one).unsigned_abs().cmp(&number(other).unsigned_abs())
        }
        Syntax::Integer if planted(Fault::IntegerKeysAsWords) => {
            (number(one) as u64).cmp(&(number(other) as u64))
        }
        _ => one.compare(other).unwrap_or(Ordering::Equal),
    }
}

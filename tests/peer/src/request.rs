//! The request sheet: requester, operation, selection, filter.

use crate::decide::Requester;
use crate::edition::Edition;
use crate::fault::{planted, Fault};
use crate::filter::{Assertion, Filter};
use crate::form::Form;
use crate::kinds;
use crate::name::{Asked, Part};
use crate::order::Order;
use crate::schema::{Schema, Slot};
use crate::sheet::{Line, Lines, Reason};
use crate::value::{Piece, Place, Syntax};

pub const MAX_LENGTH: usize = 8_192;
pub const MAX_FILTER_DEPTH: u32 = 16;
pub const MAX_FILTER_LINES: u32 = 128;

pub struct Request<'a> {
    pub requester: Requester<'a>,
    /// Of the filter's operators; no permission depends on it.
    pub edition: Edition,
    /// The name asked for.
    pub name: Asked<'a>,
    pub operation: Operation<'a>,
    /// K 16 names a type that is unknown or has no order.
    pub unordered: bool,
}

pub enum Operation<'a> {
    Read(Selection),
    Compare(Purported<'a>),
    List { limit: u32 },
    Search(Search<'a>),
}

pub struct Search<'a> {
    pub limit: u32,
    pub selection: Selection,
    pub order: Option<Order>,
    pub subset: Subset,
    pub filter: Filter<'a>,
}

impl Operation<'_> {
    pub fn number(&self) -> u32 {
        match self {
            Operation::Read(_) => 1,
            Operation::Compare(_) => 2,
            Operation::List { .. } => 3,
            Operation::Search(_) => 4,
        }
    }
}

/// The types selected by K 12 and 13.
pub struct Selection {
    /// One bit for each known slot.
    slots: u64,
    /// All types rather than a list.
    pub all: bool,
    /// A list of no types, which a read answers with success.
    pub empty_list: bool,
    pub with_values: bool,
}

impl Selection {
    pub fn contains(&self, slot: Slot) -> bool {
        self.slots & (1 << slot) != 0
    }
}

/// The type and value of a compare; the type may be unknown, the value outside its syntax.
pub struct Purported<'a> {
    pub slot: Option<Slot>,
    pub part: Option<Part<'a>>,
}

#[derive(Clone, Copy, Debug, PartialEq, Eq)]
pub enum Subset {
    Base,
    OneLevel,
    Subtree,
}

impl<'a> Request<'a> {
    pub fn decode(form: Form, sheet: &'a [u8], schema: &Schema) -> Result<Self, Reason> {
        let longest = form.longest(MAX_LENGTH);
        if sheet.len() > longest + usize::from(planted(Fault::LongRequestAccepted)) {
            return Err(Reason::TooLong);
        }
        let lines = Lines::new(form, sheet);
        let mut reader = Reader { form, lines, schema, filter_lines: 0, unordered: false };
        let user = reader.expect(10)?;
        let edition = Edition::of(&user);
        let mut requester = Requester { level: user.a, name: reader.name(user.b)? };
        if edition == Edition::First {
            spoil(&mut requester);
        }
        let line = reader.expect(11)?;
        let name = reader.name(line.b)?;
        let limit = if planted(Fault::LimitOfSixDigits) { line.c % 1_000_000 } else { line.c };
        let operation = match line.a {
            1 => Operation::Read(reader.selection()?),
            2 => Operation::Compare(reader.purported()?),
            3 => Operation::List { limit },
            _ => {
                let selection = reader.selection()?;
                let (order, subset) = reader.order_and_subset()?;
                let filter = reader.filter(1)?;
                Operation::Search(Search { limit, selection, order, subset, filter })
            }
        };
        let surplus = reader.next()?;
        let order = surplus.is_some_and(|line| line.kind == 16);
        match surplus {
            Some(_) if order && planted(Fault::OrderElsewhereAccepted) => {}
            Some(_) if !planted(Fault::SurplusLineAccepted) => return Err(Reason::OutOfOrder),
            _ => {}
        }
        Ok(Request { requester, edition, name, operation, unordered: reader.unordered })
    }
}

/// What only a planted fault makes of a requester in the first edition.
fn spoil(requester: &mut Requester) {
    if planted(Fault::FirstEditionAtLevelTwo) {
        requester.level = 2;
    }
    if planted(Fault::FirstEditionIsNameless) {
        requester.name.clear();
    }
}

struct Reader<'a, 's> {
    form: Form,
    lines: Lines<'a>,
    schema: &'s Schema,
    filter_lines: u32,
    unordered: bool,
}

impl<'a> Reader<'a, '_> {
    fn next(&mut self) -> Result<Option<Line<'a>>, Reason> {
        let line = self.lines.next().transpose()?;
        if let Some(line) = &line {
            kinds::check(self.form, line, kinds::in_request)?;
        }
        Ok(line)
    }

    fn expect(&mut self, kind: u32) -> Result<Line<'a>, Reason> {
        self.next()?.filter(|line| line.kind == kind).ok_or(Reason::OutOfOrder)
    }

    fn name(&mut self, parts: u32) -> Result<Asked<'a>, Reason> {
        (0..parts)
            .map(|_| {
                let line = self.expect(9)?;
                Ok(Part::new(self.schema, line.a, line.bytes))
            })
            .collect()
    }

    fn selection(&mut self) -> Result<Selection, Reason> {
        let mut line = self.next()?.ok_or(Reason::OutOfOrder)?;
        if line.kind == 16 && planted(Fault::OrderBeforeSelectionAccepted) {
            line = self.next()?.ok_or(Reason::OutOfOrder)?;
        }
        if line.kind != 12 {
            return Err(Reason::OutOfOrder);
        }
        let mut slots = if line.a == 0 { u64::MAX } else { 0 };
        for _ in 0..line.b {
            if let Some(slot) = self.schema.slot(self.expect(13)?.a) {
                let bit = 1 << slot;
                slots =
                    if planted(Fault::RepeatedTypeUnselects) { slots ^ bit } else { slots | bit };
            }
        }
        let all = line.a == 0;
        let empty_list = !all && line.b == 0;
        Ok(Selection { slots, all, empty_list, with_values: line.c == 1 })
    }

    /// K 16, if it is there, and K 15.
    fn order_and_subset(&mut self) -> Result<(Option<Order>, Subset), Reason> {
        let mut line = self.next()?.ok_or(Reason::OutOfOrder)?;
        let mut order = None;
        while line.kind == 16 {
            order = self.order(&line)?;
            line = self.next()?.ok_or(Reason::OutOfOrder)?;
            if !planted(Fault::OrderTwiceAccepted) {
                break;
            }
        }
        let misplaced = line.kind == 16 && planted(Fault::MisplacedOrderNotAllowed);
        let subset = match (line.kind, line.a) {
            (15, 0) => Subset::Base,
            (15, 1) => Subset::OneLevel,
            (15, _) => Subset::Subtree,
            _ if misplaced => return Err(Reason::NotAllowed),
            _ => return Err(Reason::OutOfOrder),
        };
        Ok((order, subset))
    }

    /// Nothing, and noted, where the type is unknown or has no order.
    fn order(&mut self, line: &Line) -> Result<Option<Order>, Reason> {
        let slot = self.schema.slot(line.a);
        let known = slot.filter(|&slot| self.schema.syntax(slot) != Syntax::Octets);
        let accepted = match slot {
            None => planted(Fault::OrderOfUnknownTypeAccepted),
            Some(_) => planted(Fault::OrderOfOctetsAccepted),
        };
        self.unordered = known.is_none() && !accepted;
        if self.unordered && planted(Fault::OrderJudgedEarly) {
            return Err(Reason::NotInSchema);
        }
        Ok(known.map(|slot| Order { slot, falling: line.b == 1 }))
    }

    fn purported(&mut self) -> Result<Purported<'a>, Reason> {
        let line = self.expect(14)?;
        Ok(Purported {
            slot: self.schema.slot(line.a),
            part: Part::new(self.schema, line.a, line.bytes),
        })
    }

    /// A line of K 20 to 28, counted.
    fn filter_line(&mut self) -> Result<Line<'a>, Reason> {
        let mut line = self.next()?.ok_or(Reason::OutOfOrder)?;
        let late = line.kind == 16 && self.filter_lines == 0;
        if late && planted(Fault::OrderAfterSubsetAccepted) {
            line = self.next()?.ok_or(Reason::OutOfOrder)?;
        }
        self.filter_lines += u32::from(!(planted(Fault::PiecesNotCounted) && line.kind == 28));
        let most = MAX_FILTER_LINES + u32::from(planted(Fault::FilterLine129Accepted));
        if !(20..=28).contains(&line.kind) || self.filter_lines > most {
            return Err(Reason::OutOfOrder);
        }
        Ok(line)
    }

    /// The filter whose first line stands at the given depth.
    fn filter(&mut self, depth: u32) -> Result<Filter<'a>, Reason> {
        let line = self.filter_line()?;
        let deepest = MAX_FILTER_DEPTH + u32::from(planted(Fault::FilterDepth17Accepted));
        if line.kind == 28 || depth > deepest {
            return Err(Reason::OutOfOrder);
        }
        match line.kind {
            20 => self.parts(line.a, depth).map(Filter::And),
            21 => self.parts(line.a, depth).map(Filter::Or),
            22 => self.filter(depth + 1).map(|part| Filter::Not(Box::new(part))),
            27 if planted(Fault::PiecesHaveDepth) && depth == deepest => Err(Reason::OutOfOrder),
            27 => self.substrings(line),
            _ => Ok(self.item(line).unwrap_or_else(|| self.undefined(line))),
        }
    }

    fn undefined(&self, line: Line) -> Filter<'a> {
        let known = self.schema.slot(line.a).is_some();
        let wrong = if known { Fault::UnfitValueIsFalse } else { Fault::UnknownTypeIsFalse };
        if planted(wrong) {
            Filter::Or(Vec::new())
        } else {
            Filter::Undefined
        }
    }

    fn parts(&mut self, count: u32, depth: u32) -> Result<Vec<Filter<'a>>, Reason> {
        (0..count).map(|_| self.filter(depth + 1)).collect()
    }

    /// `None` where the item is undefined for every entry.
    fn item(&self, line: Line<'a>) -> Option<Filter<'a>> {
        let slot = self.schema.slot(line.a)?;
        let ordered = self.schema.syntax(slot) != Syntax::Octets || planted(Fault::OctetsOrdered);
        let value = self.schema.value(slot, line.bytes);
        let assertion = match line.kind {
            23 => Assertion::Equality(value?),
            24 if ordered => Assertion::AtLeast(value?),
            25 if ordered => Assertion::AtMost(value?),
            26 => Assertion::Present,
            _ => return None,
        };
        Some(Filter::Item(slot, assertion))
    }

    fn substrings(&mut self, line: Line<'a>) -> Result<Filter<'a>, Reason> {
        let slot = self.schema.slot(line.a);
        let text = slot.filter(|&slot| match self.schema.syntax(slot) {
            Syntax::Text => true,
            Syntax::Integer => planted(Fault::IntegersHaveSubstrings),
            Syntax::Octets => false,
        });
        let mut pieces = Vec::new();
        let mut all_fit = true;
        for index in 0..line.b {
            let piece = self.filter_line()?;
            let place = match piece.a {
                0 => Place::Initial,
                1 => Place::Any,
                _ => Place::Final,
            };
            let misplaced = (place == Place::Initial && index > 0)
                || (place == Place::Final && index + 1 < line.b);
            if piece.kind != 28 || (misplaced && !planted(Fault::MisplacedPieceAccepted)) {
                return Err(Reason::OutOfOrder);
            }
            match text.and_then(|slot| self.schema.value(slot, piece.bytes)) {
                Some(text) => pieces.push(Piece::new(place, &text)),
                None => all_fit = planted(Fault::UnfitPieceIgnored),
            }
        }
        Ok(match text {
            Some(slot) if all_fit => Filter::Item(slot, Assertion::Substrings(pieces)),
            _ => Filter::Undefined,
        })
    }
}

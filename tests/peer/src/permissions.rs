//! The permission sheet: items of K 4 to 8.

use crate::alias::resolve;
use crate::directory::{Directory, Number, ROOT};
use crate::fault::{planted, Fault};
use crate::form::Form;
use crate::kinds;
use crate::name::{Asked, Part};
use crate::schema::{Schema, Slot};
use crate::sheet::{Line, Lines, Reason};
use crate::value::Value;
use std::ops::Range;

pub const MAX_LENGTH: usize = 65_536;
pub const MAX_ITEMS: usize = 256;

/// A set of permissions, the sum of K 8.
pub type Mask = u8;
pub const READ: Mask = 1;
pub const BROWSE: Mask = 2;
pub const RETURN_DN: Mask = 4;
pub const DISCLOSE_ON_ERROR: Mask = 8;
pub const COMPARE: Mask = 16;
pub const FILTER_MATCH: Mask = 32;
pub const ALL: Mask = 63;

/// Which entries an item's base covers. An entry is covered exactly when the entry that the base
/// names is itself or stands above it, so the base is looked up once.
#[derive(Clone, Copy, Debug, PartialEq, Eq)]
pub enum Covers {
    Nothing,
    Entry(Number),
    Subtree(Number),
}

#[derive(Clone, Debug)]
pub enum Who {
    AllUsers,
    /// Places in `Permissions::parts`.
    AtOrBelow(Range<usize>),
    EntryItself,
    Named(Range<usize>),
}

#[derive(Clone, Copy, Debug)]
pub enum What<'a> {
    Entry,
    AllTypes,
    AllTypesAndValues,
    Type(Slot),
    ValuesOf(Slot),
    Value(Slot, Value<'a>),
}

#[derive(Clone, Debug)]
pub struct Item<'a> {
    pub precedence: u8,
    pub level: u32,
    pub grants: bool,
    pub covers: Covers,
    pub who: Who,
    pub what: What<'a>,
    pub mask: Mask,
}

#[derive(Default)]
pub struct Permissions<'a> {
    pub items: Vec<Item<'a>>,
    /// The parts of all "who" names.
    pub parts: Vec<Part<'a>>,
}

impl<'a> Permissions<'a> {
    pub fn decode(form: Form, sheet: &'a [u8], directory: &Directory<'a>) -> Result<Self, Reason> {
        let longest = form.longest(MAX_LENGTH);
        if sheet.len() > longest + usize::from(planted(Fault::LongPermissionsAccepted)) {
            return Err(Reason::TooLong);
        }
        let mut reader = Reader { form, lines: Lines::new(form, sheet), schema: &directory.schema };
        let mut permissions = Permissions::default();
        while let Some(first) = reader.next()? {
            let most = MAX_ITEMS + usize::from(planted(Fault::Item257Accepted));
            if first.kind != 4 || permissions.items.len() == most {
                return Err(Reason::OutOfOrder);
            }
            let item = permissions.item(first, &mut reader, directory)?;
            permissions.items.push(item);
        }
        Ok(permissions)
    }

    fn item(
        &mut self,
        first: Line<'a>,
        reader: &mut Reader<'a, '_>,
        directory: &Directory<'a>,
    ) -> Result<Item<'a>, Reason> {
        let base = reader.expect(5)?;
        let covers = {
            let name = reader.name(base.b)?;
            covers(directory, &name, base.a == 1 || planted(Fault::BaseCoversBelow))
        };
        let user = reader.expect(6)?;
        let start = self.parts.len();
        self.parts.append(&mut reader.name(user.b)?);
        let name = start..self.parts.len();
        let thing = reader.expect(7)?;
        let what = reader.what(&thing)?;
        let rights = reader.expect(8)?;
        Ok(Item {
            precedence: first.a as u8,
            level: first.b,
            grants: first.c == 1,
            covers,
            who: match user.a {
                0 => Who::AllUsers,
                1 => Who::AtOrBelow(name),
                2 => Who::EntryItself,
                _ => Who::Named(name),
            },
            what,
            mask: rights.a as Mask & ALL,
        })
    }
}

fn covers<'a>(directory: &Directory<'a>, name: &[Part<'a>], subtree: bool) -> Covers {
    let mut name: Asked = name.iter().copied().map(Some).collect();
    if planted(Fault::BaseReplaced) {
        name = resolve(directory, &name, |_| true).name;
    }
    let path = directory.walk(name.iter().map(Option::as_ref));
    match path.last() {
        _ if path.len() < name.len() => Covers::Nothing,
        None if subtree || planted(Fault::EmptyBaseAloneCoversAll) => Covers::Subtree(ROOT),
        None => Covers::Nothing,
        Some(&base) if subtree => Covers::Subtree(base),
        Some(&base) => Covers::Entry(base),
    }
}

struct Reader<'a, 's> {
    form: Form,
    lines: Lines<'a>,
    schema: &'s Schema,
}

impl<'a> Reader<'a, '_> {
    fn next(&mut self) -> Result<Option<Line<'a>>, Reason> {
        let line = self.lines.next().transpose()?;
        if let Some(line) = &line {
            kinds::check(self.form, line, kinds::in_permissions)?;
        }
        Ok(line)
    }

    fn expect(&mut self, kind: u32) -> Result<Line<'a>, Reason> {
        self.next()?.filter(|line| line.kind == kind).ok_or(Reason::OutOfOrder)
    }

    fn name(&mut self, parts: u32) -> Result<Vec<Part<'a>>, Reason> {
        (0..parts)
            .map(|_| {
                let line = self.expect(9)?;
                Part::new(self.schema, line.a, line.bytes).ok_or(Reason::NotInSchema)
            })
            .collect()
    }

    fn what(&self, line: &Line<'a>) -> Result<What<'a>, Reason> {
        let slot = || {
            let planted = planted(Fault::UnknownTypeInItemAccepted).then_some(0);
            let known = planted.filter(|_| !self.schema.is_empty());
            self.schema.slot(line.b).or(known).ok_or(Reason::NotInSchema)
        };
        Ok(match line.a {
            0 => What::Entry,
            1 => What::AllTypes,
            2 => What::AllTypesAndValues,
            3 => What::Type(slot()?),
            4 => What::ValuesOf(slot()?),
            _ => {
                let slot = slot()?;
                let value = self.schema.value(slot, line.bytes).ok_or(Reason::NotInSchema)?;
                What::Value(slot, value)
            }
        })
    }
}

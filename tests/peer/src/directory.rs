//! The directory sheet: schema, entries, their values, and the targets of aliases.

use crate::fault::{planted, Fault};
use crate::form::Form;
use crate::kinds;
use crate::name::Part;
use crate::schema::{Schema, Slot, MAX_TYPES};
use crate::sheet::{Line, Lines, Reason};
use crate::value::{Syntax, Value};
use std::ops::Range;

pub const MAX_LENGTH: usize = 65_536;
pub const MAX_ENTRIES: usize = 256;
pub const MAX_DEPTH: usize = 8;

/// Entries count from 1 in the order of their lines; 0 is the root.
pub type Number = usize;
pub const ROOT: Number = 0;

/// The values of one type in an entry.
#[derive(Clone, Debug)]
pub struct Held {
    pub slot: Slot,
    /// Places in `Directory::values`.
    pub values: Range<usize>,
}

#[derive(Clone, Debug)]
pub struct Entry<'a> {
    pub parent: Number,
    pub naming: Part<'a>,
    /// The entries from depth 1 down to this one; only the first `depth` count, and the last place
    /// serves the planted fault of depth 9 alone.
    lineage: [u16; MAX_DEPTH + 1],
    depth: usize,
    /// Places in `Directory::held`.
    held: Range<usize>,
    /// One bit for each slot held.
    held_slots: u64,
    alias: Option<Target>,
}

/// An alias's target, as far as it has been read.
#[derive(Clone, Debug, Default)]
struct Target {
    /// Whether K 36 has been met.
    begun: bool,
    /// Places in `Directory::targets`.
    parts: Range<usize>,
    /// Parts that are still to come.
    due: u32,
}

impl Entry<'_> {
    pub fn lineage(&self) -> &[u16] {
        &self.lineage[..self.depth]
    }

    pub fn holds(&self, slot: Slot) -> bool {
        self.held_slots & (1 << slot) != 0
    }

    pub fn is_alias(&self) -> bool {
        self.alias.is_some()
    }
}

/// Children in the order of the sheet.
#[derive(Clone, Copy, Default)]
struct Links {
    first_child: Number,
    last_child: Number,
    next_sibling: Number,
}

pub struct Directory<'a> {
    pub schema: Schema,
    entries: Vec<Entry<'a>>,
    held: Vec<Held>,
    pub values: Vec<Value<'a>>,
    /// The parts of all targets; one that the schema does not allow only by a planted fault.
    targets: Vec<Option<Part<'a>>>,
    /// By entry number, the root's first.
    links: Vec<Links>,
}

impl<'a> Directory<'a> {
    pub fn decode(form: Form, sheet: &'a [u8]) -> Result<Self, Reason> {
        let longest = form.longest(MAX_LENGTH);
        if sheet.len() > longest + usize::from(planted(Fault::LongDirectoryAccepted)) {
            return Err(Reason::TooLong);
        }
        let mut directory = Directory {
            schema: Schema::new(),
            entries: Vec::new(),
            held: Vec::new(),
            values: Vec::new(),
            targets: Vec::new(),
            links: vec![Links::default()],
        };
        for line in Lines::new(form, sheet) {
            directory.add_line(form, line?)?;
        }
        directory.close_alias(Fault::MissingTargetBeforeNaming)?;
        directory.close_entry()?;
        directory.close_target()?;
        Ok(directory)
    }

    fn add_line(&mut self, form: Form, line: Line<'a>) -> Result<(), Reason> {
        if planted(Fault::OrderBeforeColumns) && line.kind == 1 && !self.entries.is_empty() {
            return Err(Reason::OutOfOrder);
        }
        kinds::check(form, &line, kinds::in_directory)?;
        if planted(Fault::NamingJudgedBeforeAnyLine) && line.kind == 1 {
            self.close_entry()?;
        }
        match line.kind {
            1 => self.add_type(line),
            2 => self.add_entry(line),
            3 => self.add_value(line),
            36 => self.add_target(line),
            _ => self.add_part(line),
        }
    }

    fn add_type(&mut self, line: Line) -> Result<(), Reason> {
        let most = MAX_TYPES - usize::from(planted(Fault::Type64Refused));
        let rising = line.a > self.schema.highest();
        if !self.entries.is_empty() || !rising || self.schema.len() == most {
            return Err(Reason::OutOfOrder);
        }
        self.schema.add(line.a, Syntax::from_column(line.b));
        Ok(())
    }

    fn add_entry(&mut self, line: Line<'a>) -> Result<(), Reason> {
        let number = self.entries.len() + 1;
        let parent = line.a as Number;
        if planted(Fault::NamingJudgedBeforeParent) {
            self.close_entry()?;
        }
        if planted(Fault::Entry257ParentUnjudged) && number > MAX_ENTRIES {
            return Err(Reason::OutOfOrder);
        }
        if parent >= number {
            return Err(if planted(Fault::ParentOutOfOrder) {
                Reason::OutOfOrder
            } else {
                Reason::NotAllowed
            });
        }
        // The line is in form: the entry before it is complete, or its target is missing here.
        self.close_alias(Fault::MissingTargetBeforeNaming)?;
        let of_alias = parent != ROOT && self.entry(parent).is_alias();
        if of_alias && planted(Fault::AliasChildBeforeNaming) {
            return Err(Reason::OutOfOrder);
        }
        if !planted(Fault::NamingJudgedLate) {
            self.close_entry()?;
        }
        self.close_target()?;
        let childless = !planted(Fault::AliasChildAccepted);
        if of_alias && childless && !planted(Fault::AliasChildJudgedLate) {
            return Err(Reason::OutOfOrder);
        }
        let (mut lineage, above) = match parent {
            ROOT => ([0; MAX_DEPTH + 1], 0),
            _ => (self.entry(parent).lineage, self.entry(parent).depth),
        };
        let deepest = MAX_DEPTH + usize::from(planted(Fault::Depth9Accepted));
        let most = MAX_ENTRIES + usize::from(planted(Fault::Entry257Accepted));
        if number > most || above >= deepest {
            return Err(Reason::OutOfOrder);
        }
        lineage[above] = number as u16;
        let naming = Part::new(&self.schema, line.b, line.bytes).ok_or(Reason::NotInSchema)?;
        let twin = self.child(parent, &naming, Fault::SiblingsCountBlanks);
        if twin.is_some() && !self.clash_planted(parent, &naming) {
            return Err(Reason::Twice);
        }
        if planted(Fault::SiblingsAcrossTypes)
            && self
                .children(parent)
                .any(|sibling| self.entry(sibling).naming.value.bytes == naming.value.bytes)
        {
            return Err(Reason::Twice);
        }
        if planted(Fault::NamingJudgedLate) {
            self.close_entry()?;
        }
        if of_alias && childless {
            return Err(Reason::OutOfOrder);
        }
        self.link(parent, number);
        let start = self.held.len();
        self.entries.push(Entry {
            parent,
            naming,
            lineage,
            depth: above + 1,
            held: start..start,
            held_slots: 0,
            alias: (line.c != 0).then(Target::default),
        });
        Ok(())
    }

    fn add_value(&mut self, line: Line<'a>) -> Result<(), Reason> {
        let Some(entry) = self.entries.last_mut() else {
            return Err(Reason::OutOfOrder);
        };
        let after = entry.alias.as_ref().is_some_and(|target| {
            target.begun && (target.due > 0 || !planted(Fault::ValueAfterTargetAccepted))
        });
        if after {
            return Err(Reason::OutOfOrder);
        }
        let last = self.held[entry.held.clone()].last_mut();
        let highest = last.as_ref().map_or(0, |held| self.schema.number(held.slot));
        if line.a < highest {
            return Err(Reason::OutOfOrder);
        }
        let Part { slot, value } =
            Part::new(&self.schema, line.a, line.bytes).ok_or(Reason::NotInSchema)?;
        let place = self.values.len();
        match last {
            Some(held) if held.slot == slot => {
                let twice = self.values[held.values.clone()].iter().any(|other| {
                    if planted(Fault::ValuesTwiceByBytes) {
                        other.bytes == value.bytes
                    } else {
                        other.equals_under(Fault::ValuesTwiceCountBlanks, &value)
                    }
                });
                if twice {
                    return Err(Reason::Twice);
                }
                held.values.end = place + 1;
            }
            _ => {
                self.held.push(Held { slot, values: place..place + 1 });
                entry.held.end += 1;
                entry.held_slots |= 1 << slot;
            }
        }
        self.values.push(value);
        Ok(())
    }

    /// K 36, once after the values of an alias.
    fn add_target(&mut self, line: Line) -> Result<(), Reason> {
        let misplaced = Err(match () {
            _ if planted(Fault::MisplacedTargetNotAllowed) => Reason::NotAllowed,
            _ => Reason::OutOfOrder,
        });
        if planted(Fault::AliasNamingBeforeTarget) {
            self.close_entry()?;
        }
        let start = self.targets.len();
        let Some(entry) = self.entries.last_mut() else {
            return misplaced;
        };
        match &mut entry.alias {
            Some(target) if !target.begun => {
                *target = Target { begun: true, parts: start..start, due: line.b };
            }
            Some(target) if planted(Fault::TargetTwiceAccepted) && target.due == 0 => {
                *target = Target { begun: true, parts: start..start, due: line.b };
            }
            None if planted(Fault::TargetOfEntryAccepted) => {
                entry.alias = Some(Target { begun: true, parts: start..start, due: line.b });
            }
            _ => return misplaced,
        }
        Ok(())
    }

    /// K 9, a part of the last alias's target.
    fn add_part(&mut self, line: Line<'a>) -> Result<(), Reason> {
        let target = self.entries.last_mut().and_then(|entry| entry.alias.as_mut());
        let surplus = planted(Fault::SurplusPartAccepted);
        let Some(target) = target.filter(|target| target.due > 0 || (surplus && target.begun))
        else {
            return Err(match () {
                _ if planted(Fault::MisplacedPartNotAllowed) => Reason::NotAllowed,
                _ => Reason::OutOfOrder,
            });
        };
        let part = Part::new(&self.schema, line.a, line.bytes);
        let unfit = match self.schema.slot(line.a) {
            None => Fault::TargetOfUnknownTypeAccepted,
            Some(_) => Fault::TargetOutsideSyntaxAccepted,
        };
        if part.is_none() && !planted(unfit) {
            return Err(Reason::NotInSchema);
        }
        target.parts.end += 1;
        target.due = target.due.saturating_sub(1);
        self.targets.push(part);
        Ok(())
    }

    /// The last entry, if it is an alias, has its whole target.
    fn close_target(&self) -> Result<(), Reason> {
        let alias = self.entries.last().and_then(|entry| entry.alias.as_ref());
        match alias {
            Some(target) if !target.begun && !planted(Fault::MissingTargetAccepted) => {
                Err(Reason::OutOfOrder)
            }
            Some(target) if target.due > 0 && !planted(Fault::MissingPartAccepted) => {
                Err(Reason::OutOfOrder)
            }
            _ => Ok(()),
        }
    }

    /// As `close_target`, too early, if the fault is planted.
    fn close_alias(&self, early: Fault) -> Result<(), Reason> {
        if planted(early) {
            self.close_target()
        } else {
            Ok(())
        }
    }

    /// The last entry is complete: its naming value must be among its values.
    fn close_entry(&self) -> Result<(), Reason> {
        let unjudged = |entry: &&Entry| entry.is_alias() && planted(Fault::AliasNamingUnjudged);
        let Some(entry) = self.entries.last().filter(|entry| !unjudged(entry)) else {
            return Ok(());
        };
        let among = self.values_of(entry, entry.naming.slot).iter().any(|value| {
            if planted(Fault::NamingByBytes) {
                value.bytes == entry.naming.value.bytes
            } else {
                value.equals_under(Fault::NamingCountsBlanks, &entry.naming.value)
            }
        });
        if among {
            Ok(())
        } else {
            Err(Reason::NamingValueNotHeld)
        }
    }

    fn clash_planted(&self, parent: Number, naming: &Part) -> bool {
        planted(Fault::SiblingsByBytes)
            && self
                .children(parent)
                .all(|sibling| self.entry(sibling).naming.value.bytes != naming.value.bytes)
    }

    fn link(&mut self, parent: Number, number: Number) {
        self.links.push(Links::default());
        let last = self.links[parent].last_child;
        if last == 0 {
            self.links[parent].first_child = number;
        } else {
            self.links[last].next_sibling = number;
        }
        self.links[parent].last_child = number;
    }

    pub fn len(&self) -> usize {
        self.entries.len()
    }

    pub fn is_empty(&self) -> bool {
        self.entries.is_empty()
    }

    /// An entry by its number, which is not the root's.
    pub fn entry(&self, number: Number) -> &Entry<'a> {
        &self.entries[number - 1]
    }

    pub fn children(&self, parent: Number) -> impl Iterator<Item = Number> + '_ {
        let existing = |number: Number| (number != 0).then_some(number);
        std::iter::successors(existing(self.links[parent].first_child), move |&number| {
            existing(self.links[number].next_sibling)
        })
    }

    /// The child of a name; if the fault is planted, blanks count.
    fn child(&self, parent: Number, part: &Part, fault: Fault) -> Option<Number> {
        self.children(parent).find(|&number| self.entry(number).naming.equals_under(fault, part))
    }

    /// The entries that the beginnings of a name lead to, as far as they exist.
    pub fn walk<'n>(&self, name: impl IntoIterator<Item = Option<&'n Part<'n>>>) -> Vec<Number> {
        let mut path = Vec::with_capacity(MAX_DEPTH);
        let mut parent = ROOT;
        for part in name {
            match part.and_then(|part| self.child(parent, part, Fault::NamesCountBlanks)) {
                Some(number) => path.push(number),
                None => break,
            }
            parent = path[path.len() - 1];
        }
        path
    }

    /// The target of an alias.
    pub fn target(&self, alias: Number) -> &[Option<Part<'a>>] {
        let parts = self.entry(alias).alias.as_ref().map_or(0..0, |target| target.parts.clone());
        &self.targets[parts]
    }

    /// Whether the entry is `base` or below it; everything is below the root.
    pub fn is_at_or_below(&self, number: Number, base: Number) -> bool {
        base == ROOT || {
            let level = self.entry(base).depth - 1;
            self.entry(number).lineage().get(level) == Some(&(base as u16))
        }
    }

    pub fn held(&self, entry: &Entry) -> &[Held] {
        &self.held[entry.held.clone()]
    }

    pub fn values_of(&self, entry: &Entry, slot: Slot) -> &[Value<'a>] {
        &self.values[self.places_of(entry, slot)]
    }

    /// Places in `values` of the entry's values of one type.
    pub fn places_of(&self, entry: &Entry, slot: Slot) -> Range<usize> {
        if !entry.holds(slot) {
            return 0..0;
        }
        // Types rise within an entry, so the lower slots held come first.
        let lower = entry.held_slots & ((1 << slot) - 1);
        self.held(entry)[lower.count_ones() as usize].values.clone()
    }
}

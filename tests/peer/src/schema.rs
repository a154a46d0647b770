//! The attribute types of a directory and their syntaxes.

use crate::value::{Syntax, Value};

pub const MAX_TYPES: usize = 64;
/// Numbers below it have their slot in a table.
const TABLED: usize = 1000;
const UNKNOWN: u8 = u8::MAX;

/// Place of a type among the type lines: 0 to 63, rising with the number.
pub type Slot = u8;

pub struct Schema {
    types: Vec<(u32, Syntax)>,
    slots: [u8; TABLED],
}

impl Schema {
    pub fn new() -> Self {
        Schema { types: Vec::new(), slots: [UNKNOWN; TABLED] }
    }

    /// Adds a type higher than all before.
    pub fn add(&mut self, number: u32, syntax: Syntax) {
        if let Some(slot) = self.slots.get_mut(number as usize) {
            *slot = self.types.len() as u8;
        }
        self.types.push((number, syntax));
    }

    pub fn len(&self) -> usize {
        self.types.len()
    }

    pub fn is_empty(&self) -> bool {
        self.types.is_empty()
    }

    pub fn highest(&self) -> u32 {
        self.types.last().map_or(0, |&(number, _)| number)
    }

    pub fn slot(&self, number: u32) -> Option<Slot> {
        match self.slots.get(number as usize) {
            Some(&slot) => (slot != UNKNOWN).then_some(slot),
            None => {
                let place = self.types.binary_search_by_key(&number, |&(number, _)| number);
                place.ok().map(|place| place as Slot)
            }
        }
    }

    pub fn number(&self, slot: Slot) -> u32 {
        self.types[slot as usize].0
    }

    pub fn syntax(&self, slot: Slot) -> Syntax {
        self.types[slot as usize].1
    }

    /// The value as one of the type, if it fits the type's syntax.
    pub fn value<'a>(&self, slot: Slot, bytes: &'a [u8]) -> Option<Value<'a>> {
        Value::new(self.syntax(slot), bytes)
    }
}

impl Default for Schema {
    fn default() -> Self {
        Schema::new()
    }
}

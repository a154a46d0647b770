//! Names: parts from depth 1 down.

use crate::fault::Fault;
use crate::schema::{Schema, Slot};
use crate::value::Value;

#[derive(Clone, Copy, Debug, PartialEq, Eq)]
pub struct Part<'a> {
    pub slot: Slot,
    pub value: Value<'a>,
}

impl<'a> Part<'a> {
    pub fn new(schema: &Schema, number: u32, bytes: &'a [u8]) -> Option<Self> {
        let slot = schema.slot(number)?;
        Some(Part { slot, value: schema.value(slot, bytes)? })
    }

    pub fn equals_under(&self, fault: Fault, other: &Part) -> bool {
        self.slot == other.slot && self.value.equals_under(fault, &other.value)
    }
}

/// A name in a request. A part that the schema does not allow is `None` and equals no part.
pub type Asked<'a> = Vec<Option<Part<'a>>>;

/// Whether the asked name begins with `name`.
pub fn begins_with(asked: &[Option<Part>], name: &[Part]) -> bool {
    asked.len() >= name.len()
        && asked.iter().zip(name).all(|(part, wanted)| {
            part.is_some_and(|part| part.equals_under(Fault::UsersCountBlanks, wanted))
        })
}

//! The answer sheet.

use crate::directory::{Directory, Number};
use crate::fault::{planted, Fault};
use crate::form::Form;
use crate::sheet::{append, Line};

/// Column B of line 30.
#[derive(Clone, Copy, Debug, PartialEq, Eq)]
#[repr(u32)]
pub enum Outcome {
    Result = 0,
    NoSuchObject = 1,
    InsufficientAccessRights = 2,
    NoSuchAttributeOrValue = 3,
    InvalidAttributeSyntax = 4,
    AliasProblem = 5,
}

pub struct Answer {
    form: Form,
    sheet: Vec<u8>,
}

impl Answer {
    pub fn new(form: Form, operation: u32, outcome: Outcome) -> Self {
        let mut answer = Answer { form, sheet: Vec::new() };
        answer.line(30, operation, outcome as u32, &[]);
        answer
    }

    pub fn line(&mut self, kind: u32, a: u32, b: u32, bytes: &[u8]) {
        self.marked_line(kind, a, b, 0, bytes);
    }

    /// With column C.
    pub fn marked_line(&mut self, kind: u32, a: u32, b: u32, c: u32, bytes: &[u8]) {
        let bytes = if planted(Fault::BlanksDroppedInAnswers) { bytes.trim_ascii() } else { bytes };
        append(&mut self.sheet, self.form, &Line { kind, a, b, c, bytes });
    }

    /// K 9 for each part of an entry's stored name.
    pub fn name(&mut self, directory: &Directory, number: Number) {
        for &above in directory.entry(number).lineage() {
            let naming = &directory.entry(above.into()).naming;
            self.line(9, directory.schema.number(naming.slot), 0, naming.value.bytes);
        }
    }

    /// B of line 30, for a planted fault.
    pub fn become_alias_problem(&mut self) {
        self.sheet[self.form.digit(2)] = b'5';
    }

    /// C of line 30: the size limit cut the answer.
    pub fn mark_cut(&mut self) {
        let place = if planted(Fault::CutMarkedAtNarrowPlace) { Form::Narrow } else { self.form };
        self.sheet[place.digit(3)] = b'1';
    }

    pub fn into_bytes(self) -> Vec<u8> {
        self.sheet
    }
}

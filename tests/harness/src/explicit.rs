//! Explicit tests: one named expectation each.

use crate::lent::{ask, ask_move};
use crate::limits::TYPES;
use crate::report::Report;
use crate::server::{subject, Server};
use crate::written::{digit, in_columns, Written};
use peer::builder::{
    DirectorySheet, EntryLines, FilterLines, ItemLines, Name, OperationLines, PermissionSheet,
    RequestSheet, Selected, Thing,
};
use peer::caller::{Call, Caller, PANEL_ROOM};
use peer::form::Form;
use peer::moves::Way;
use std::process::ExitCode;

pub struct Explicit {
    server: Box<dyn Server>,
    /// As which calling program and in which form the server is asked.
    pub call: Call,
    report: Report,
}

impl Explicit {
    pub fn new(name: &'static str) -> Self {
        Explicit { server: subject(), call: Call::ALL[0], report: Report::new(name) }
    }

    pub fn finish(self) -> ExitCode {
        self.report.finish()
    }

    /// The longest buffer that the caller lends here.
    pub fn room(&self) -> usize {
        match self.call.caller {
            Caller::Exchange => 65_536,
            Caller::Panel => PANEL_ROOM,
        }
    }

    pub fn check(&mut self, good: bool, what: &str) {
        let Call { caller, form } = self.call;
        self.report.explicit(good, &format!("{caller:?}, {form:?}: {what}"));
    }

    pub fn form(&self) -> Form {
        self.call.form
    }

    /// The highest type.
    pub fn top(&self) -> u32 {
        if self.form() == Form::Wide {
            9_999_999
        } else {
            999
        }
    }

    /// The answer or the refusal, and whether the lent buffer was treated well.
    pub fn ask(
        &self,
        dir: &dyn Written,
        perm: &dyn Written,
        req: &dyn Written,
        room: usize,
    ) -> (Result<Vec<u8>, u64>, bool) {
        let [dir, perm, req] = [dir, perm, req].map(|sheet| sheet.written(self.form()));
        let outcome = ask(self.server.as_ref(), self.call, &dir, &perm, &req, room);
        (outcome.answer().map(<[u8]>::to_vec), outcome.is_sound())
    }

    /// The answer or the refusal of a request in a situation.
    pub fn reply(&self, world: &Situation, request: &RequestSheet) -> Result<Vec<u8>, u64> {
        self.ask(&world.directory, &world.permissions, request, self.room()).0
    }

    /// A number of line 30 by its last digit: A 1, B 2, C 3.
    pub fn digit(&self, answer: &[u8], number: usize) -> char {
        digit(self.form(), answer, number)
    }

    /// Expects a refusal number, or 0 for any answer.
    pub fn expect(
        &mut self,
        what: &str,
        refusal: u64,
        dir: &dyn Written,
        perm: &dyn Written,
        req: &dyn Written,
    ) {
        self.expect_in(self.room(), what, refusal, dir, perm, req);
    }

    /// As `expect`, with a buffer of a length.
    pub fn expect_in(
        &mut self,
        room: usize,
        what: &str,
        refusal: u64,
        dir: &dyn Written,
        perm: &dyn Written,
        req: &dyn Written,
    ) {
        let (reply, sound) = self.ask(dir, perm, req, room);
        let given = reply.err().unwrap_or(0);
        let good = given == refusal && sound;
        self.check(good, &format!("{what}: expected {refusal}, given {given}, sound {sound}"));
    }

    /// Expects an answer byte for byte, given in six columns.
    pub fn answers(&mut self, what: &str, world: &Situation, request: &RequestSheet, text: &str) {
        let (dir, perm) = (&world.directory, &world.permissions);
        let (reply, sound) = self.ask(dir, perm, request, self.room());
        let good = reply.as_deref() == Ok(&in_columns(self.form(), text.as_bytes())[..]) && sound;
        let given = reply.map(|answer| String::from_utf8_lossy(&answer).into_owned());
        self.check(good, &format!("{what}\nexpected\n{text}given {given:?}"));
    }

    /// Expects a moved sheet, or a refusal number.
    pub fn moves(
        &mut self,
        what: &str,
        way: Way,
        sheet: &[u8],
        room: usize,
        expected: Result<&[u8], u64>,
    ) {
        let outcome = ask_move(self.server.as_ref(), way, sheet, room);
        let good = outcome.answer() == expected && outcome.is_sound();
        let given = outcome.reply;
        let expected = expected.map(<[u8]>::len);
        self.report.explicit(
            good,
            &format!("{way:?}, {what}, {room} bytes lent: expected {expected:?}, given {given:?}"),
        );
    }

    /// The truth of a filter in an edition for the only entry below the root: `T`, `F` or `U`.
    fn truth(&self, edition: u32, world: &Situation, filter: FilterLines) -> char {
        let matches = |filter: FilterLines| {
            let request = RequestSheet { edition, ..search_root(2, filter) };
            self.reply(world, &request).is_ok_and(|answer| answer.len() > self.form().line())
        };
        match (matches(filter.clone()), matches(FilterLines::Not(Box::new(filter)))) {
            (true, false) => 'T',
            (false, true) => 'F',
            (false, false) => 'U',
            (true, true) => '!',
        }
    }

    /// By the later logic.
    pub fn expect_truth(
        &mut self,
        what: &str,
        world: &Situation,
        filter: FilterLines,
        truth: char,
    ) {
        self.expect_truth_in(0, what, world, filter, truth);
    }

    pub fn expect_truth_in(
        &mut self,
        edition: u32,
        what: &str,
        world: &Situation,
        filter: FilterLines,
        truth: char,
    ) {
        let given = self.truth(edition, world, filter);
        self.check(given == truth, &format!("{what}: expected {truth}, given {given}"));
    }
}

/// A directory under a permission sheet.
#[derive(Clone, Default)]
pub struct Situation {
    pub directory: DirectorySheet,
    pub permissions: PermissionSheet,
}

impl Situation {
    /// Types 1 octets, 2 text, 3 integer.
    pub fn new(entries: Vec<EntryLines>, items: Vec<ItemLines>) -> Self {
        Situation {
            directory: DirectorySheet { types: TYPES.to_vec(), entries },
            permissions: PermissionSheet { items },
        }
    }
}

/// An entry named by text that holds further values, given in the order of their types.
pub fn person(parent: u32, name: &str, values: &[(u32, &str)]) -> EntryLines {
    let mut entry = EntryLines::bare(parent, 2, name.as_bytes());
    for (kind, value) in values {
        entry.values.push((*kind, value.as_bytes().to_vec()));
    }
    entry.values.sort_by_key(|(kind, _)| *kind);
    entry
}

/// A name of text parts.
pub fn named(parts: &[&str]) -> Name {
    parts.iter().map(|part| (2, part.as_bytes().to_vec())).collect()
}

pub fn grant(precedence: u32, what: Thing, mask: u32) -> ItemLines {
    ItemLines::everywhere(precedence, true, what, mask)
}

pub fn deny(precedence: u32, what: Thing, mask: u32) -> ItemLines {
    ItemLines::everywhere(precedence, false, what, mask)
}

/// A request of the nameless requester at level 0, by the later logic.
pub fn asking(name: Name, operation: OperationLines) -> RequestSheet {
    RequestSheet { level: 0, edition: 0, requester: Vec::new(), name, operation }
}

pub fn search_root(subset: u32, filter: FilterLines) -> RequestSheet {
    let (selected, order) = (Selected::ALL, None);
    let operation = OperationLines::Search { limit: 0, selected, order, subset, filter };
    asking(Vec::new(), operation)
}

//! Each limit and each refusal at its place: what is just allowed and what is not.

mod aliases;
mod buffer;
mod directory;
mod form;
mod moves;
mod order;
mod panel;
mod permissions;
mod request;

use harness::explicit::Explicit;
use harness::written::L;
use peer::caller::{Call, Caller};
use peer::form::Form;
use std::process::ExitCode;

/// Types 1 octets, 2 text, 3 integer.
pub const TYPES: [L; 3] = [(1, 1, 0, 0, b""), (1, 2, 1, 0, b""), (1, 3, 2, 0, b"")];

/// The sheet of the types and further lines.
pub fn typed(lines: &[L]) -> Vec<L> {
    [&TYPES, lines].concat()
}

fn main() -> ExitCode {
    let mut test = Explicit::new("boundaries");
    for call in Call::ALL {
        test.call = call;
        form::run(&mut test);
        directory::run(&mut test);
        aliases::run(&mut test);
        permissions::run(&mut test);
        request::run(&mut test);
        order::run(&mut test);
    }
    for form in Form::ALL {
        test.call = Call::new(Caller::Exchange, form);
        buffer::run(&mut test);
        panel::run(&mut test);
    }
    moves::run(&mut test);
    test.finish()
}

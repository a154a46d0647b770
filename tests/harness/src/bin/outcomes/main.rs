//! Outcomes, decisions and truth values of documents 01 and 02, one named situation each.

mod aliases;
mod blanks;
mod decisions;
mod editions;
mod filters;
mod high_types;
mod operations;
mod order;
mod panels;

use harness::explicit::Explicit;
use peer::caller::Call;
use std::process::ExitCode;

fn main() -> ExitCode {
    let mut test = Explicit::new("outcomes");
    // Few entries and short answers, so a panel gets what the exchange gets.
    for call in Call::ALL {
        test.call = call;
        decisions::run(&mut test);
        filters::run(&mut test);
        operations::run(&mut test);
        blanks::run(&mut test);
        high_types::run(&mut test);
        editions::run(&mut test);
        aliases::run(&mut test);
        order::run(&mut test);
    }
    panels::run(&mut test);
    test.finish()
}

//! Compares the server under test with the peer over many cases, each as the exchange and as a
//! panel, in either form, and over moves of their directories; and shows by planted faults that a
//! wrong server is found.
//!
//! SEED and CASES (100,000) come from the environment; KEEP names a folder for the files dir,
//! perm and request of the first case that differs.

use harness::cases::{Case, Cases};
use harness::lent::{ask, ask_move, Outcome};
use harness::random::{number_from_environment, Random};
use harness::report::Report;
use harness::server::{subject, Peer, Server, MOVE_REFUSALS, REFUSALS};
use harness::written::digit;
use peer::caller::{Call, Caller, PANEL_ROOM};
use peer::fault::Fault;
use peer::moves::{moved, Way};
use std::collections::BTreeMap;
use std::path::Path;
use std::process::ExitCode;

/// Each refusal must be met as often.
const MET_AT_LEAST: u64 = 300;
/// The outcomes of each operation, which must be met too.
const OUTCOMES: [(char, &str); 4] = [('1', "01235"), ('2', "012345"), ('3', "015"), ('4', "015")];

fn main() -> ExitCode {
    let total = number_from_environment("CASES", 100_000);
    let mut cases = Cases::new(Random::from_environment());
    let mut trial = Trial {
        subject: subject(),
        report: Report::new("differential"),
        hidden: Fault::ALL.to_vec(),
        found: Vec::new(),
    };
    let mut met: BTreeMap<u64, u64> = BTreeMap::new();
    let mut met_by_moves: BTreeMap<u64, u64> = BTreeMap::new();
    let mut outcomes: BTreeMap<(char, char, char), u64> = BTreeMap::new();

    for number in 1..=total {
        let case = cases.next_case();
        let Case { form, dir, perm, req } = &case;
        for caller in Caller::ALL {
            let call = Call::new(caller, *form);
            let longest = if caller == Caller::Panel { PANEL_ROOM } else { usize::MAX };
            let answer = peer::serve_for(call, dir, perm, req, longest);
            let room = cases.room(caller, answer.map_or(200, |answer| answer.len()));
            let serve = |server: &dyn Server| ask(server, call, dir, perm, req, room);
            let what = || format!("{call:?}, room {room}");
            let expected = trial.compare(number, &case, what, serve);
            *met.entry(expected.reply.refusal).or_default() += 1;
            if let Ok(answer) = expected.answer() {
                // Operation, outcome and cut of line 30.
                let [operation, outcome, cut] = [1, 2, 3].map(|place| digit(*form, answer, place));
                *outcomes.entry((operation, outcome, cut)).or_default() += 1;
            }
        }
        for way in Way::ALL {
            // Seldom a sheet of the form that it is to be moved to.
            let often = dir.len() > 40_000 || number % 2 == 0;
            if !often || (way.from() != *form && number % 16 != 0) {
                continue;
            }
            let length = moved(way, dir, usize::MAX).map_or(200, |moved| moved.len());
            let room = cases.room_to_move(length);
            let serve = |server: &dyn Server| ask_move(server, way, dir, room);
            let what = || format!("moved {way:?}, room {room}");
            let expected = trial.compare(number, &case, what, serve);
            *met_by_moves.entry(expected.reply.refusal).or_default() += 1;
        }
    }

    println!("replies by refusal number (0: answered): {met:?}");
    println!("moves by refusal number (0: moved): {met_by_moves:?}");
    for ((operation, outcome, cut), count) in &outcomes {
        println!("answers of operation {operation}, outcome {outcome}, cut {cut}: {count}");
    }
    let mut often = |met: BTreeMap<u64, u64>, refusals: &[u64], least: u64| {
        for refusal in refusals {
            let enough = met.get(refusal).is_some_and(|&count| count >= least.min(total / 300));
            trial.report.check(enough, &format!("refusal {refusal} was met too seldom"));
        }
    };
    often(met, &REFUSALS, MET_AT_LEAST);
    often(met_by_moves, &MOVE_REFUSALS, MET_AT_LEAST / 5);
    for (operation, possible) in OUTCOMES {
        for outcome in possible.chars() {
            let with = |cut| outcomes.get(&(operation, outcome, cut)).copied().unwrap_or_default();
            let enough = with('0') + with('1') >= (MET_AT_LEAST / 5).min(total / 2_000);
            let what = format!("outcome {outcome} of operation {operation} was met too seldom");
            trial.report.check(enough, &what);
        }
    }
    trial.finish()
}

struct Trial {
    subject: Box<dyn Server>,
    report: Report,
    /// Planted faults that have not been found, and those that have, with the case.
    hidden: Vec<Fault>,
    found: Vec<(Fault, u64)>,
}

impl Trial {
    /// Asks the peer, the server under test and the peer with each fault that is still hidden.
    fn compare(
        &mut self,
        number: u64,
        case: &Case,
        what: impl Fn() -> String,
        serve: impl Fn(&dyn Server) -> Outcome,
    ) -> Outcome {
        let expected = serve(&Peer::default());
        let given = serve(self.subject.as_ref());
        let good = given == expected && expected.is_sound() && given.is_sound();
        if !good && self.report.failed() == 0 {
            keep(case);
        }
        self.report.case(good, || {
            describe(&format!("case {number}, {}", what()), case, &expected, &given)
        });
        let found = &mut self.found;
        self.hidden.retain(|&fault| {
            let same = serve(&Peer { fault: Some(fault) }) == expected;
            if !same {
                found.push((fault, number));
            }
            same
        });
        expected
    }

    fn finish(mut self) -> ExitCode {
        for (fault, number) in &self.found {
            println!("planted fault {fault:?}: found at case {number}");
        }
        let equal = self.report.failed() == 0;
        self.report.check(equal, "the server under test differs from the peer");
        for &fault in Fault::ALL {
            let found = !self.hidden.contains(&fault);
            self.report.check(found, &format!("planted fault {fault:?} was not found"));
        }
        self.report.finish()
    }
}

fn keep(case: &Case) {
    if let Some(folder) = std::env::var_os("KEEP") {
        let folder = Path::new(&folder);
        for (name, sheet) in [("dir", &case.dir), ("perm", &case.perm), ("request", &case.req)] {
            if let Err(error) = std::fs::write(folder.join(name), sheet) {
                println!("{name} was not kept: {error}");
            }
        }
    }
}

fn describe(lent: &str, case: &Case, expected: &Outcome, given: &Outcome) -> String {
    let text = |sheet: &[u8]| String::from_utf8_lossy(&sheet[..sheet.len().min(4000)]).into_owned();
    format!(
        "{lent}\n-- dir\n{}-- perm\n{}-- request\n{}-- expected {}\n-- given {}",
        text(&case.dir),
        text(&case.perm),
        text(&case.req),
        expected.describe(),
        given.describe()
    )
}

//! Both forms: random directories moved there and back, and the same lines asked in six and in nine
//! columns, which must give the same lines. Planted faults show that a difference is found.
//!
//! SEED and FORMS (3,000) come from the environment.

use harness::damage::{damage, Which};
use harness::lent::{ask, ask_move};
use harness::random::{number_from_environment, Random};
use harness::report::Report;
use harness::requests::request;
use harness::server::{subject, Peer, Server};
use harness::world::{directory, world};
use harness::written::in_columns;
use peer::caller::{Call, Caller, PANEL_ROOM};
use peer::fault::Fault;
use peer::form::Form;
use peer::moves::Way;
use peer::sheet::Lines;
use std::process::ExitCode;

const ROOM: usize = 1 << 18;

/// Faults of moves that moving there and back must find.
const OF_MOVES: [Fault; 9] = [
    Fault::EightColumns,
    Fault::MoveJudgesOtherForm,
    Fault::MoveTrimsValues,
    Fault::HighTypesMovedBack,
    Fault::MovedEqualLengthRefused,
    Fault::MovedRoomByOldLength,
    Fault::MovedRoomUnjudged,
    Fault::MovedLengthOff,
    Fault::MoveWritesBeyond,
];

/// Faults that the same lines in both forms must find.
const OF_LINES: [Fault; 6] = [
    Fault::EightColumns,
    Fault::PermissionsStayNarrow,
    Fault::RequestStaysNarrow,
    Fault::AnswerStaysNarrow,
    Fault::AnswerInOtherForm,
    Fault::CutMarkedAtNarrowPlace,
];

fn main() -> ExitCode {
    let total = number_from_environment("FORMS", 3_000);
    let mut random = Random::from_environment();
    let subject = subject();
    let mut report = Report::new("forms");
    let mut hidden = OF_MOVES.to_vec();
    for number in 1..=total {
        let trip = Trip::new(&mut random);
        let wrong = trip.wrong(subject.as_ref());
        let what = wrong.unwrap_or_default();
        report.case(wrong.is_none(), || format!("directory {number}: {what}"));
        hidden.retain(|&fault| trip.wrong(&Peer { fault: Some(fault) }).is_none());
    }
    let equal = report.failed() == 0;
    report.check(equal, "a directory is not moved there and back");
    found(&mut report, &OF_MOVES, &hidden);

    let mut hidden = OF_LINES.to_vec();
    let (mut compared, mut answered) = (0, 0);
    for number in 1..=4 * total {
        let Some(lines) = SameLines::new(&mut random) else {
            continue;
        };
        for caller in Caller::ALL {
            let Some((alike, answer)) = lines.alike(subject.as_ref(), caller) else {
                continue;
            };
            compared += 1;
            answered += u64::from(answer);
            report.case(alike, || format!("case {number}, {caller:?}: {}", lines.describe()));
            hidden.retain(|&fault| {
                let given = lines.alike(&Peer { fault: Some(fault) }, caller);
                given.is_none_or(|(alike, _)| alike)
            });
        }
    }
    println!("{compared} compared in both forms, {answered} of them answered");
    let often = compared > 4 * total && answered > 2 * total && answered < compared - total / 4;
    report.check(often, "answers and refusals are compared too seldom");
    let equal = report.failed() == 0;
    report.check(equal, "the same lines are answered otherwise in the other form");
    found(&mut report, &OF_LINES, &hidden);
    report.finish()
}

fn found(report: &mut Report, faults: &[Fault], hidden: &[Fault]) {
    for fault in faults {
        report.check(!hidden.contains(fault), &format!("planted fault {fault:?} was not found"));
    }
}

/// A directory in both forms, as the builder writes it.
struct Trip {
    narrow: Vec<u8>,
    wide: Vec<u8>,
    /// Types that six columns do not have.
    high: bool,
    /// Of buffers that are longer than need be.
    more: usize,
}

impl Trip {
    fn new(random: &mut Random) -> Self {
        let form = *random.pick(&Form::ALL);
        let directory = directory(random, form);
        let [narrow, wide] = Form::ALL.map(|form| directory.to_bytes(form));
        let high = directory.types.iter().any(|&(kind, _)| kind > 999);
        Trip { narrow, wide, high, more: 1 + random.below(2_000) }
    }

    /// What goes wrong on the way there or back.
    fn wrong(&self, server: &dyn Server) -> Option<&'static str> {
        let moved = |way, room| {
            let sheet = if way == Way::There { &self.narrow } else { &self.wide };
            ask_move(server, way, sheet, room)
        };
        let gives = |way, room, expected: Result<&[u8], u64>| {
            let outcome = moved(way, room);
            outcome.is_sound() && outcome.answer() == expected
        };
        if self.high {
            let refused = [0, self.narrow.len(), ROOM].iter().all(|&room| {
                gives(Way::Back, room, Err(35)) && moved(Way::There, room).reply.refusal != 0
            });
            return (!refused).then_some("high types came back");
        }
        for (way, new) in [(Way::There, &self.wide), (Way::Back, &self.narrow)] {
            let length = new.len();
            if ![length, length + self.more].iter().all(|&room| gives(way, room, Ok(new))) {
                return Some("not moved as it is");
            }
            let short = [0, self.narrow.len() / 2, length.saturating_sub(1)];
            if short.iter().any(|&room| room < length && !gives(way, room, Err(36))) {
                return Some("moved into too short a buffer");
            }
        }
        // What the server itself has moved comes back as it was.
        let there = moved(Way::There, self.wide.len());
        let back = ask_move(server, Way::Back, there.answer().ok()?, self.narrow.len());
        (back.answer() != Ok(&self.narrow[..])).then_some("not the same bytes back")
    }
}

/// Three sheets of the same lines in both forms, without a type above 999.
struct SameLines {
    narrow: [Vec<u8>; 3],
    wide: [Vec<u8>; 3],
}

impl SameLines {
    fn new(random: &mut Random) -> Option<Self> {
        let form = Form::Narrow;
        let world = world(random, form);
        let asked = request(random, form, &world.directory);
        let mut narrow = [
            world.directory.to_bytes(form),
            world.permissions.to_bytes(form),
            asked.to_bytes(form),
        ];
        if random.percent(30) {
            let which = [Which::Directory, Which::Permissions, Which::Request];
            let place = random.below(3);
            damage(random, form, which[place], &mut narrow[place]);
        }
        let whole = narrow.iter().all(|sheet| {
            Lines::new(form, sheet).all(|line| line.is_ok_and(|line| line.a.max(line.b) <= 999))
        });
        let wide = narrow.each_ref().map(|sheet| in_columns(Form::Wide, sheet));
        whole.then_some(SameLines { narrow, wide })
    }

    /// Whether both forms give the same lines, or the same refusal, and whether they answer;
    /// nothing if one of them is refused for a length.
    fn alike(&self, server: &dyn Server, caller: Caller) -> Option<(bool, bool)> {
        let room = if caller == Caller::Panel { PANEL_ROOM } else { ROOM };
        let [narrow, wide] = [(Form::Narrow, &self.narrow), (Form::Wide, &self.wide)].map(
            |(form, [dir, perm, req])| ask(server, Call::new(caller, form), dir, perm, req, room),
        );
        let of_length = |refusal| matches!(refusal, 1 | 11 | 21 | 31 | 33);
        if of_length(narrow.reply.refusal) || of_length(wide.reply.refusal) {
            return None;
        }
        let answered = narrow.answer().is_ok();
        let alike = match (narrow.answer(), wide.answer()) {
            (Ok(narrow), Ok(wide)) => in_columns(Form::Wide, narrow) == wide,
            (Err(narrow), Err(wide)) => narrow == wide,
            _ => false,
        };
        Some((alike, answered))
    }

    fn describe(&self) -> String {
        self.narrow.each_ref().map(|sheet| String::from_utf8_lossy(sheet)).join("--\n")
    }
}

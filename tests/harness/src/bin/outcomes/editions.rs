//! The later logic and the first edition: the operators' truth tables, and what a front desk finds
//! whose handset follows the one or the other.

use super::operations::{compare, entry, head, held, line, list, read, search};
use harness::explicit::{deny, grant, named, person, Explicit, Situation};
use harness::limits::open;
use peer::builder::FilterLines::{And, Equality, Not, Or, Present};
use peer::builder::{FilterLines, ItemLines, RequestSheet, Selected, Thing, User};

const LATER: u32 = 0;
const FIRST: u32 = 1;

/// The parts, then "and" and "or" of them by the later logic, then both by the first edition.
const TABLE: [(&str, [char; 2], [char; 2]); 40] = [
    ("", ['T', 'F'], ['T', 'F']),
    ("T", ['T', 'T'], ['T', 'T']),
    ("F", ['F', 'F'], ['F', 'F']),
    ("U", ['U', 'U'], ['U', 'U']),
    ("TT", ['T', 'T'], ['T', 'T']),
    ("TF", ['F', 'T'], ['F', 'T']),
    ("TU", ['U', 'T'], ['T', 'T']),
    ("FT", ['F', 'T'], ['F', 'T']),
    ("FF", ['F', 'F'], ['F', 'F']),
    ("FU", ['F', 'U'], ['F', 'F']),
    ("UT", ['U', 'T'], ['T', 'T']),
    ("UF", ['F', 'U'], ['F', 'F']),
    ("UU", ['U', 'U'], ['U', 'U']),
    ("TTT", ['T', 'T'], ['T', 'T']),
    ("TTF", ['F', 'T'], ['F', 'T']),
    ("TTU", ['U', 'T'], ['T', 'T']),
    ("TFT", ['F', 'T'], ['F', 'T']),
    ("TFF", ['F', 'T'], ['F', 'T']),
    ("TFU", ['F', 'T'], ['F', 'T']),
    ("TUT", ['U', 'T'], ['T', 'T']),
    ("TUF", ['F', 'T'], ['F', 'T']),
    ("TUU", ['U', 'T'], ['T', 'T']),
    ("FTT", ['F', 'T'], ['F', 'T']),
    ("FTF", ['F', 'T'], ['F', 'T']),
    ("FTU", ['F', 'T'], ['F', 'T']),
    ("FFT", ['F', 'T'], ['F', 'T']),
    ("FFF", ['F', 'F'], ['F', 'F']),
    ("FFU", ['F', 'U'], ['F', 'F']),
    ("FUT", ['F', 'T'], ['F', 'T']),
    ("FUF", ['F', 'U'], ['F', 'F']),
    ("FUU", ['F', 'U'], ['F', 'F']),
    ("UTT", ['U', 'T'], ['T', 'T']),
    ("UTF", ['F', 'T'], ['F', 'T']),
    ("UTU", ['U', 'T'], ['T', 'T']),
    ("UFT", ['F', 'T'], ['F', 'T']),
    ("UFF", ['F', 'U'], ['F', 'F']),
    ("UFU", ['F', 'U'], ['F', 'F']),
    ("UUT", ['U', 'T'], ['T', 'T']),
    ("UUF", ['F', 'U'], ['F', 'F']),
    ("UUU", ['U', 'U'], ['U', 'U']),
];

pub fn run(test: &mut Explicit) {
    table(test);
    nested(test);
    items(test);
    front_desk(test);
    secrets(test);
    permissions(test);
}

/// An entry that holds 2, holds 3, on which FilterMatch is refused, and does not hold 1.
fn world() -> Situation {
    let mut items = open();
    items.push(deny(9, Thing::Type(3), 32));
    Situation::new(vec![person(0, "Ann", &[(3, "7")])], items)
}

/// Present on a type held, not held, or refused.
fn part(truth: char) -> FilterLines {
    match truth {
        'T' => Present(2),
        'F' => Present(1),
        _ => Present(3),
    }
}

fn not(filter: FilterLines) -> FilterLines {
    Not(Box::new(filter))
}

fn table(test: &mut Explicit) {
    let world = world();
    for edition in [LATER, FIRST] {
        for (given, truth) in [('T', 'F'), ('F', 'T'), ('U', 'U')] {
            let what = format!("edition {edition}: not {given}");
            test.expect_truth_in(edition, &what, &world, not(part(given)), truth);
        }
        for (given, later, first) in TABLE {
            let [and, or] = if edition == FIRST { first } else { later };
            let parts = || given.chars().map(part).collect();
            let what = format!("edition {edition}: and({given})");
            test.expect_truth_in(edition, &what, &world, And(parts()), and);
            let what = format!("edition {edition}: or({given})");
            test.expect_truth_in(edition, &what, &world, Or(parts()), or);
        }
    }
    // Each list of up to three parts stands in the table.
    let more = |lists: Vec<String>| -> Vec<String> {
        lists
            .iter()
            .flat_map(|list| "TFU".chars().map(move |last| format!("{list}{last}")))
            .collect()
    };
    let mut lists = vec![String::new()];
    for _ in 0..=3 {
        for list in &lists {
            let rows = TABLE.iter().filter(|(given, ..)| given == list).count();
            test.check(rows == 1, &format!("{rows} rows for {list:?}"));
        }
        lists = more(lists);
    }
}

fn nested(test: &mut Explicit) {
    let world = world();
    let (t, f, u) = (|| part('T'), || part('F'), || part('U'));
    for (what, filter, later, first) in [
        ("not not U", not(not(u())), 'U', 'U'),
        ("not and(U, T)", not(And(vec![u(), t()])), 'U', 'F'),
        ("not or(U, F)", not(Or(vec![u(), f()])), 'U', 'T'),
        ("and(not U, T)", And(vec![not(u()), t()]), 'U', 'T'),
        ("or(not U, F)", Or(vec![not(u()), f()]), 'U', 'F'),
        ("and(or(U, F), T)", And(vec![Or(vec![u(), f()]), t()]), 'U', 'F'),
        ("or(and(U, T), F)", Or(vec![And(vec![u(), t()]), f()]), 'U', 'T'),
        ("and(and(U), or(U, U))", And(vec![And(vec![u()]), Or(vec![u(), u()])]), 'U', 'U'),
        ("or(and(U), F)", Or(vec![And(vec![u()]), f()]), 'U', 'F'),
        ("not or(and(U), F)", not(Or(vec![And(vec![u()]), f()])), 'U', 'T'),
        ("and(U, and())", And(vec![u(), And(vec![])]), 'U', 'T'),
        ("or(U, or())", Or(vec![u(), Or(vec![])]), 'U', 'F'),
        ("not(and())", not(And(vec![])), 'F', 'F'),
        ("not(or())", not(Or(vec![])), 'T', 'T'),
    ] {
        test.expect_truth_in(LATER, &format!("later logic: {what}"), &world, filter.clone(), later);
        test.expect_truth_in(FIRST, &format!("first edition: {what}"), &world, filter, first);
    }
}

/// What makes an item undefined is the same in both.
fn items(test: &mut Explicit) {
    let world = world();
    let bytes = |text: &str| text.as_bytes().to_vec();
    for (what, filter, truth) in [
        ("held", Present(2), 'T'),
        ("not held", Present(1), 'F'),
        ("refused", Present(3), 'U'),
        ("refused, equal", Equality(3, bytes("7")), 'U'),
        ("unknown type", Present(7), 'U'),
        ("outside the syntax", Equality(2, bytes("a\n")), 'U'),
        ("no rule", FilterLines::AtLeast(1, bytes("a")), 'U'),
        ("a piece outside", FilterLines::Substrings(2, vec![(1, bytes("\n"))]), 'U'),
        ("not equal", Equality(2, bytes("Bob")), 'F'),
    ] {
        for edition in [LATER, FIRST] {
            let what = format!("edition {edition}: {what}");
            test.expect_truth_in(edition, &what, &world, filter.clone(), truth);
        }
    }
}

/// Guests Ann and Bob, each with a value of 3. The desk may not consult that field.
fn guests(ann: &str, bob: &str) -> Situation {
    let mut items = open();
    let desk = User::Named(named(&["Desk"]));
    items.push(ItemLines { who: desk, ..deny(9, Thing::Type(3), 63) });
    let entries = vec![person(0, "Ann", &[(3, ann)]), person(0, "Bob", &[(3, bob)])];
    Situation::new(entries, items)
}

fn from_desk(edition: u32, filter: FilterLines) -> RequestSheet {
    let plain = search(&[], 2, 0, filter);
    RequestSheet { edition, requester: named(&["Desk"]), ..plain }
}

fn name(text: &str) -> FilterLines {
    Equality(2, text.as_bytes().to_vec())
}

fn field(text: &str) -> FilterLines {
    Equality(3, text.as_bytes().to_vec())
}

/// Nobody is found at the root.
fn found(names: &[&str]) -> String {
    let entries: String = names.iter().map(|name| entry(&[*name])).collect();
    if names.is_empty() {
        head(4, 1, 0)
    } else {
        head(4, 0, 0) + &entries
    }
}

/// The questions of the desk, the story of each, and whom it finds by the later logic and in the
/// first edition.
fn stories() -> Vec<(&'static str, FilterLines, &'static [&'static str], &'static [&'static str])> {
    vec![
        ("asks for the field it may not consult", field("12"), &[], &[]),
        ("asks for guests without that field's value", not(field("12")), &[], &[]),
        (
            "asks for a name and the field it may not consult",
            And(vec![name("Ann"), field("12")]),
            &[],
            &["Ann"],
        ),
        (
            "asks for a name and a value that the guest does not have",
            And(vec![name("Ann"), field("14")]),
            &[],
            &["Ann"],
        ),
        (
            "asks for a name and not the field it may not consult",
            And(vec![name("Ann"), not(field("12"))]),
            &[],
            &["Ann"],
        ),
        (
            "denies a name and the field together",
            not(And(vec![name("Ann"), field("12")])),
            &["Bob"],
            &["Bob"],
        ),
        ("asks for a name or the field", Or(vec![name("Ann"), field("14")]), &["Ann"], &["Ann"]),
        ("denies a name or the field", not(Or(vec![name("Ann"), field("14")])), &[], &["Bob"]),
        ("asks for the field alone under and", And(vec![field("12"), field("14")]), &[], &[]),
        ("denies the field alone under or", not(Or(vec![field("12"), field("14")])), &[], &[]),
    ]
}

fn front_desk(test: &mut Explicit) {
    let world = guests("12", "14");
    for (story, filter, later, first) in stories() {
        let what = format!("a desk with a later handset {story}");
        test.answers(&what, &world, &from_desk(LATER, filter.clone()), &found(later));
        let what = format!("a desk with a first-edition handset {story}");
        test.answers(&what, &world, &from_desk(FIRST, filter), &found(first));
    }
    // The manager may consult the field: both handsets find the same.
    let both = And(vec![name("Ann"), field("12")]);
    for edition in [LATER, FIRST] {
        let request = RequestSheet { edition, ..search(&[], 2, 0, both.clone()) };
        let what = format!("edition {edition}: a manager asks for the name and the field");
        test.answers(&what, &world, &request, &found(&["Ann"]));
        let request = RequestSheet { edition, ..search(&[], 2, 0, not(both.clone())) };
        let what = format!("edition {edition}: a manager asks for the others");
        test.answers(&what, &world, &request, &found(&["Bob"]));
    }
}

/// In either edition the desk finds the same whatever the field holds.
fn secrets(test: &mut Explicit) {
    for (ann, bob) in [("14", "12"), ("12", "12"), ("0", "-1")] {
        let world = guests(ann, bob);
        for (story, filter, later, first) in stories() {
            let what = format!("with {ann} and {bob} a desk with a later handset {story}");
            test.answers(&what, &world, &from_desk(LATER, filter.clone()), &found(later));
            let what = format!("with {ann} and {bob} a desk with a first-edition handset {story}");
            test.answers(&what, &world, &from_desk(FIRST, filter), &found(first));
        }
    }
}

/// No permission depends on the edition: the other operations answer alike.
fn permissions(test: &mut Explicit) {
    let world = guests("12", "14");
    let desk = |edition, request: RequestSheet| RequestSheet {
        edition,
        requester: named(&["Desk"]),
        ..request
    };
    let ann = head(1, 0, 0) + &entry(&["Ann"]) + &held(2, &["Ann"]);
    let children: String = ["Ann", "Bob"].iter().map(|name| line(32, 2, 0, 0, name)).collect();
    let mut higher = world.clone();
    higher.permissions.items = vec![ItemLines { level: 1, ..grant(0, Thing::Entry, 63) }];
    for edition in [LATER, FIRST] {
        let what = |what: &str| format!("edition {edition}: {what}");
        let request = desk(edition, read(&["Ann"], Selected::ALL));
        test.answers(&what("read"), &world, &request, &ann);
        let request = desk(edition, compare(&["Ann"], 3, "12"));
        test.answers(&what("compare"), &world, &request, &head(2, 3, 0));
        let request = desk(edition, list(&[], 0));
        test.answers(&what("list"), &world, &request, &(head(3, 0, 0) + &children));
        let request = desk(edition, read(&["Ann"], Selected::ALL));
        test.answers(&what("a grant for a higher level"), &higher, &request, &head(1, 1, 0));
    }
}

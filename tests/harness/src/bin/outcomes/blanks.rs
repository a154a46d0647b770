//! Blanks in text: which count, and that answers print what is stored.

use super::operations::{compare, entry, head, held, line, list, name_lines, on, read, search};
use harness::explicit::{deny, grant, named, person, Explicit, Situation};
use harness::limits::open;
use peer::builder::FilterLines::{AtLeast, AtMost, Equality, Substrings};
use peer::builder::{EntryLines, FilterLines, ItemLines, RequestSheet, Selected, Thing, User};

fn bytes(text: &str) -> Vec<u8> {
    text.as_bytes().to_vec()
}

/// One entry that holds the text, named by octets.
fn holding(text: &str) -> Situation {
    let mut entry = EntryLines::bare(0, 1, b"o");
    entry.values.push((2, bytes(text)));
    Situation::new(vec![entry], open())
}

pub fn run(test: &mut Explicit) {
    equality(test);
    order(test);
    pieces(test);
    names(test);
    values(test);
    users(test);
}

fn equality(test: &mut Explicit) {
    for (stored, given, truth) in [
        ("Ann", "ann ", 'T'),
        ("Ann", " ANN", 'T'),
        ("Ann  ", "ann", 'T'),
        ("   Ann", "  ann    ", 'T'),
        ("a b", "a   B", 'T'),
        ("a   b", "A b", 'T'),
        (" a  b ", "a b", 'T'),
        ("a b", "ab", 'F'),
        ("ab", "a b", 'F'),
        ("a b c", "a bc", 'F'),
        (" ", "   ", 'T'),
        ("   ", " ", 'T'),
        (" ", "a", 'F'),
        ("a", " ", 'F'),
        ("a", "", 'U'),
    ] {
        let what = format!("{stored:?} equal to {given:?}");
        test.expect_truth(&what, &holding(stored), Equality(2, bytes(given)), truth);
    }
    let world = Situation::new(vec![person(0, "Ann", &[(1, "o "), (3, "7")])], open());
    for (what, filter, truth) in [
        ("octets keep their blanks", Equality(1, bytes("o ")), 'T'),
        ("octets without their blank", Equality(1, bytes("o")), 'F'),
        ("octets with two blanks", Equality(1, bytes("o  ")), 'F'),
        ("an integer has no blank before", Equality(3, bytes(" 7")), 'U'),
        ("an integer has no blank after", AtLeast(3, bytes("7 ")), 'U'),
    ] {
        test.expect_truth(what, &world, filter, truth);
    }
}

fn order(test: &mut Explicit) {
    let mut expect = |stored: &str, given: &str, at_least: char, at_most: char| {
        let world = holding(stored);
        let what = format!("{stored:?} at least {given:?}");
        test.expect_truth(&what, &world, AtLeast(2, bytes(given)), at_least);
        let what = format!("{stored:?} at most {given:?}");
        test.expect_truth(&what, &world, AtMost(2, bytes(given)), at_most);
    };
    for stored in ["a b", "a  b", " a b "] {
        for given in ["a b", "A  B", " a b "] {
            expect(stored, given, 'T', 'T');
        }
    }
    // Stored above, then below.
    for (stored, given) in [
        (" b", "a"),
        ("b", "  a"),
        ("a  c", "a b"),
        ("a c", "a   b"),
        ("ab", "a b"),
        ("a b", "a  "),
        ("a!", "a "),
        ("a-b", "a  b"),
        ("!", "   "),
        ("a", " "),
    ] {
        expect(stored, given, 'T', 'F');
        expect(given, stored, 'F', 'T');
    }
    expect("  ", " ", 'T', 'T');
    expect("z ", "Z", 'T', 'T');
}

fn pieces(test: &mut Explicit) {
    const INITIAL: u32 = 0;
    const ANY: u32 = 1;
    const FINAL: u32 = 2;
    let cases: [(&str, &[(u32, &str)], char); 45] = [
        ("a  b", &[(INITIAL, "a ")], 'T'),
        ("a  b", &[(INITIAL, "a  ")], 'T'),
        ("a  b", &[(INITIAL, "a b")], 'T'),
        ("a b", &[(INITIAL, "A  B")], 'T'),
        ("ab", &[(INITIAL, "a ")], 'F'),
        ("a ", &[(INITIAL, "a ")], 'F'),
        ("a ", &[(INITIAL, "a")], 'T'),
        ("  a", &[(INITIAL, "a")], 'T'),
        ("  a", &[(INITIAL, " a")], 'F'),
        ("a", &[(INITIAL, " a")], 'F'),
        ("a  b", &[(FINAL, " b")], 'T'),
        ("a b", &[(FINAL, "  b")], 'T'),
        ("ab", &[(FINAL, " b")], 'F'),
        (" b", &[(FINAL, " b")], 'F'),
        ("b  ", &[(FINAL, "b")], 'T'),
        ("b  ", &[(FINAL, "b ")], 'F'),
        ("b", &[(FINAL, "b ")], 'F'),
        ("a   b", &[(ANY, "a b")], 'T'),
        ("a b", &[(ANY, "a   b")], 'T'),
        ("a  b", &[(ANY, "A  b")], 'T'),
        ("ab", &[(ANY, "a b")], 'F'),
        ("x a   b y", &[(ANY, "  a b  ")], 'T'),
        ("a b y", &[(ANY, " a")], 'F'),
        ("x a b", &[(ANY, "b ")], 'F'),
        // A blank alone.
        ("a b", &[(ANY, " ")], 'T'),
        ("ab", &[(ANY, " ")], 'F'),
        (" ab ", &[(ANY, " ")], 'F'),
        ("   ", &[(ANY, " ")], 'T'),
        (" a", &[(INITIAL, " ")], 'F'),
        ("  ", &[(INITIAL, " ")], 'T'),
        ("a ", &[(FINAL, " ")], 'F'),
        ("  ", &[(FINAL, " ")], 'T'),
        // Two blanks.
        ("a b", &[(ANY, "  ")], 'T'),
        ("a   b", &[(ANY, "  ")], 'T'),
        ("ab", &[(ANY, "  ")], 'F'),
        ("a  ", &[(ANY, "  ")], 'F'),
        (" ", &[(ANY, "  ")], 'T'),
        (" ", &[(FINAL, "  ")], 'T'),
        // A run is one blank, and taken once.
        ("a   b", &[(ANY, " "), (ANY, " ")], 'F'),
        ("a b  c", &[(ANY, " "), (ANY, " ")], 'T'),
        ("  ", &[(INITIAL, " "), (FINAL, " ")], 'F'),
        ("a  b", &[(INITIAL, "a "), (ANY, " b")], 'F'),
        ("a  b", &[(INITIAL, "a "), (FINAL, "b")], 'T'),
        ("a  b", &[(INITIAL, "a"), (FINAL, " b")], 'T'),
        (" a  b ", &[(INITIAL, "a"), (ANY, " "), (FINAL, "b")], 'T'),
    ];
    for (stored, pieces, truth) in cases {
        let list = pieces.iter().map(|&(place, text)| (place, bytes(text))).collect();
        let what = format!("pieces {pieces:?} in {stored:?}");
        test.expect_truth(&what, &holding(stored), Substrings(2, list), truth);
    }
}

/// " Staff" above "Ann  B", which holds 2: "Ann B " too, and 3: 1.
fn hotel(more: Vec<ItemLines>) -> Situation {
    let mut ann = person(1, "Ann  B", &[(3, "1")]);
    ann.values[0].1 = bytes("ANN B ");
    let mut items = open();
    items.extend(more);
    Situation::new(vec![person(0, " Staff", &[]), ann], items)
}

const STORED: [&str; 2] = [" Staff", "Ann  B"];

fn names(test: &mut Explicit) {
    let world = hotel(vec![]);
    let full = head(1, 0, 0) + &entry(&STORED) + &held(2, &["ANN B "]) + &held(3, &["1"]);
    for asked in [["Staff", "Ann B"], ["  staff  ", " ann   b "], [" Staff", "Ann  B"]] {
        let what = format!("a name asked for as {asked:?}");
        test.answers(&what, &world, &read(&asked, Selected::ALL), &full);
    }
    let absent = head(1, 1, 0) + &name_lines(&[" Staff"]);
    test.answers("a blank too few", &world, &read(&["Staff", "AnnB"], Selected::ALL), &absent);
    let listed = head(3, 0, 0) + &line(32, 2, 0, 0, "Ann  B");
    test.answers("listed as stored", &world, &list(&["staff "], 0), &listed);
    let equal = |equal| head(2, 0, 0) + &line(31, equal, 0, 0, "");
    let asked = ["staff", "ann b"];
    test.answers("compared", &world, &compare(&asked, 2, "  ann  b"), &equal(1));
    test.answers("compared, no blank", &world, &compare(&asked, 2, "annb"), &equal(0));
    test.answers("compared, blanks", &world, &compare(&asked, 2, "  "), &equal(0));
    let blank = Situation::new(vec![person(0, "  ", &[])], open());
    let printed = head(1, 0, 0) + &entry(&["  "]) + &held(2, &["  "]);
    test.answers("blanks alone are a name", &blank, &read(&["    "], Selected::ALL), &printed);
    let absent = head(1, 1, 0);
    test.answers("and not another", &blank, &read(&["a"], Selected::ALL), &absent);
}

/// Items with stray blanks, about values and bases.
fn values(test: &mut Explicit) {
    let value = |text: &str| Thing::Value(2, bytes(text));
    let without = head(1, 0, 0) + &entry(&STORED) + &held(3, &["1"]);
    let with = head(1, 0, 0) + &entry(&STORED) + &held(2, &["ANN B "]) + &held(3, &["1"]);
    let asked = read(&["staff", "ann b"], Selected::ALL);
    for (text, expected) in [
        ("ann b", &without),
        ("  Ann   B  ", &without),
        ("AnnB", &with),
        ("Ann", &with),
        (" ", &with),
    ] {
        let what = format!("the value {text:?} denied");
        test.answers(&what, &hotel(vec![deny(9, value(text), 1)]), &asked, expected);
    }
    let hidden = hotel(vec![on(&["staff  ", "ann B "], false, deny(9, Thing::Entry, 9))]);
    let absent = head(1, 1, 0) + &name_lines(&[" Staff"]);
    test.answers("a base with other blanks", &hidden, &asked, &absent);
    let other = hotel(vec![on(&["staff", "annb"], false, deny(9, Thing::Entry, 9))]);
    test.answers("another base", &other, &asked, &with);
}

fn users(test: &mut Explicit) {
    let user = |parts: &[&str]| User::Named(named(parts));
    let below = |parts: &[&str]| User::AtOrBelow(named(parts));
    for (what, who, requester, granted) in [
        ("named", user(&["Staff", "Ann B"]), ["staff ", " ann  b"], true),
        ("named with blanks", user(&[" Staff ", "Ann   B "]), ["staff", "ann b"], true),
        ("another name", user(&["Staff", "Ann B"]), ["staff", "annb"], false),
        ("below", below(&["  staff"]), ["staff ", "ann"], true),
        ("below another", below(&["st aff"]), ["staff", "ann"], false),
        ("the entry itself", User::Itself, ["staff  ", "ANN     B"], true),
        ("not the entry itself", User::Itself, ["staff", "annb"], false),
    ] {
        let mut world = hotel(vec![]);
        world.permissions.items = vec![ItemLines { who, ..grant(0, Thing::Entry, 6) }];
        let request = RequestSheet {
            requester: named(&requester),
            ..search(&["staff", "ann b"], 0, 0, FilterLines::And(vec![]))
        };
        let found = head(4, 0, 0) + &entry(&STORED);
        let expected = if granted { found } else { head(4, 1, 0) };
        test.answers(&format!("requester: {what}"), &world, &request, &expected);
    }
}

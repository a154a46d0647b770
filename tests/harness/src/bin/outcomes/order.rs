//! The guest's order: keys, ties, entries without a key, limits.

use super::operations::{head, line, on, search};
use harness::explicit::{deny, named, Explicit, Situation};
use harness::limits::open;
use peer::builder::{
    EntryLines, FilterLines, ItemLines, OperationLines, RequestSheet, Selected, Thing,
};
use peer::caller::Caller;

const TEXT: u32 = 2;
const INTEGER: u32 = 3;
const RISING: u32 = 0;
const FALLING: u32 = 1;

/// Entries below the root, named by octets, with values of one type.
fn guests(kind: u32, list: &[(&str, &[&str])]) -> Situation {
    let entries = list.iter().map(|(name, values)| {
        let mut entry = EntryLines::bare(0, 1, name.as_bytes());
        entry.values.extend(values.iter().map(|value| (kind, value.as_bytes().to_vec())));
        entry
    });
    Situation::new(entries.collect(), open())
}

fn and(world: &Situation, items: Vec<ItemLines>) -> Situation {
    let mut world = world.clone();
    world.permissions.items.extend(items);
    world
}

/// A search of all below the root, by names alone, in an order.
fn ordered(kind: u32, direction: u32, size: u32) -> RequestSheet {
    in_order(search(&[], 1, size, FilterLines::And(vec![])), kind, direction)
}

fn in_order(mut request: RequestSheet, kind: u32, direction: u32) -> RequestSheet {
    if let OperationLines::Search { order, .. } = &mut request.operation {
        *order = Some((kind, direction));
    }
    request
}

fn selecting(mut request: RequestSheet, wanted: Selected) -> RequestSheet {
    if let OperationLines::Search { selected, .. } = &mut request.operation {
        *selected = wanted;
    }
    request
}

/// Names of one letter each, in the order found.
fn found(names: &str, cut: u32) -> String {
    let name =
        |letter: char| line(33, 0, 1, 0, "") + &line(9, 1, 0, 0, letter.encode_utf8(&mut [0; 4]));
    head(4, 0, cut) + &names.chars().map(name).collect::<String>()
}

/// Both directions, without a limit.
fn both(test: &mut Explicit, what: &str, world: &Situation, kind: u32, orders: [&str; 2]) {
    for (direction, names) in [RISING, FALLING].into_iter().zip(orders) {
        let what = format!("{what}, direction {direction}");
        test.answers(&what, world, &ordered(kind, direction, 0), &found(names, 0));
    }
}

pub fn run(test: &mut Explicit) {
    integers(test);
    texts(test);
    keyless(test);
    several(test);
    limits(test);
    permissions(test);
    selections(test);
    subsets(test);
    others(test);
}

fn integers(test: &mut Explicit) {
    let world = guests(
        INTEGER,
        &[("A", &["10"]), ("B", &["-9"]), ("C", &["9"]), ("D", &["-10"]), ("E", &["0"])],
    );
    both(test, "integers", &world, INTEGER, ["DBECA", "ACEBD"]);
    let world = guests(
        INTEGER,
        &[
            ("A", &["9223372036854775807"]),
            ("B", &["-9223372036854775808"]),
            ("C", &["-1"]),
            ("D", &["9223372036854775806"]),
            ("E", &["-9223372036854775807"]),
        ],
    );
    both(test, "both ends", &world, INTEGER, ["BECDA", "ADCEB"]);
    let world = guests(
        INTEGER,
        &[("A", &["100"]), ("B", &["20"]), ("C", &["3"]), ("D", &["-100"]), ("E", &["-20"])],
    );
    both(test, "not as text", &world, INTEGER, ["DECBA", "ABCED"]);
    let world = guests(
        INTEGER,
        &[("A", &["7"]), ("B", &["-7"]), ("C", &["7"]), ("D", &["-7"]), ("E", &["7"])],
    );
    both(test, "ties", &world, INTEGER, ["BDACE", "ACEBD"]);
}

fn texts(test: &mut Explicit) {
    for (what, values, orders) in [
        ("letters", ["b", "A", "a b", "a", "ab"], ["BDCEA", "AECBD"]),
        (
            "equal but for letters and blanks",
            ["ann", " ANN", "Ann  ", "aNn", "  anN "],
            ["ABCDE"; 2],
        ),
        ("equal but for a run", ["a  b", "A b", " a    B", "a b ", "a b"], ["ABCDE"; 2]),
        ("blanks alone", ["!", "  ", "a", " ", "   "], ["BDEAC", "CABDE"]),
        ("a prefix first", ["ann", "a", "anna", "an", "A"], ["BEDAC", "CADBE"]),
        ("between the letters", ["a", "_", "Z", "~", "["], ["EBACD", "DCABE"]),
        ("digits", ["10", "9", "1", "02", "2"], ["DCAEB", "BEACD"]),
        ("blanks before", ["  b", "a", " c", "   B", "C"], ["BADCE", "CEADB"]),
        ("blanks within", ["ab", "a b", "a  a", "a", "a!b"], ["DCBEA", "AEBCD"]),
    ] {
        let names = ["A", "B", "C", "D", "E"];
        let held = values.map(|value| [value]);
        let list: Vec<(&str, &[&str])> =
            names.into_iter().zip(held.iter().map(|value| &value[..])).collect();
        both(test, what, &guests(TEXT, &list), TEXT, orders);
    }
    let long = "x".repeat(63);
    let [low, high, upper] = ["a", "b", "A"].map(|last| long.clone() + last);
    let list: [(&str, &[&str]); 4] =
        [("A", &[&high]), ("B", &[&low]), ("C", &[&long]), ("D", &[&upper])];
    both(test, "64 bytes", &guests(TEXT, &list), TEXT, ["CBDA", "ABDC"]);
}

fn keyless(test: &mut Explicit) {
    let world =
        guests(INTEGER, &[("A", &[]), ("B", &["2"]), ("C", &[]), ("D", &["1"]), ("E", &[])]);
    both(test, "some without a key", &world, INTEGER, ["DBACE", "BDACE"]);
    both(test, "all without a key", &world, TEXT, ["ABCDE"; 2]);
    let world = guests(INTEGER, &[("A", &["1"]), ("B", &[]), ("C", &["1"]), ("D", &[])]);
    both(test, "ties, and some without", &world, INTEGER, ["ACBD"; 2]);
    let world = guests(INTEGER, &[("A", &[]), ("B", &["9223372036854775807"])]);
    both(test, "the greatest before none", &world, INTEGER, ["BA"; 2]);
    let world = guests(INTEGER, &[("A", &[]), ("B", &["-9223372036854775808"])]);
    both(test, "the least before none", &world, INTEGER, ["BA"; 2]);
}

/// The smallest value is the key, falling too.
fn several(test: &mut Explicit) {
    let world = guests(
        INTEGER,
        &[
            ("A", &["5", "1"]),
            ("B", &["2"]),
            ("C", &["9", "3"]),
            ("D", &["-8", "99"]),
            ("E", &["4"]),
        ],
    );
    both(test, "several values", &world, INTEGER, ["DABCE", "ECBAD"]);
    let world = guests(
        TEXT,
        &[("A", &["z", " B "]), ("B", &["C", "a"]), ("C", &["b", "y"]), ("D", &["x", "~", "A  "])],
    );
    both(test, "several texts", &world, TEXT, ["BDAC", "ACBD"]);
}

/// Each limit keeps the first ones after ordering; C says whether more were found.
fn limits(test: &mut Explicit) {
    let world =
        guests(INTEGER, &[("A", &["3"]), ("B", &["5"]), ("C", &[]), ("D", &["1"]), ("E", &["3"])]);
    for (direction, names) in [(RISING, "DAEBC"), (FALLING, "BAEDC")] {
        for limit in 0..=6 {
            let kept = if limit == 0 { 5 } else { limit.min(5) };
            let cut = u32::from(kept < 5);
            let what = format!("limit {limit} of five, direction {direction}");
            let request = ordered(INTEGER, direction, limit);
            test.answers(&what, &world, &request, &found(&names[..kept as usize], cut));
        }
    }
    let eight: [(&str, &[&str]); 8] = [
        ("A", &["8"]),
        ("B", &["7"]),
        ("C", &["6"]),
        ("D", &["5"]),
        ("E", &["4"]),
        ("F", &["3"]),
        ("G", &["2"]),
        ("H", &["1"]),
    ];
    let world = guests(INTEGER, &eight);
    let most = if test.call.caller == Caller::Panel { 5 } else { 8 };
    for (direction, names) in [(RISING, "HGFEDCBA"), (FALLING, "ABCDEFGH")] {
        for limit in 0..=9 {
            let kept = if limit == 0 { most } else { limit.min(most) };
            let what = format!("limit {limit} of eight, direction {direction}");
            let request = ordered(INTEGER, direction, limit);
            let expected = found(&names[..kept as usize], u32::from(kept < 8));
            test.answers(&what, &world, &request, &expected);
        }
    }
    // Withheld entries, and those that do not match, are no more.
    let mut withheld = world.clone();
    for (name, mask) in [("H", 2), ("B", 4), ("E", 6)] {
        let item = deny(9, Thing::Entry, mask);
        let base = vec![(1, name.as_bytes().to_vec())];
        withheld.permissions.items.push(ItemLines { base, subtree: false, ..item });
    }
    let five = ordered(INTEGER, RISING, 5);
    test.answers("five left of eight", &withheld, &five, &found("GFDCA", 0));
    let four = ordered(INTEGER, FALLING, 4);
    test.answers("four of the five", &withheld, &four, &found("ACDF", 1));
    let few = FilterLines::AtMost(INTEGER, b"4".to_vec());
    let request = in_order(search(&[], 1, 4, few.clone()), INTEGER, RISING);
    test.answers("four that match", &world, &request, &found("HGFE", 0));
    let request = in_order(search(&[], 1, 3, few), INTEGER, FALLING);
    test.answers("three of four that match", &world, &request, &found("EFG", 1));
}

/// A key needs Read on the type and on the value.
fn permissions(test: &mut Explicit) {
    let world =
        guests(INTEGER, &[("A", &["3"]), ("B", &["2", "7"]), ("C", &["1", "9"]), ("D", &["8"])]);
    let value = |text: &str| Thing::Value(INTEGER, text.as_bytes().to_vec());
    let on_entry = |name: &str, item: ItemLines| ItemLines {
        base: vec![(1, name.as_bytes().to_vec())],
        subtree: false,
        ..item
    };
    both(test, "everything read", &world, INTEGER, ["CBAD", "DABC"]);
    for (what, items, orders) in [
        ("no Read on the type", vec![deny(9, Thing::Type(INTEGER), 1)], ["ABCD"; 2]),
        ("no Read on any type", vec![deny(9, Thing::AllTypes, 1)], ["ABCD"; 2]),
        ("no Read on the values", vec![deny(9, Thing::ValuesOf(INTEGER), 1)], ["ABCD"; 2]),
        ("no Read on the smallest value", vec![deny(9, value("1"), 1)], ["BADC", "CDAB"]),
        (
            "no Read on two values",
            vec![deny(9, value("1"), 1), deny(9, value("2"), 1)],
            ["ABDC", "CDBA"],
        ),
        ("no Read on an only value", vec![deny(9, value("8"), 1)], ["CBAD", "ABCD"]),
        ("no Read on another value", vec![deny(9, value("5"), 1)], ["CBAD", "DABC"]),
        (
            "no Read on the type in one entry",
            vec![on_entry("C", deny(9, Thing::Type(INTEGER), 1))],
            ["BADC", "DABC"],
        ),
        (
            "no Read on the values in one entry",
            vec![on_entry("A", deny(9, Thing::ValuesOf(INTEGER), 1))],
            ["CBDA", "DBCA"],
        ),
        ("nothing but Read", vec![deny(9, Thing::AllTypesAndValues, 62)], ["CBAD", "DABC"]),
        ("no Read on the entries", vec![deny(9, Thing::Entry, 9)], ["CBAD", "DABC"]),
    ] {
        both(test, what, &and(&world, items), INTEGER, orders);
    }
    // What is out of sight changes nothing.
    for hidden in ["-5", "0", "2", "99"] {
        let mut other = and(&world, vec![on_entry("B", deny(9, Thing::ValuesOf(INTEGER), 63))]);
        other.directory.entries[1].values[1].1 = hidden.as_bytes().to_vec();
        both(test, &format!("{hidden} out of sight"), &other, INTEGER, ["CADB", "DACB"]);
    }
}

/// The key need not be selected.
fn selections(test: &mut Explicit) {
    let world = guests(INTEGER, &[("A", &["2"]), ("B", &["1"])]);
    let listed = |types: &[u32], values| Selected { types: Some(types.to_vec()), values };
    let entry = |name: &str| line(33, 0, 1, 0, "") + &line(9, 1, 0, 0, name);
    let octets = |name: &str, count| line(34, 1, count, 0, "") + &line(35, 0, 0, 0, name);
    let number = |value: &str| line(34, 3, 1, 0, "") + &line(35, 0, 0, 0, value);
    for (what, selected, of_a, of_b) in [
        ("nothing", listed(&[], true), String::new(), String::new()),
        ("another type", listed(&[1], true), octets("A", 1), octets("B", 1)),
        ("an unknown type", listed(&[7], true), String::new(), String::new()),
        ("the key", listed(&[3], true), number("2"), number("1")),
        ("all", Selected::ALL, octets("A", 1) + &number("2"), octets("B", 1) + &number("1")),
        (
            "all types",
            Selected { types: None, values: false },
            line(34, 1, 0, 0, "") + &line(34, 3, 0, 0, ""),
            line(34, 1, 0, 0, "") + &line(34, 3, 0, 0, ""),
        ),
    ] {
        let rising = selecting(ordered(INTEGER, RISING, 0), selected.clone());
        let expected = head(4, 0, 0) + &entry("B") + &of_b + &entry("A") + &of_a;
        test.answers(&format!("{what} selected, rising"), &world, &rising, &expected);
        let falling = selecting(ordered(INTEGER, FALLING, 0), selected);
        let expected = head(4, 0, 0) + &entry("A") + &of_a + &entry("B") + &of_b;
        test.answers(&format!("{what} selected, falling"), &world, &falling, &expected);
    }
}

/// Staff (3: 5) above Ann (3: 9) and Bob (3: 1); Ann above Cid (3: 3).
fn staff() -> Situation {
    let person = harness::explicit::person;
    let entries = vec![
        person(0, "Staff", &[(3, "5")]),
        person(1, "Ann", &[(3, "9")]),
        person(1, "Bob", &[(3, "1")]),
        person(2, "Cid", &[(3, "3")]),
    ];
    Situation::new(entries, open())
}

fn subsets(test: &mut Explicit) {
    let world = staff();
    let entry = super::operations::entry;
    let [staff, ann, bob, cid] =
        [&["Staff"][..], &["Staff", "Ann"], &["Staff", "Bob"], &["Staff", "Ann", "Cid"]].map(entry);
    let all = || FilterLines::And(vec![]);
    for (what, base, subset, rising, falling) in [
        ("base", &["Staff"][..], 0, vec![&staff], vec![&staff]),
        ("one level", &["staff"], 1, vec![&bob, &ann], vec![&ann, &bob]),
        ("subtree", &["Staff"], 2, vec![&bob, &cid, &staff, &ann], vec![&ann, &staff, &cid, &bob]),
        ("root", &[], 2, vec![&bob, &cid, &staff, &ann], vec![&ann, &staff, &cid, &bob]),
        ("below", &["staff", "ann"], 2, vec![&cid, &ann], vec![&ann, &cid]),
    ] {
        for (direction, entries) in [(RISING, rising), (FALLING, falling)] {
            let request = in_order(search(base, subset, 0, all()), INTEGER, direction);
            let printed: String = entries.into_iter().cloned().collect();
            let what = format!("{what}, direction {direction}");
            test.answers(&what, &world, &request, &(head(4, 0, 0) + &printed));
        }
    }
    // By name: the naming value is a value like others.
    let request = in_order(search(&[], 2, 0, all()), TEXT, FALLING);
    let printed = [&staff[..], &cid, &bob, &ann].concat();
    test.answers("by name, falling", &world, &request, &(head(4, 0, 0) + &printed));
}

fn others(test: &mut Explicit) {
    let world = staff();
    let nothing = || FilterLines::Or(vec![]);
    let request = in_order(search(&["Staff"], 2, 0, nothing()), INTEGER, RISING);
    test.answers("nothing found, disclosed", &world, &request, &head(4, 0, 0));
    let request = in_order(search(&[], 2, 0, nothing()), INTEGER, RISING);
    test.answers("nothing found at the root", &world, &request, &head(4, 1, 0));
    let request = in_order(search(&["Staff", "x"], 2, 0, nothing()), INTEGER, RISING);
    let absent = head(4, 1, 0) + &super::operations::name_lines(&["Staff"]);
    test.answers("an absent base", &world, &request, &absent);
    // An alias that is met has a key of its own.
    let mut aliased = world.clone();
    let mut nan = harness::explicit::person(1, "Nan", &[(3, "4")]);
    nan.target = Some(named(&["Staff", "Bob"]));
    aliased.directory.entries.push(nan);
    let entry = super::operations::entry;
    let [ann, bob, nan] = [&["Staff", "Ann"][..], &["Staff", "Bob"], &["Staff", "Nan"]].map(entry);
    let all = || FilterLines::And(vec![]);
    let request = in_order(search(&["Staff"], 1, 0, all()), INTEGER, RISING);
    let printed = head(4, 0, 0) + &bob + &nan + &ann;
    test.answers("an alias among them", &aliased, &request, &printed);
    let hidden = and(&aliased, vec![on(&["Staff", "Bob"], true, deny(9, Thing::Entry, 15))]);
    let printed = head(4, 0, 0) + &nan + &ann;
    test.answers("an alias to a hidden entry", &hidden, &request, &printed);
    // The edition concerns the filter alone.
    let first = RequestSheet { edition: 1, ..request };
    let printed = head(4, 0, 0) + &bob + &nan + &ann;
    test.answers("the first edition", &aliased, &first, &printed);
}

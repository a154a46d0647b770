//! Filter items and operators in three truth values.

use harness::explicit::{deny, grant, person, Explicit, Situation};
use harness::limits::open;
use peer::builder::{FilterLines, ItemLines, Thing};

use FilterLines::{And, AtLeast, AtMost, Equality, Not, Or, Present, Substrings};

fn bytes(text: &str) -> Vec<u8> {
    text.as_bytes().to_vec()
}

/// An entry with octets "xY", text "Banana" and "ann", integers -10 and 7.
fn world(more: Vec<ItemLines>) -> Situation {
    let values = [(1, "xY"), (2, "ann"), (3, "-10"), (3, "7")];
    let mut items = open();
    items.extend(more);
    Situation::new(vec![person(0, "Banana", &values)], items)
}

pub fn run(test: &mut Explicit) {
    items(test);
    pieces(test);
    permissions(test);
    operators(test);
}

fn items(test: &mut Explicit) {
    let world = world(vec![]);
    for (what, filter, truth) in [
        ("octets equal", Equality(1, bytes("xY")), 'T'),
        ("octets in other letters", Equality(1, bytes("xy")), 'F'),
        ("octets empty", Equality(1, vec![]), 'U'),
        ("octets at least", AtLeast(1, bytes("a")), 'U'),
        ("octets at most", AtMost(1, bytes("z")), 'U'),
        ("text equal", Equality(2, bytes("BANANA")), 'T'),
        ("text beginning", Equality(2, bytes("Banan")), 'F'),
        ("text outside", Equality(2, bytes("a\n")), 'U'),
        ("text empty", Equality(2, vec![]), 'U'),
        ("text at least, some value", AtLeast(2, bytes("B")), 'T'),
        ("text at least, equal", AtLeast(2, bytes("BANANA")), 'T'),
        ("text at least, longer", AtLeast(2, bytes("bananas")), 'F'),
        ("text at most, some value", AtMost(2, bytes("B")), 'T'),
        ("text at most, equal", AtMost(2, bytes("ANN")), 'T'),
        ("text at most, a prefix", AtMost(2, bytes("an")), 'F'),
        ("text at most, between cases", AtMost(2, bytes("_")), 'F'),
        ("text at least, above the letters", AtLeast(2, bytes("~")), 'F'),
        ("integer equal", Equality(3, bytes("7")), 'T'),
        ("integer otherwise", Equality(3, bytes("8")), 'F'),
        ("integer with a leading zero", Equality(3, bytes("07")), 'U'),
        ("integer -0", AtLeast(3, bytes("-0")), 'U'),
        ("integer too large", AtMost(3, bytes("9223372036854775808")), 'U'),
        ("integer at least -9", AtLeast(3, bytes("-9")), 'T'),
        ("integer at least 8", AtLeast(3, bytes("8")), 'F'),
        ("integer at most -9", AtMost(3, bytes("-9")), 'T'),
        ("integer at most -11", AtMost(3, bytes("-11")), 'F'),
        ("integer at least the least", AtLeast(3, bytes("-9223372036854775808")), 'T'),
        ("integer at least the greatest", AtLeast(3, bytes("9223372036854775807")), 'F'),
        ("present", Present(3), 'T'),
        ("unknown type present", Present(7), 'U'),
        ("unknown type equal", Equality(7, bytes("x")), 'U'),
        ("unknown type at least", AtLeast(7, bytes("x")), 'U'),
        ("unknown type substrings", Substrings(7, vec![(1, bytes("x"))]), 'U'),
    ] {
        test.expect_truth(what, &world, filter, truth);
    }
    let bare = Situation::new(vec![person(0, "Ann", &[])], open());
    for (what, filter, truth) in [
        ("not held, present", Present(3), 'F'),
        ("not held, equal", Equality(3, bytes("7")), 'F'),
        ("not held, at least", AtLeast(3, bytes("7")), 'F'),
        ("not held, outside", AtLeast(3, bytes("x")), 'U'),
        ("not held, no rule", AtLeast(1, bytes("x")), 'U'),
    ] {
        test.expect_truth(what, &bare, filter, truth);
    }
}

fn pieces(test: &mut Explicit) {
    let world = world(vec![]);
    let sub = |pieces: &[(u32, &str)]| {
        Substrings(2, pieces.iter().map(|&(place, text)| (place, bytes(text))).collect())
    };
    for (what, filter, truth) in [
        ("initial", sub(&[(0, "ban")]), 'T'),
        ("initial elsewhere", sub(&[(0, "ana")]), 'F'),
        ("initial, whole value", sub(&[(0, "BANANA")]), 'T'),
        ("initial, longer", sub(&[(0, "bananas")]), 'F'),
        ("any", sub(&[(1, "NAN")]), 'T'),
        ("any at the beginning", sub(&[(1, "ban")]), 'T'),
        ("any at the end", sub(&[(1, "na")]), 'T'),
        ("final", sub(&[(2, "ana")]), 'T'),
        ("final elsewhere", sub(&[(2, "ban")]), 'F'),
        ("initial and final", sub(&[(0, "ban"), (2, "ana")]), 'T'),
        ("initial and final overlapping", sub(&[(0, "bana"), (2, "nana")]), 'F'),
        ("any twice", sub(&[(1, "an"), (1, "an")]), 'T'),
        ("any thrice", sub(&[(1, "an"), (1, "an"), (1, "an")]), 'F'),
        ("any overlapping", sub(&[(1, "ana"), (1, "ana")]), 'F'),
        ("any then final overlapping", sub(&[(1, "nana"), (2, "na")]), 'F'),
        ("any then final, leftmost", sub(&[(1, "an"), (2, "ana")]), 'T'),
        ("out of order", sub(&[(1, "na"), (1, "b")]), 'F'),
        ("all places", sub(&[(0, "b"), (1, "a"), (1, "a"), (2, "a")]), 'T'),
        ("across two values", sub(&[(0, "ann"), (2, "ana")]), 'F'),
        ("one outside", sub(&[(0, "ban"), (1, "\n")]), 'U'),
        ("one outside, others not found", sub(&[(0, "x"), (2, "\u{7f}")]), 'U'),
        ("octets", Substrings(1, vec![(1, bytes("x"))]), 'U'),
        ("integer", Substrings(3, vec![(1, bytes("1"))]), 'U'),
    ] {
        test.expect_truth(&format!("pieces: {what}"), &world, filter, truth);
    }
}

fn permissions(test: &mut Explicit) {
    let refused = world(vec![deny(9, Thing::Type(3), 32)]);
    test.expect_truth("type refused, present", &refused, Present(3), 'U');
    test.expect_truth("type refused, equal", &refused, Equality(3, bytes("7")), 'U');
    test.expect_truth("another type", &refused, Present(2), 'T');
    let mut bare = refused.clone();
    bare.directory.entries = vec![person(0, "Ann", &[])];
    test.expect_truth("type refused, not held", &bare, Present(3), 'U');
    test.expect_truth("type refused, not held, equal", &bare, Equality(3, bytes("7")), 'U');
    let values = world(vec![deny(9, Thing::ValuesOf(3), 32)]);
    test.expect_truth("values refused, present", &values, Present(3), 'T');
    test.expect_truth("values refused, equal", &values, Equality(3, bytes("7")), 'F');
    test.expect_truth("values refused, at most", &values, AtMost(3, bytes("7")), 'F');
    let one = world(vec![deny(9, Thing::Value(3, bytes("7")), 32)]);
    test.expect_truth("value refused", &one, Equality(3, bytes("7")), 'F');
    test.expect_truth("another value", &one, Equality(3, bytes("-10")), 'T');
    test.expect_truth("at least, only the refused", &one, AtLeast(3, bytes("0")), 'F');
    let unread = world(vec![deny(9, Thing::AllTypesAndValues, 31)]);
    test.expect_truth("FilterMatch alone", &unread, Equality(3, bytes("7")), 'T');
    let mut entries_only = world(vec![]);
    entries_only.permissions.items = vec![grant(0, Thing::Entry, 63)];
    test.expect_truth("no item on types", &entries_only, Present(2), 'U');
    test.expect_truth("no item, unknown type", &entries_only, Present(7), 'U');
}

fn operators(test: &mut Explicit) {
    let world = world(vec![]);
    let (t, f, u) = (Present(1), Equality(1, bytes("-")), Present(7));
    let value = |truth: char| match truth {
        'T' => t.clone(),
        'F' => f.clone(),
        _ => u.clone(),
    };
    // Every pair and every order, with a third part after it.
    for one in "TFU".chars() {
        let negated = match one {
            'T' => 'F',
            'F' => 'T',
            _ => 'U',
        };
        test.expect_truth(&format!("not {one}"), &world, Not(Box::new(value(one))), negated);
        for other in "TFU".chars() {
            let both = [one, other];
            let and = match both {
                _ if both.contains(&'F') => 'F',
                _ if both.contains(&'U') => 'U',
                _ => 'T',
            };
            let or = match both {
                _ if both.contains(&'T') => 'T',
                _ if both.contains(&'U') => 'U',
                _ => 'F',
            };
            let parts = || vec![value(one), value(other)];
            test.expect_truth(&format!("and {one} {other}"), &world, And(parts()), and);
            test.expect_truth(&format!("or {one} {other}"), &world, Or(parts()), or);
            let twice = And(vec![Or(parts()), And(vec![])]);
            test.expect_truth(&format!("and(or {one} {other}, and)"), &world, twice, or);
            let denied = Not(Box::new(Or(vec![Not(Box::new(And(parts()))), Or(vec![])])));
            test.expect_truth(&format!("not or(not and {one} {other}, or)"), &world, denied, and);
        }
    }
}

//! Refusals 1 to 6.

use super::typed;
use harness::explicit::Explicit;
use harness::limits::{deep_directory, directory_of_length, directory_of_types, wide_directory};
use harness::written::{Written, L};

/// An answered request, so that 0 means accepted.
const LIST: [L; 2] = [(10, 0, 0, 0, b""), (11, 3, 0, 0, b"")];

fn expect(test: &mut Explicit, what: &str, refusal: u64, dir: &dyn Written) {
    test.expect(what, refusal, dir, b"", &LIST);
}

fn lines(test: &mut Explicit, what: &str, refusal: u64, lines: &[L]) {
    expect(test, what, refusal, &typed(lines));
}

pub fn run(test: &mut Explicit) {
    lengths_and_counts(test);
    types(test);
    entries(test);
    values(test);
    twice(test);
    naming(test);
}

fn lengths_and_counts(test: &mut Explicit) {
    let form = test.form();
    expect(test, "empty directory", 0, b"");
    expect(test, "65,536 bytes", 0, &directory_of_length(form, 65_536));
    expect(test, "65,537 bytes", 1, &directory_of_length(form, 65_537));
    expect(test, "65,536 line ends", 2, &[b'\n'; 65_536]);
    expect(test, "65,537 line ends", 1, &[b'\n'; 65_537]);
    expect(test, "64 types", 0, &directory_of_types(64));
    expect(test, "65 types", 3, &directory_of_types(65));
    expect(test, "256 entries", 0, &wide_directory(256));
    expect(test, "257 entries", 3, &wide_directory(257));
    expect(test, "depth 8", 0, &deep_directory(8));
    expect(test, "depth 9", 3, &deep_directory(9));
    for (parent, refusal) in [(0, 3), (255, 3), (256, 3), (257, 2), (258, 2), (999_999, 2)] {
        let mut directory = wide_directory(257);
        directory.entries[256].parent = parent;
        let what = format!("257th entry, parent {parent}");
        expect(test, &what, refusal, &directory);
        directory.entries[255].values.clear();
        let refusal = if refusal == 2 { 2 } else { 6 };
        let what = format!("257th entry, parent {parent}, 256th without values");
        expect(test, &what, refusal, &directory);
    }
    let mut directory = wide_directory(257);
    directory.entries[256].naming.0 = 7;
    expect(test, "257th entry of unknown type", 3, &directory);
    directory.entries[256].naming.0 = test.top() + 1;
    expect(test, "257th entry of a type above the top", 2, &directory);
}

fn types(test: &mut Explicit) {
    let top = test.top();
    for (what, line, refusal) in [
        ("type 0", (1, 0, 0, 0, &b""[..]), 2),
        ("type 1", (1, 1, 0, 0, b""), 0),
        ("type 999", (1, 999, 2, 0, b""), 0),
        ("top type", (1, top, 2, 0, b""), 0),
        ("type above the top", (1, top + 1, 0, 0, b""), 2),
        ("syntax 3", (1, 1, 3, 0, b""), 2),
        ("type line with C", (1, 1, 0, 1, b""), 2),
        ("type line with bytes", (1, 1, 0, 0, b"x"), 2),
    ] {
        expect(test, what, refusal, &[line]);
    }
    for kind in [1_000, 1_001, 99_999, 100_000, 999_999] {
        let refusal = if kind <= top { 0 } else { 2 };
        let lines = [(1, kind, 1, 0, &b""[..]), (2, 0, kind, 0, b"a"), (3, kind, 0, 0, b"A")];
        expect(test, &format!("type {kind}"), refusal, &lines);
    }
    expect(test, "one type twice", 3, &[(1, 5, 0, 0, b"" as &[u8]), (1, 5, 0, 0, b"")]);
    expect(test, "types falling", 3, &[(1, 5, 0, 0, b"" as &[u8]), (1, 4, 0, 0, b"")]);
    let entry: [L; 2] = [(2, 0, 1, 0, b"a"), (3, 1, 0, 0, b"a")];
    let after = |line: L| [&entry[..], &[line]].concat();
    lines(test, "type after an entry", 3, &after((1, 9, 0, 0, b"")));
    lines(test, "type after an entry, syntax 3", 2, &after((1, 9, 3, 0, b"")));
    let rising: Vec<L> = (0..65).map(|place| (1, 100 + place, 0, 0, &b""[..])).collect();
    let mut wrong = rising.clone();
    wrong[64].2 = 3;
    expect(test, "65th type with syntax 3", 2, &wrong);
}

fn entries(test: &mut Explicit) {
    let top = test.top();
    for (what, line, refusal) in [
        ("first entry, parent 0", (2, 0, 1, 0, &b"a"[..]), 0),
        ("first entry, parent 1", (2, 1, 1, 0, b"a"), 2),
        ("first entry, parent 2", (2, 2, 1, 0, b"a"), 2),
        ("naming type 0", (2, 0, 0, 0, b"a"), 2),
        ("naming type above the top", (2, 0, top + 1, 0, b"a"), 2),
        ("naming type the top, unknown", (2, 0, top, 0, b"a"), 4),
        ("alias without a target", (2, 0, 1, 1, b"a"), 3),
        ("entry with C 2", (2, 0, 1, 2, b"a"), 2),
        ("naming type unknown", (2, 0, 7, 0, b"a"), 4),
        ("naming value outside integer", (2, 0, 3, 0, b"a"), 4),
        ("naming value empty", (2, 0, 1, 0, b""), 4),
    ] {
        lines(test, what, refusal, &[line, (3, 1, 0, 0, b"a")]);
    }
    let first: [L; 2] = [(2, 0, 1, 0, b"a"), (3, 1, 0, 0, b"a")];
    for (parent, refusal) in [(0, 0), (1, 0), (2, 2), (3, 2)] {
        let second: [L; 2] = [(2, parent, 1, 0, b"b"), (3, 1, 0, 0, b"b")];
        let both = [first, second].concat();
        lines(test, &format!("second entry, parent {parent}"), refusal, &both);
    }
    lines(test, "value before any entry", 3, &[(3, 1, 0, 0, b"a")]);
    lines(test, "value before any entry, B 1", 2, &[(3, 1, 1, 0, b"a")]);
    lines(test, "value before any entry, unknown type", 3, &[(3, 7, 0, 0, b"a")]);
}

fn values(test: &mut Explicit) {
    let top = test.top();
    let with = |line: L| -> Vec<L> { vec![(2, 0, 1, 0, b"a"), (3, 1, 0, 0, b"a"), line] };
    for (what, line, refusal) in [
        ("value of type 0", (3, 0, 0, 0, &b"x"[..]), 2),
        ("value of a type above the top", (3, top + 1, 0, 0, b"x"), 2),
        ("value of the top type, unknown", (3, top, 0, 0, b"x"), 4),
        ("value with B", (3, 1, 1, 0, b"x"), 2),
        ("value with C", (3, 1, 0, 1, b"x"), 2),
        ("value of unknown type", (3, 7, 0, 0, b"x"), 4),
        ("octets empty", (3, 1, 0, 0, b""), 4),
        ("octets with byte 10", (3, 1, 0, 0, b"x\n\n"), 0),
        ("octets 0 and 255", (3, 1, 0, 0, b"\0\xff"), 0),
        ("text empty", (3, 2, 0, 0, b""), 4),
        ("text 31", (3, 2, 0, 0, b"a\x1f"), 4),
        ("text 32", (3, 2, 0, 0, b" "), 0),
        ("text 126", (3, 2, 0, 0, b"~"), 0),
        ("text 127", (3, 2, 0, 0, b"\x7f"), 4),
        ("text 200", (3, 2, 0, 0, b"\xc8"), 4),
        ("text with byte 10", (3, 2, 0, 0, b"a\nb"), 4),
        ("integer empty", (3, 3, 0, 0, b""), 4),
        ("integer 0", (3, 3, 0, 0, b"0"), 0),
        ("integer -0", (3, 3, 0, 0, b"-0"), 4),
        ("integer 00", (3, 3, 0, 0, b"00"), 4),
        ("integer 01", (3, 3, 0, 0, b"01"), 4),
        ("integer -01", (3, 3, 0, 0, b"-01"), 4),
        ("integer +1", (3, 3, 0, 0, b"+1"), 4),
        ("integer -", (3, 3, 0, 0, b"-"), 4),
        ("integer --1", (3, 3, 0, 0, b"--1"), 4),
        ("integer with blank before", (3, 3, 0, 0, b" 1"), 4),
        ("integer with blank after", (3, 3, 0, 0, b"1 "), 4),
        ("least integer", (3, 3, 0, 0, b"-9223372036854775808"), 0),
        ("below the least", (3, 3, 0, 0, b"-9223372036854775809"), 4),
        ("greatest integer", (3, 3, 0, 0, b"9223372036854775807"), 0),
        ("above the greatest", (3, 3, 0, 0, b"9223372036854775808"), 4),
        ("20 digits", (3, 3, 0, 0, b"18446744073709551616"), 4),
        ("64 digits", (3, 3, 0, 0, &[b'1'; 64]), 4),
        ("64 octets", (3, 1, 0, 0, &[0; 64]), 0),
        ("64 letters", (3, 2, 0, 0, &[b'z'; 64]), 0),
    ] {
        lines(test, what, refusal, &with(line));
    }
    let falling: [L; 4] =
        [(2, 0, 1, 0, b"a"), (3, 1, 0, 0, b"a"), (3, 3, 0, 0, b"1"), (3, 2, 0, 0, b"x")];
    lines(test, "falling type", 3, &falling);
    let mut unknown = falling;
    unknown[3] = (3, 1, 0, 0, b"");
    lines(test, "falling type with empty value", 3, &unknown);
    let anew: [L; 4] =
        [(2, 0, 3, 0, b"1"), (3, 3, 0, 0, b"1"), (2, 0, 1, 0, b"a"), (3, 1, 0, 0, b"a")];
    lines(test, "types begin anew in the next entry", 0, &anew);
}

fn twice(test: &mut Explicit) {
    let pair = |second: L, held: L| -> Vec<L> {
        vec![(2, 0, 2, 0, b"Ann"), (3, 2, 0, 0, b"Ann"), second, held]
    };
    let ann: L = (3, 2, 0, 0, b"ann");
    lines(test, "siblings of one name", 5, &pair((2, 0, 2, 0, b"aNN"), ann));
    lines(test, "siblings, a blank after", 5, &pair((2, 0, 2, 0, b"Ann "), ann));
    lines(test, "siblings, a blank before", 5, &pair((2, 0, 2, 0, b" ann"), ann));
    let apart: L = (3, 2, 0, 0, b"An n");
    lines(test, "siblings, a blank within", 0, &pair((2, 0, 2, 0, b"An n"), apart));
    lines(test, "one name below another parent", 0, &pair((2, 1, 2, 0, b"Ann"), ann));
    let octets: L = (3, 1, 0, 0, b"Ann");
    lines(test, "siblings of different types", 0, &pair((2, 0, 1, 0, b"Ann"), octets));
    let value = |kind: u32, one: &'static [u8], other: &'static [u8]| -> Vec<L> {
        vec![(2, 0, 1, 0, b"a"), (3, 1, 0, 0, b"a"), (3, kind, 0, 0, one), (3, kind, 0, 0, other)]
    };
    lines(test, "text twice in other letters", 5, &value(2, b"x y", b"X Y"));
    lines(test, "text differing in a blank", 0, &value(2, b"x y", b"xy"));
    lines(test, "text twice with a blank after", 5, &value(2, b"x", b"x "));
    lines(test, "text twice with a blank before", 5, &value(2, b"x", b" x"));
    lines(test, "text twice with two blanks", 5, &value(2, b"x  y", b"x y"));
    lines(test, "text twice with blanks all over", 5, &value(2, b"  x y", b"X    Y "));
    lines(test, "blanks alone twice", 5, &value(2, b" ", b"   "));
    lines(test, "blanks alone beside a letter", 0, &value(2, b" ", b" x "));
    lines(test, "64 blanks beside one", 5, &value(2, &[b' '; 64], b" "));
    lines(test, "octets differing in a blank", 0, &value(1, b"x", b"x "));
    lines(test, "octets of blanks", 0, &value(1, b" ", b"  "));
    lines(test, "octets twice", 5, &value(1, b"x", b"x"));
    lines(test, "octets in other letters", 0, &value(1, b"x", b"X"));
    lines(test, "integer twice", 5, &value(3, b"-7", b"-7"));
    let across: [L; 4] =
        [(2, 0, 1, 0, b"1"), (3, 1, 0, 0, b"1"), (3, 2, 0, 0, b"1"), (3, 3, 0, 0, b"1")];
    lines(test, "one value in three types", 0, &across);
    let apart: [L; 5] = [
        (2, 0, 1, 0, b"a"),
        (3, 1, 0, 0, b"a"),
        (3, 1, 0, 0, b"b"),
        (3, 1, 0, 0, b"c"),
        (3, 1, 0, 0, b"a"),
    ];
    lines(test, "twice with others between", 5, &apart);
    let distant: [L; 6] = [
        (2, 0, 2, 0, b"a"),
        (3, 2, 0, 0, b"a"),
        (2, 1, 2, 0, b"b"),
        (3, 2, 0, 0, b"b"),
        (2, 0, 2, 0, b"A"),
        (3, 2, 0, 0, b"a"),
    ];
    lines(test, "siblings with a child between", 5, &distant);
}

fn naming(test: &mut Explicit) {
    let top = test.top();
    // The first entry does not hold its naming value; a line follows.
    let after = |more: &[L]| -> Vec<L> { [&[(2, 0, 2, 0, &b"Ann"[..])][..], more].concat() };
    let bob: L = (3, 2, 0, 0, b"Bob");
    for (what, more, refusal) in [
        ("no values", vec![], 6),
        ("another value", vec![bob], 6),
        ("the value in another type", vec![(3, 1, 0, 0, &b"Ann"[..])], 6),
        ("other letters", vec![(3, 2, 0, 0, b"aNN")], 0),
        ("other blanks", vec![(3, 2, 0, 0, b"  Ann ")], 0),
        ("a blank within", vec![(3, 2, 0, 0, b"An n")], 6),
        ("blanks", vec![(3, 2, 0, 0, b"   ")], 6),
        ("second of two", vec![bob, (3, 2, 0, 0, b"ANN")], 0),
        ("then an entry", vec![bob, (2, 0, 2, 0, b"Cid")], 6),
        ("then an entry below", vec![bob, (2, 1, 2, 0, b"Cid")], 6),
        ("then an entry whose parent is itself", vec![bob, (2, 2, 2, 0, b"Cid")], 2),
        ("then an entry of a type above the top", vec![bob, (2, 0, top + 1, 0, b"Cid")], 2),
        ("then an entry with C 2", vec![bob, (2, 0, 2, 2, b"Cid")], 2),
        ("then an alias", vec![bob, (2, 0, 2, 1, b"Cid")], 6),
        ("then an entry of unknown type", vec![bob, (2, 0, 7, 0, b"Cid")], 6),
        ("then an entry with a wrong value", vec![bob, (2, 0, 2, 0, b"")], 6),
        ("then a sibling of its name", vec![bob, (2, 0, 2, 0, b"ann")], 6),
        ("then a type line", vec![bob, (1, 9, 0, 0, b"")], 3),
        ("then a type line with C", vec![bob, (1, 9, 0, 1, b"")], 2),
        ("then kind 9", vec![bob, (9, 2, 0, 0, b"x")], 3),
        ("then kind 36", vec![bob, (36, 0, 1, 0, b"")], 3),
        ("then kind 8", vec![bob, (8, 2, 0, 0, b"")], 2),
        ("then a falling type", vec![bob, (3, 1, 0, 0, b"Ann")], 3),
        ("then an unknown type", vec![bob, (3, 7, 0, 0, b"x")], 4),
        ("then a value twice", vec![bob, (3, 2, 0, 0, b"BOB")], 5),
        ("no values, then an entry", vec![(2, 0, 2, 0, b"Cid")], 6),
        ("no values, then an entry with parent 2", vec![(2, 2, 2, 0, b"Cid")], 2),
    ] {
        lines(test, &format!("naming value: {what}"), refusal, &after(&more));
    }
    for (name, held, refusal) in [
        (&b"A  b"[..], &b"a b"[..], 0),
        (b" a b", b"A   B", 0),
        (b" ", b"    ", 0),
        (b"a b", b"ab", 6),
        (b" ", b"a", 6),
    ] {
        let what = format!("naming value {name:?}, held {held:?}");
        lines(test, &what, refusal, &[(2, 0, 2, 0, name), (3, 2, 0, 0, held)]);
    }
    let mut cut = typed(&after(&[bob, (2, 0, 2, 0, b"Cid")])).written(test.form());
    cut.pop();
    expect(test, "naming value: then an entry cut off", 2, &cut);
    cut.truncate(cut.len() - test.form().head());
    expect(test, "naming value: then a part of a line", 2, &cut);
    let mut deep = deep_directory(9);
    deep.entries[7].values.clear();
    expect(test, "naming value: then depth 9", 6, &deep);
    deep.entries[8].naming.0 = 0;
    expect(test, "naming value: then depth 9 of type 0", 2, &deep);
}

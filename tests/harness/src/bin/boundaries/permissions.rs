//! Refusals 11 to 14.

use super::typed;
use harness::explicit::Explicit;
use harness::limits::{permissions_of_items, permissions_of_length};
use harness::written::{Written, L};

const LIST: [L; 2] = [(10, 0, 0, 0, b""), (11, 3, 0, 0, b"")];

fn expect(test: &mut Explicit, what: &str, refusal: u64, perm: &dyn Written) {
    test.expect(what, refusal, &typed(&[]), perm, &LIST);
}

const ITEM: [L; 5] = [
    (4, 0, 0, 1, b""),
    (5, 1, 0, 0, b""),
    (6, 0, 0, 0, b""),
    (7, 0, 0, 0, b""),
    (8, 63, 0, 0, b""),
];

/// The item with one line replaced by others.
fn with(kind: u32, lines: &[L]) -> Vec<L> {
    let place = kind as usize - 4;
    [&ITEM[..place], lines, &ITEM[place + 1..]].concat()
}

fn parts(count: usize) -> Vec<L> {
    vec![(9, 2, 0, 0, b"Ann"); count]
}

pub fn run(test: &mut Explicit) {
    counts(test);
    columns(test);
    names(test);
    schema(test);
    order(test);
}

fn counts(test: &mut Explicit) {
    let form = test.form();
    expect(test, "no items", 0, b"");
    expect(test, "one item", 0, &ITEM);
    expect(test, "permissions of 65,536 bytes", 0, &permissions_of_length(form, 65_536));
    expect(test, "permissions of 65,537 bytes", 11, &permissions_of_length(form, 65_537));
    expect(test, "256 items", 0, &permissions_of_items(256));
    expect(test, "257 items", 13, &permissions_of_items(257));
    let full = permissions_of_items(256).to_bytes(form);
    let then = |line: L| [full.clone(), [line].written(form)].concat();
    expect(test, "256 items, then K 4 with C 2", 12, &then((4, 0, 0, 2, b"")));
    expect(test, "256 items, then K 4 alone", 13, &then((4, 0, 0, 1, b"")));
    expect(test, "256 items, then K 10", 12, &then((10, 0, 0, 0, b"")));
}

fn columns(test: &mut Explicit) {
    let top = test.top();
    for (what, line, refusal) in [
        ("precedence 255", (4, 255, 0, 1, &b""[..]), 0),
        ("precedence 256", (4, 256, 0, 1, b""), 12),
        ("level 2", (4, 0, 2, 1, b""), 0),
        ("level 3", (4, 0, 3, 1, b""), 12),
        ("level 3 of a denial", (4, 0, 3, 0, b""), 12),
        ("K 4 with C 2", (4, 0, 0, 2, b""), 12),
        ("K 4 with bytes", (4, 0, 0, 1, b"x"), 12),
        ("base 2", (5, 2, 0, 0, b""), 12),
        ("base with C", (5, 1, 0, 1, b""), 12),
        ("base with bytes", (5, 1, 0, 0, b"x"), 12),
        ("who 2", (6, 2, 0, 0, b""), 0),
        ("who 4", (6, 4, 0, 0, b""), 12),
        ("who with C", (6, 0, 0, 1, b""), 12),
        ("who with bytes", (6, 0, 0, 0, b"x"), 12),
        ("below the empty name", (6, 1, 0, 0, b""), 0),
        ("the empty name", (6, 3, 0, 0, b""), 0),
        ("the entry with a type", (7, 0, 1, 0, b""), 12),
        ("the entry with bytes", (7, 0, 0, 0, b"x"), 12),
        ("all types with a type", (7, 1, 1, 0, b""), 12),
        ("all types and values with a type", (7, 2, 1, 0, b""), 12),
        ("type 0", (7, 3, 0, 0, b""), 12),
        ("type 1", (7, 3, 1, 0, b""), 0),
        ("type above the top", (7, 3, top + 1, 0, b""), 12),
        ("type with bytes", (7, 3, 1, 0, b"x"), 12),
        ("values of a type above the top", (7, 4, top + 1, 0, b""), 12),
        ("values of a type with bytes", (7, 4, 1, 0, b"x"), 12),
        ("one value", (7, 5, 1, 0, b"x"), 0),
        ("one value of type 0", (7, 5, 0, 0, b"x"), 12),
        ("what with C", (7, 5, 1, 1, b"x"), 12),
        ("what 6", (7, 6, 1, 0, b"x"), 12),
        ("sum 0", (8, 0, 0, 0, b""), 12),
        ("sum 1", (8, 1, 0, 0, b""), 0),
        ("sum 63", (8, 63, 0, 0, b""), 0),
        ("sum 64", (8, 64, 0, 0, b""), 12),
        ("sum with B", (8, 1, 1, 0, b""), 12),
        ("sum with bytes", (8, 1, 0, 0, b"x"), 12),
    ] {
        expect(test, &format!("item: {what}"), refusal, &with(line.0, &[line]));
    }
}

fn names(test: &mut Explicit) {
    let named = |line: L, count: usize| with(line.0, &[&[line][..], &parts(count)].concat());
    for (what, line, count, refusal) in [
        ("base alone of 1 part", (5, 0, 1, 0, &b""[..]), 1, 0),
        ("base of 8 parts", (5, 1, 8, 0, b""), 8, 0),
        ("base of 9 parts", (5, 1, 9, 0, b""), 9, 12),
        ("base of 8 parts, 7 given", (5, 1, 8, 0, b""), 7, 13),
        ("base of 8 parts, 9 given", (5, 1, 8, 0, b""), 9, 13),
        ("base of 0 parts, 1 given", (5, 1, 0, 0, b""), 1, 13),
        ("all users with a part", (6, 0, 1, 0, b""), 1, 12),
        ("the entry itself with a part", (6, 2, 1, 0, b""), 1, 12),
        ("all users, 1 part given", (6, 0, 0, 0, b""), 1, 13),
        ("below a name of 8 parts", (6, 1, 8, 0, b""), 8, 0),
        ("below a name of 9 parts", (6, 1, 9, 0, b""), 9, 12),
        ("a user of 8 parts", (6, 3, 8, 0, b""), 8, 0),
        ("a user of 9 parts", (6, 3, 9, 0, b""), 9, 12),
    ] {
        expect(test, what, refusal, &named(line, count));
    }
}

fn schema(test: &mut Explicit) {
    let top = test.top();
    for (what, part, refusal) in [
        ("part of type 0", (9, 0, 0, 0, &b"x"[..]), 12),
        ("part of a type above the top", (9, top + 1, 0, 0, b"x"), 12),
        ("part of the top type, unknown", (9, top, 0, 0, b"x"), 14),
        ("part with B", (9, 2, 1, 0, b"x"), 12),
        ("part with C", (9, 2, 0, 1, b"x"), 12),
        ("part of unknown type", (9, 7, 0, 0, b"x"), 14),
        ("empty part", (9, 1, 0, 0, b""), 14),
        ("part outside text", (9, 2, 0, 0, b"a\n"), 14),
        ("part outside integer", (9, 3, 0, 0, b"-0"), 14),
        ("part with 64 bytes", (9, 1, 0, 0, &[b'\n'; 64]), 0),
    ] {
        expect(test, &format!("base: {what}"), refusal, &with(5, &[(5, 1, 1, 0, b""), part]));
        expect(test, &format!("user: {what}"), refusal, &with(6, &[(6, 3, 1, 0, b""), part]));
    }
    for (what, line) in [
        ("unknown type", (7, 3, 7, 0, &b""[..])),
        ("values of unknown type", (7, 4, 7, 0, b"")),
        ("value of unknown type", (7, 5, 7, 0, b"x")),
        ("empty value", (7, 5, 1, 0, b"")),
        ("value outside text", (7, 5, 2, 0, b"\x7f")),
        ("value outside integer", (7, 5, 3, 0, b"9223372036854775808")),
    ] {
        expect(test, &format!("what: {what}"), 14, &with(7, &[line]));
    }
    // The first faulty line decides, not the lowest number.
    let wrong = with(5, &[(5, 1, 1, 0, b""), (9, 7, 0, 0, b"x"), (4, 999, 0, 0, b"")]);
    expect(test, "unknown type before a wrong column", 14, &wrong);
}

fn order(test: &mut Explicit) {
    for end in 1..5 {
        let what = format!("item of {end} lines");
        expect(test, &what, 13, &ITEM[..end].to_vec());
        let second = [&ITEM[..], &ITEM[..end]].concat();
        expect(test, &format!("second {what}"), 13, &second);
        expect(test, &format!("item begins with line {}", end + 1), 13, &ITEM[end..].to_vec());
        let mut swapped = ITEM;
        swapped.swap(end - 1, end);
        expect(test, &format!("lines {end} and {} swapped", end + 1), 13, &swapped);
        let twice = with(3 + end as u32, &[ITEM[end - 1], ITEM[end - 1]]);
        expect(test, &format!("line {end} twice"), 13, &twice);
    }
    expect(test, "last line twice", 13, &with(8, &[ITEM[4], ITEM[4]]));
    expect(test, "name without an item", 13, &parts(1));
    expect(test, "name part of unknown type out of place", 13, &with(8, &[(9, 7, 0, 0, b"")]));
    expect(test, "name part of type 0 out of place", 12, &with(8, &[(9, 0, 0, 0, b"")]));
    expect(test, "what of unknown type out of place", 13, &[(7, 3, 7, 0, b"" as &[u8])]);
}

//! K 16 at its place and elsewhere, and refusal 24.

use super::typed;
use harness::explicit::Explicit;
use harness::limits::{filter_of_depth, request_of_length, search};
use harness::written::{Written, L};
use peer::builder::{OperationLines, RequestSheet};
use peer::caller::Caller;

const RISING: L = (16, 2, 0, 0, b"");
const FALLING: L = (16, 3, 1, 0, b"");
const SUBSET: L = (15, 2, 0, 0, b"");
const FILTER: L = (26, 1, 0, 0, b"");
/// Names and a list of types, so that K 16 has many wrong places.
const BEGINNING: [L; 6] = [
    (10, 0, 1, 0, b""),
    (9, 2, 0, 0, b"Ann"),
    (11, 4, 1, 0, b""),
    (9, 2, 0, 0, b"Bob"),
    (12, 1, 1, 1, b""),
    (13, 2, 0, 0, b""),
];

/// A search with lines between K 13 and K 15.
fn with(order: &[L]) -> Vec<L> {
    [&BEGINNING[..], order, &[SUBSET, FILTER]].concat()
}

fn lines(test: &mut Explicit, what: &str, refusal: u64, lines: &[L]) {
    test.expect(&format!("order: {what}"), refusal, &typed(&[]), b"", &lines.to_vec());
}

pub fn run(test: &mut Explicit) {
    columns(test);
    places(test);
    operations(test);
    unordered(test);
    other_sheets(test);
}

fn columns(test: &mut Explicit) {
    let top = test.top();
    for (what, line, refusal) in [
        ("rising", (16, 2, 0, 0, &b""[..]), 0),
        ("falling", (16, 2, 1, 0, b""), 0),
        ("integers rising", (16, 3, 0, 0, b""), 0),
        ("integers falling", (16, 3, 1, 0, b""), 0),
        ("B 2", (16, 2, 2, 0, b""), 22),
        ("B 999999", (16, 2, 999_999, 0, b""), 22),
        ("C 1", (16, 2, 0, 1, b""), 22),
        ("bytes", (16, 2, 0, 0, b"x"), 22),
        ("type 0", (16, 0, 0, 0, b""), 22),
        ("a type above the top", (16, top + 1, 0, 0, b""), 22),
        ("the top type, unknown", (16, top, 0, 0, b""), 24),
        ("an unknown type", (16, 7, 1, 0, b""), 24),
        ("octets", (16, 1, 0, 0, b""), 24),
        ("octets falling", (16, 1, 1, 0, b""), 24),
        ("octets with B 2", (16, 1, 2, 0, b""), 22),
    ] {
        lines(test, what, refusal, &with(&[line]));
    }
}

/// Just before K 15, once.
fn places(test: &mut Explicit) {
    let whole = with(&[]);
    let right = whole.len() - 2;
    for place in 0..=whole.len() {
        for (what, line) in [("K 16", RISING), ("K 16 of unknown type", (16, 7, 0, 0, b""))] {
            let mut moved = whole.clone();
            moved.insert(place, line);
            let refusal = match (place == right, line.1) {
                (true, 2) => 0,
                (true, _) => 24,
                _ => 23,
            };
            lines(test, &format!("{what} at place {place}"), refusal, &moved);
        }
        let mut wrong = whole.clone();
        wrong.insert(place, (16, 2, 2, 0, b""));
        lines(test, &format!("a wrong K 16 at place {place}"), 22, &wrong);
        let mut twice = with(&[RISING]);
        twice.insert(place, FALLING);
        lines(test, &format!("K 16, and again at place {place}"), 23, &twice);
    }
    lines(test, "twice", 23, &with(&[RISING, RISING]));
    lines(test, "without K 15", 23, &[&BEGINNING[..], &[RISING, FILTER]].concat());
    lines(test, "in place of K 13", 23, &[&BEGINNING[..5], &[RISING, SUBSET, FILTER]].concat());
    let ordered = with(&[RISING]);
    for end in 0..ordered.len() {
        lines(test, &format!("{end} lines"), 23, &ordered[..end]);
    }
    let cut = ordered[..7].to_vec().written(test.form());
    let cut = cut[..cut.len() - 1].to_vec();
    test.expect("order: K 16 cut off", 22, &typed(&[]), b"", &cut);
}

/// Of a search alone.
fn operations(test: &mut Explicit) {
    let user: L = (10, 0, 0, 0, b"");
    let others: [(&str, Vec<L>); 3] = [
        ("read", vec![user, (11, 1, 0, 0, b""), (12, 0, 0, 1, b"")]),
        ("compare", vec![user, (11, 2, 0, 0, b""), (14, 2, 0, 0, b"x")]),
        ("list", vec![user, (11, 3, 0, 0, b"")]),
    ];
    for (what, whole) in others {
        for line in [RISING, FALLING, (16, 7, 0, 0, b""), (16, 1, 0, 0, b"")] {
            for place in 0..=whole.len() {
                let mut moved = whole.clone();
                moved.insert(place, line);
                let what = format!("{what}, K 16 of type {} at place {place}", line.1);
                lines(test, &what, 23, &moved);
            }
        }
    }
}

/// 24 comes once 21 to 23 are clear, and before 31.
fn unordered(test: &mut Explicit) {
    let unknown: L = (16, 7, 0, 0, b"");
    for line in [unknown, (16, 1, 1, 0, b"")] {
        let begun = [&BEGINNING[..], &[line]].concat();
        let then = |more: &[L]| [&begun[..], more].concat();
        for (what, request, refusal) in [
            ("whole", then(&[SUBSET, FILTER]), 24),
            ("no subset", then(&[]), 23),
            ("no filter", then(&[SUBSET]), 23),
            ("a filter without its part", then(&[SUBSET, (22, 0, 0, 0, b"")]), 23),
            ("a line more", then(&[SUBSET, FILTER, FILTER]), 23),
            ("a wrong line more", then(&[SUBSET, FILTER, (26, 0, 0, 0, b"")]), 22),
            ("a wrong subset", then(&[(15, 3, 0, 0, b""), FILTER]), 22),
            ("a wrong filter", then(&[SUBSET, (26, 0, 0, 0, b"")]), 22),
            ("K 16 again", then(&[RISING, SUBSET, FILTER]), 23),
            ("an undefined filter", then(&[SUBSET, (26, 7, 0, 0, b"")]), 24),
        ] {
            lines(test, &format!("type {}, {what}", line.1), refusal, &request);
        }
        let whole = then(&[SUBSET, FILTER]);
        for room in [0, 1, 30, 31, 46, 1_024] {
            let what = format!("order: type {} in {room} bytes", line.1);
            test.expect_in(room, &what, 24, &typed(&[]), b"", &whole);
        }
        test.expect("order: in a wrong directory", 2, b"x", b"", &whole);
        test.expect("order: under wrong permissions", 12, &typed(&[]), b"x", &whole);
        let item: [L; 1] = [(4, 0, 0, 1, b"")];
        test.expect("order: under an item cut short", 13, &typed(&[]), &item, &whole);
        if test.call.caller == Caller::Panel {
            test.expect_in(1_025, "order: a long buffer", 33, &typed(&[]), b"", &whole);
        }
    }
    test.expect("order: without types", 24, b"", b"", &with(&[RISING]));
    let form = test.form();
    let ordered = |mut request: RequestSheet, kind: u32| {
        if let OperationLines::Search { order, .. } = &mut request.operation {
            *order = Some((kind, 0));
        }
        request
    };
    let line = form.line();
    for (length, refusal) in [(8_192, 24), (8_193, 21)] {
        let request = ordered(request_of_length(form, length - line), 7);
        test.expect(&format!("order: {length} bytes"), refusal, &typed(&[]), b"", &request);
    }
    let request = ordered(request_of_length(form, 8_192 - line), 2);
    test.expect("order: 8,192 bytes of a known type", 0, &typed(&[]), b"", &request);
    for (depth, refusal) in [(16, 24), (17, 23)] {
        let request = ordered(search(filter_of_depth(depth)), 1);
        let what = format!("order: a filter of depth {depth}");
        test.expect(&what, refusal, &typed(&[]), b"", &request);
    }
}

/// No kind of the other sheets.
fn other_sheets(test: &mut Explicit) {
    let list: [L; 2] = [(10, 0, 0, 0, b""), (11, 3, 0, 0, b"")];
    let entry: [L; 2] = [(2, 0, 2, 0, b"Ann"), (3, 2, 0, 0, b"Ann")];
    for place in 0..=5 {
        let mut dir = typed(&entry);
        dir.insert(place, RISING);
        test.expect(&format!("K 16 in a directory, place {place}"), 2, &dir, b"", &list);
    }
    let item: [L; 5] = [
        (4, 0, 0, 1, b""),
        (5, 1, 0, 0, b""),
        (6, 0, 0, 0, b""),
        (7, 0, 0, 0, b""),
        (8, 63, 0, 0, b""),
    ];
    for place in 0..=5 {
        let mut perm = item.to_vec();
        perm.insert(place, RISING);
        let what = format!("K 16 in permissions, place {place}");
        test.expect(&what, 12, &typed(&[]), &perm, &list);
    }
}

//! Refusals 21 to 23.

use super::typed;
use harness::explicit::Explicit;
use harness::limits::{
    filter_of_depth, filter_of_lines, filter_of_pieces, request_of_length, search,
    substrings_at_depth, substrings_of,
};
use harness::written::{Written, L};
use peer::builder::FilterLines;

fn expect(test: &mut Explicit, what: &str, refusal: u64, req: &dyn Written) {
    test.expect(what, refusal, &typed(&[]), b"", req);
}

fn lines(test: &mut Explicit, what: &str, refusal: u64, lines: &[L]) {
    expect(test, what, refusal, &lines.to_vec());
}

const USER: L = (10, 0, 0, 0, b"");
const READ: [L; 3] = [USER, (11, 1, 0, 0, b""), (12, 0, 0, 1, b"")];
const COMPARE: [L; 3] = [USER, (11, 2, 0, 0, b""), (14, 1, 0, 0, b"x")];
const LIST: [L; 2] = [USER, (11, 3, 0, 0, b"")];
const SEARCH: [L; 5] =
    [USER, (11, 4, 0, 0, b""), (12, 0, 0, 1, b""), (15, 2, 0, 0, b""), (26, 1, 0, 0, b"")];

/// The search with another filter.
fn filtered(filter: &[L]) -> Vec<L> {
    [&SEARCH[..4], filter].concat()
}

pub fn run(test: &mut Explicit) {
    wholes(test);
    columns(test);
    names(test);
    selections(test);
    filters(test);
    pieces(test);
    filter_limits(test);
}

fn wholes(test: &mut Explicit) {
    let form = test.form();
    let operations: [(&str, &[L]); 4] =
        [("read", &READ), ("compare", &COMPARE), ("list", &LIST), ("search", &SEARCH)];
    for (what, whole) in operations {
        lines(test, &format!("a {what}"), 0, whole);
        for end in 0..whole.len() {
            lines(test, &format!("a {what} of {end} lines"), 23, &whole[..end]);
        }
        for first in 1..whole.len() {
            let beginning = format!("a {what} from line {}", first + 1);
            lines(test, &beginning, 23, &whole[first..]);
            let mut swapped = whole.to_vec();
            swapped.swap(first - 1, first);
            lines(test, &format!("a {what}, line {first} after the next"), 23, &swapped);
        }
        for more in [USER, (9, 1, 0, 0, b"x"), (13, 1, 0, 0, b""), (26, 1, 0, 0, b"")] {
            let surplus = [whole, &[more]].concat();
            lines(test, &format!("a {what}, then K {}", more.0), 23, &surplus);
        }
        for more in [(9, 0, 0, 0, &b"x"[..]), (22, 1, 0, 0, b""), (1, 1, 0, 0, b"")] {
            let surplus = [whole, &[more]].concat();
            lines(test, &format!("a {what}, then a wrong K {}", more.0), 22, &surplus);
        }
        let trailing = [whole.to_vec().written(form), vec![b'\n']].concat();
        expect(test, &format!("a {what}, then byte 10"), 22, &trailing);
    }
    lines(test, "a read with a value to compare", 23, &[READ[0], READ[1], COMPARE[2]]);
    lines(test, "a compare with a selection", 23, &[COMPARE[0], COMPARE[1], READ[2]]);
    lines(test, "a list with a selection", 23, &[LIST[0], LIST[1], READ[2]]);
    lines(test, "a read with a filter", 23, &[&READ[..], &SEARCH[3..]].concat());
    expect(test, "8,192 bytes", 0, &request_of_length(form, 8_192));
    expect(test, "8,193 bytes", 21, &request_of_length(form, 8_193));
    expect(test, "8,193 bytes of nothing", 21, &[0; 8_193]);
    expect(test, "8,192 bytes of nothing", 22, &[0; 8_192]);
}

fn columns(test: &mut Explicit) {
    let top = test.top();
    let with = |line: L| -> Vec<L> {
        let whole: &[L] = match line.0 {
            10 => &LIST,
            11 if line.1 == 1 => &READ,
            11 if line.1 == 2 => &COMPARE,
            11 => &LIST,
            12 => &READ,
            14 => &COMPARE,
            _ => &SEARCH,
        };
        whole.iter().map(|&old| if old.0 == line.0 { line } else { old }).collect()
    };
    for (what, line, refusal) in [
        ("level 2", (10, 2, 0, 0, &b""[..]), 0),
        ("level 3", (10, 3, 0, 0, b""), 22),
        ("the first edition", (10, 0, 0, 1, b""), 0),
        ("edition 2", (10, 0, 0, 2, b""), 22),
        ("edition 999999", (10, 0, 0, 999_999, b""), 22),
        ("edition 2 at level 3", (10, 3, 0, 2, b""), 22),
        ("the first edition with bytes", (10, 0, 0, 1, b"x"), 22),
        ("requester with bytes", (10, 0, 0, 0, b"x"), 22),
        ("operation 0", (11, 0, 0, 0, b""), 22),
        ("operation 5", (11, 5, 0, 0, b""), 22),
        ("operation with bytes", (11, 3, 0, 0, b"x"), 22),
        ("read with a limit", (11, 1, 0, 1, b""), 22),
        ("compare with a limit", (11, 2, 0, 1, b""), 22),
        ("list with a limit", (11, 3, 0, 1, b""), 0),
        ("selection 2", (12, 2, 0, 0, b""), 22),
        ("all types with a number", (12, 0, 1, 0, b""), 22),
        ("empty list", (12, 1, 0, 0, b""), 0),
        ("selection with C 2", (12, 0, 0, 2, b""), 22),
        ("selection with bytes", (12, 0, 0, 0, b"x"), 22),
        ("comparing type 0", (14, 0, 0, 0, b"x"), 22),
        ("comparing a type above the top", (14, top + 1, 0, 0, b"x"), 22),
        ("comparing an unknown type", (14, top, 0, 0, b"x"), 0),
        ("comparing nothing", (14, 1, 0, 0, b""), 0),
        ("comparing with B", (14, 1, 1, 0, b"x"), 22),
        ("subset 2", (15, 2, 0, 0, b""), 0),
        ("subset 3", (15, 3, 0, 0, b""), 22),
        ("subset with B", (15, 0, 1, 0, b""), 22),
        ("subset with bytes", (15, 0, 0, 0, b"x"), 22),
        ("present of type 0", (26, 0, 0, 0, b""), 22),
        ("present of a type above the top", (26, top + 1, 0, 0, b""), 22),
        ("present of an unknown type", (26, top, 0, 0, b""), 0),
        ("present with bytes", (26, 1, 0, 0, b"x"), 22),
        ("present with B", (26, 1, 1, 0, b""), 22),
    ] {
        lines(test, what, refusal, &with(line));
    }
}

fn names(test: &mut Explicit) {
    let top = test.top();
    let parts = |count: usize| -> Vec<L> { vec![(9, 2, 0, 0, b"Ann"); count] };
    for (what, stated, given, refusal) in [
        ("8 parts", 8, 8, 0),
        ("9 parts", 9, 9, 22),
        ("8 parts, 7 given", 8, 7, 23),
        ("8 parts, 9 given", 8, 9, 23),
        ("no parts, 1 given", 0, 1, 23),
    ] {
        let user = [&[(10, 0, stated, 0, &b""[..])][..], &parts(given), &LIST[1..]].concat();
        lines(test, &format!("requester of {what}"), refusal, &user);
        let base = [&[USER, (11, 3, stated, 0, &b""[..])][..], &parts(given)].concat();
        lines(test, &format!("name of {what}"), refusal, &base);
    }
    for (what, part, refusal) in [
        ("type 0", (9, 0, 0, 0, &b"x"[..]), 22),
        ("a type above the top", (9, top + 1, 0, 0, b"x"), 22),
        ("B", (9, 2, 1, 0, b"x"), 22),
        ("an unknown type", (9, 7, 0, 0, b"x"), 0),
        ("an empty value", (9, 2, 0, 0, b""), 0),
        ("a value outside its syntax", (9, 3, 0, 0, b"-0"), 0),
    ] {
        lines(
            test,
            &format!("requester with {what}"),
            refusal,
            &[(10, 0, 1, 0, b""), part, LIST[1]],
        );
        lines(test, &format!("name with {what}"), refusal, &[USER, (11, 3, 1, 0, b""), part]);
    }
}

fn selections(test: &mut Explicit) {
    let top = test.top();
    for (stated, given, refusal) in
        [(16, 16, 0), (17, 17, 22), (16, 15, 23), (16, 17, 23), (1, 1, 0), (0, 1, 23)]
    {
        let listed = vec![(13, 1, 0, 0, &b""[..]); given];
        let read = [&READ[..2], &[(12, 1, stated, 1, b"")], &listed].concat();
        lines(test, &format!("{stated} types, {given} given"), refusal, &read);
        let search = [&SEARCH[..2], &[(12, 1, stated, 1, b"")], &listed, &SEARCH[3..]].concat();
        lines(test, &format!("search, {stated} types, {given} given"), refusal, &search);
    }
    for (what, line, refusal) in [
        ("type 0", (13, 0, 0, 0, &b""[..]), 22),
        ("a type above the top", (13, top + 1, 0, 0, b""), 22),
        ("an unknown type", (13, top, 0, 0, b""), 0),
        ("bytes", (13, 1, 0, 0, b"x"), 22),
        ("B", (13, 1, 1, 0, b""), 22),
    ] {
        let read = [&READ[..2], &[(12, 1, 1, 1, b""), line]].concat();
        lines(test, &format!("list with {what}"), refusal, &read);
    }
}

fn filters(test: &mut Explicit) {
    let top = test.top();
    let present: L = (26, 1, 0, 0, b"");
    for (what, filter, refusal) in [
        ("and of no parts", vec![(20, 0, 0, 0, &b""[..])], 0),
        ("or of no parts", vec![(21, 0, 0, 0, b"")], 0),
        ("and of 1 of 1", vec![(20, 1, 0, 0, b""), present], 0),
        ("and of 1 of 2", vec![(20, 2, 0, 0, b""), present], 23),
        ("and of 2 of 1", vec![(20, 1, 0, 0, b""), present, present], 23),
        ("and with B", vec![(20, 1, 1, 0, b""), present], 22),
        ("or with bytes", vec![(21, 1, 0, 0, b"x"), present], 22),
        ("and of 128", vec![(20, 128, 0, 0, b""), present], 22),
        ("or of 128", vec![(21, 128, 0, 0, b""), present], 22),
        ("not", vec![(22, 0, 0, 0, b""), present], 0),
        ("not of nothing", vec![(22, 0, 0, 0, b"")], 23),
        ("not with A", vec![(22, 1, 0, 0, b""), present], 22),
        ("equality", vec![(23, 1, 0, 0, b"x")], 0),
        ("equality with nothing", vec![(23, 1, 0, 0, b"")], 0),
        ("equality of type 0", vec![(23, 0, 0, 0, b"x")], 22),
        ("equality of an unknown type", vec![(23, top, 0, 0, b"x")], 0),
        ("equality with B", vec![(23, 1, 1, 0, b"x")], 22),
        ("at least on octets", vec![(24, 1, 0, 0, b"x")], 0),
        ("at most with a value outside", vec![(25, 3, 0, 0, b"x")], 0),
        ("at most of a type above the top", vec![(25, top + 1, 0, 0, b"x")], 22),
        ("a piece alone", vec![(28, 1, 0, 0, b"x")], 23),
        ("a name part", vec![(9, 1, 0, 0, b"x")], 23),
        ("kind 19", vec![(19, 1, 0, 0, b"x")], 22),
        ("kind 29", vec![(29, 1, 0, 0, b"x")], 22),
    ] {
        lines(test, &format!("filter: {what}"), refusal, &filtered(&filter));
    }
}

fn pieces(test: &mut Explicit) {
    let top = test.top();
    let item = |stated: u32, pieces: &[(u32, &'static [u8])]| -> Vec<L> {
        let mut filter: Vec<L> = vec![(27, 2, stated, 0, b"")];
        filter.extend(pieces.iter().map(|&(place, bytes)| (28, place, 0, 0, bytes)));
        filtered(&filter)
    };
    let x: &[u8] = b"x";
    for (what, stated, pieces, refusal) in [
        ("initial", 1, vec![(0, x)], 0),
        ("any", 1, vec![(1, x)], 0),
        ("final", 1, vec![(2, x)], 0),
        ("initial and final", 2, vec![(0, x), (2, x)], 0),
        ("initial second", 2, vec![(1, x), (0, x)], 23),
        ("initial twice", 2, vec![(0, x), (0, x)], 23),
        ("final first", 2, vec![(2, x), (1, x)], 23),
        ("final twice", 2, vec![(2, x), (2, x)], 23),
        ("final in the middle", 3, vec![(0, x), (2, x), (1, x)], 23),
        ("place 3", 1, vec![(3, x)], 22),
        ("empty", 1, vec![(1, b"")], 22),
        ("empty and misplaced", 2, vec![(2, b""), (1, x)], 22),
        ("outside text", 1, vec![(1, b"\n")], 0),
        ("missing", 2, vec![(1, x)], 23),
        ("surplus", 1, vec![(1, x), (1, x)], 23),
        ("none stated", 0, vec![], 22),
        ("nine stated", 9, vec![(1, x); 9], 22),
        ("eight", 8, vec![(1, x); 8], 0),
    ] {
        lines(test, &format!("pieces: {what}"), refusal, &item(stated, &pieces));
    }
    let broken = filtered(&[(27, 2, 2, 0, b""), (28, 1, 0, 0, b"x"), (26, 1, 0, 0, b"")]);
    lines(test, "pieces: another item among them", 23, &broken);
    lines(test, "pieces: with B", 22, &filtered(&[(27, 2, 1, 0, b""), (28, 1, 1, 0, b"x")]));
    lines(test, "substrings of a type above the top", 22, &filtered(&[(27, top + 1, 1, 0, b"")]));
    lines(test, "substrings of integers", 0, &filtered(&[(27, 3, 1, 0, b""), (28, 1, 0, 0, b"x")]));
    lines(test, "substrings with bytes", 22, &filtered(&[(27, 2, 1, 0, b"x")]));
}

fn filter_limits(test: &mut Explicit) {
    let mut asked = |what: &str, filter: FilterLines, refusal| {
        expect(test, what, refusal, &search(filter));
    };
    asked("filter depth 16", filter_of_depth(16), 0);
    asked("filter depth 17", filter_of_depth(17), 23);
    asked("substrings at depth 16", substrings_at_depth(16), 0);
    asked("substrings at depth 17", substrings_at_depth(17), 23);
    asked("128 filter lines", filter_of_lines(128), 0);
    asked("129 filter lines", FilterLines::And(vec![filter_of_lines(128)]), 23);
    asked("128 lines with pieces", filter_of_pieces(128), 0);
    asked("129 lines with pieces", filter_of_pieces(129), 23);
    asked("8 pieces", substrings_of(8), 0);
    // The line over the limit decides, not the operator that makes it inevitable.
    let and = |count: u32| -> L { (20, count, 0, 0, b"") };
    let wrong: L = (26, 0, 0, 0, b"");
    let early = filtered(&[and(127), and(127), wrong]);
    lines(test, "too many parts announced, then a wrong column", 22, &early);
    let deep = |last: L| filtered(&[vec![(22, 0, 0, 0, &b""[..]); 16], vec![last]].concat());
    lines(test, "depth 17 with a wrong column", 22, &deep(wrong));
    lines(test, "depth 17 missing", 23, &deep(wrong)[..20]);
    let full = |last: L| {
        let present = vec![(26, 1, 0, 0, &b""[..]); 125];
        filtered(&[vec![and(2), and(125)], present, vec![last]].concat())
    };
    lines(test, "128th line present", 0, &full((26, 1, 0, 0, b"")));
    lines(
        test,
        "128th line substrings",
        23,
        &[full((27, 2, 1, 0, b"")), vec![(28, 1, 0, 0, b"x")]].concat(),
    );
    let piece = [full((27, 2, 1, 0, b"")), vec![(28, 1, 0, 0, b"")]].concat();
    lines(test, "129th line an empty piece", 22, &piece);
}

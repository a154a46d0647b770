//! Aliases on the directory sheet: refusals 2 to 6 at K 2, K 36 and K 9; and K 36 elsewhere.

use super::typed;
use harness::explicit::Explicit;
use harness::limits::{deep_directory, wide_directory};
use harness::written::{Written, L};
use peer::builder::EntryLines;

const LIST: [L; 2] = [(10, 0, 0, 0, b""), (11, 3, 0, 0, b"")];

/// The lines of an alias, one by one.
const HEAD: L = (2, 0, 2, 1, b"Nan");
const HELD: L = (3, 2, 0, 0, b"Nan");
const TARGET: L = (36, 0, 1, 0, b"");
const PART: L = (9, 2, 0, 0, b"Ann");
const ALIAS: [L; 4] = [HEAD, HELD, TARGET, PART];
const ENTRY: [L; 2] = [(2, 0, 2, 0, b"Ann"), (3, 2, 0, 0, b"Ann")];

fn lines(test: &mut Explicit, what: &str, refusal: u64, lines: &[L]) {
    test.expect(&format!("alias: {what}"), refusal, &typed(lines), b"", &LIST);
}

/// The alias, and lines after it.
fn then(more: &[L]) -> Vec<L> {
    [&ALIAS, more].concat()
}

pub fn run(test: &mut Explicit) {
    accepted(test);
    columns(test);
    missing(test);
    misplaced(test);
    every_place(test);
    schema(test);
    naming(test);
    children(test);
    counts(test);
    problem(test);
    other_sheets(test);
}

fn accepted(test: &mut Explicit) {
    lines(test, "to nothing", 0, &ALIAS);
    lines(test, "to itself", 0, &[HEAD, HELD, TARGET, (9, 2, 0, 0, b" nan ")]);
    lines(test, "to an entry before it", 0, &[&ENTRY[..], &ALIAS].concat());
    lines(test, "to an entry after it", 0, &then(&ENTRY));
    let eight = [&[HEAD, HELD, (36, 0, 8, 0, b"")][..], &[PART; 8]].concat();
    lines(test, "a target of eight parts", 0, &eight);
    let mixed: [L; 6] = [
        HEAD,
        HELD,
        (36, 0, 3, 0, b""),
        (9, 3, 0, 0, b"-7"),
        (9, 1, 0, 0, b"\n\0"),
        (9, 2, 0, 0, b"  "),
    ];
    lines(test, "parts of all syntaxes", 0, &mixed);
    let values: [L; 6] =
        [HEAD, (3, 1, 0, 0, b"o"), HELD, (3, 2, 0, 0, b"Bob"), (3, 3, 0, 0, b"7"), TARGET];
    lines(test, "with many values", 0, &[&values[..], &[PART]].concat());
    lines(test, "held in other writing", 0, &[HEAD, (3, 2, 0, 0, b" NAN"), TARGET, PART]);
    let second: [L; 4] = [(2, 0, 2, 1, b"Bob"), (3, 2, 0, 0, b"Bob"), TARGET, PART];
    lines(test, "two of them", 0, &then(&second));
    let below: [L; 4] = [(2, 1, 2, 1, b"Nan"), HELD, TARGET, PART];
    lines(test, "below an entry", 0, &[&ENTRY[..], &below].concat());
    let after: [L; 2] = [(2, 1, 2, 0, b"Bob"), (3, 2, 0, 0, b"Bob")];
    lines(test, "before a child of an entry", 0, &[&ENTRY[..], &below, &after].concat());
    lines(test, "of one name as an entry below", 0, &[&ENTRY[..], &ALIAS, &below].concat());
}

fn columns(test: &mut Explicit) {
    let top = test.top();
    for (what, line, refusal) in [
        ("K 2 with C 2", (2, 0, 2, 2, &b"Nan"[..]), 2),
        ("K 2 with C 999999", (2, 0, 2, 999_999, b"Nan"), 2),
        ("of unknown type", (2, 0, 7, 1, b"Nan"), 4),
        ("of no name", (2, 0, 2, 1, b""), 4),
        ("K 36 with A", (36, 1, 1, 0, b""), 2),
        ("K 36 of no parts", (36, 0, 0, 0, b""), 2),
        ("K 36 of nine parts", (36, 0, 9, 0, b""), 2),
        ("K 36 with C", (36, 0, 1, 1, b""), 2),
        ("K 36 with bytes", (36, 0, 1, 0, b"x"), 2),
        ("part of type 0", (9, 0, 0, 0, b"x"), 2),
        ("part above the top type", (9, top + 1, 0, 0, b"x"), 2),
        ("part of the top type", (9, top, 0, 0, b"x"), 4),
        ("part with B", (9, 2, 1, 0, b"x"), 2),
        ("part with C", (9, 2, 0, 1, b"x"), 2),
    ] {
        let alias: Vec<L> =
            ALIAS.iter().map(|&old| if old.0 == line.0 { line } else { old }).collect();
        lines(test, what, refusal, &alias);
    }
    let nine = [&[HEAD, HELD, (36, 0, 9, 0, b"")][..], &[PART; 9]].concat();
    lines(test, "a target of nine parts", 2, &nine);
    lines(test, "K 36 with A before any entry", 2, &[(36, 1, 1, 0, b"")]);
    lines(test, "K 9 of type 0 before any entry", 2, &[(9, 0, 0, 0, b"x")]);
    for broken in [1, 10, 31, 35] {
        let whole = typed(&ALIAS).written(test.form());
        let cut = whole[..whole.len() - broken].to_vec();
        test.expect(&format!("alias: {broken} bytes less"), 2, &cut, b"", &LIST);
    }
}

/// What follows where K 36 or a part is due.
fn missing(test: &mut Explicit) {
    let two: L = (36, 0, 2, 0, b"");
    let cut: [(&str, Vec<L>); 4] = [
        ("K 36", vec![HEAD, HELD]),
        ("the part", vec![HEAD, HELD, TARGET]),
        ("the second part", vec![HEAD, HELD, two, PART]),
        ("both parts", vec![HEAD, HELD, two]),
    ];
    for (what, alias) in cut {
        let due = what != "K 36";
        for (next, line, refusal) in [
            ("an entry", (2, 0, 2, 0, &b"Bob"[..]), 3),
            ("an alias", (2, 0, 2, 1, b"Bob"), 3),
            ("a child", (2, 1, 2, 0, b"Bob"), 3),
            ("a sibling of its name", (2, 0, 2, 0, b"nan"), 3),
            ("an entry of unknown type", (2, 0, 7, 0, b"Bob"), 3),
            ("an entry with a wrong parent", (2, 2, 2, 0, b"Bob"), 2),
            ("an entry with C 2", (2, 0, 2, 2, b"Bob"), 2),
            ("a type", (1, 9, 0, 0, b""), 3),
            ("a type with C", (1, 9, 0, 1, b""), 2),
            ("kind 8", (8, 1, 0, 0, b""), 2),
            ("K 36 of no parts", (36, 0, 0, 0, b""), 2),
        ] {
            let sheet = [&alias[..], &[line]].concat();
            lines(test, &format!("{what} missing, then {next}"), refusal, &sheet);
        }
        lines(test, &format!("{what} missing at the end"), 3, &alias);
        let value = [&alias[..], &[(3, 3, 0, 0, b"7")]].concat();
        lines(test, &format!("{what} missing, then a value"), 3, &value);
        if due {
            let again = [&alias[..], &[TARGET]].concat();
            lines(test, &format!("{what} missing, then K 36"), 3, &again);
        } else {
            let part = [&alias[..], &[PART]].concat();
            lines(test, &format!("{what} missing, then a part"), 3, &part);
            let unknown = [&alias[..], &[(9, 7, 0, 0, &b""[..])]].concat();
            lines(test, &format!("{what} missing, then an unknown part"), 3, &unknown);
        }
    }
}

fn misplaced(test: &mut Explicit) {
    let unknown: L = (9, 7, 0, 0, b"");
    lines(test, "K 36 before any entry", 3, &[TARGET, PART]);
    lines(test, "K 9 before any entry", 3, &[PART]);
    lines(test, "an unknown K 9 before any entry", 3, &[unknown]);
    lines(test, "a part more", 3, &then(&[PART]));
    lines(test, "an unknown part more", 3, &then(&[unknown]));
    lines(test, "K 36 twice", 3, &then(&[TARGET, PART]));
    lines(test, "a value after the target", 3, &then(&[(3, 3, 0, 0, b"7")]));
    lines(test, "a wrong value after the target", 3, &then(&[(3, 3, 0, 0, b"")]));
    lines(test, "a type after the target", 3, &then(&[(1, 9, 0, 0, b"")]));
    lines(test, "a value before its part", 3, &[HEAD, HELD, TARGET, (3, 3, 0, 0, b"7"), PART]);
    lines(test, "the naming value after the target", 3, &[HEAD, TARGET, PART, HELD]);
    lines(test, "K 36 in an entry", 3, &[&ENTRY[..], &[TARGET, PART]].concat());
    lines(test, "K 9 in an entry", 3, &[&ENTRY[..], &[PART]].concat());
    lines(test, "K 36 in an entry without values", 3, &[ENTRY[0], TARGET, PART]);
    let values_after: [L; 4] = [ENTRY[0], TARGET, PART, ENTRY[1]];
    lines(test, "K 36 before an entry's values", 3, &values_after);
    let next: [L; 3] = [(2, 0, 2, 0, b"Bob"), TARGET, PART];
    lines(test, "K 36 in the entry after an alias", 3, &then(&next));
}

/// A line of the target more, or one of the sheet's lines less, at every place of a sheet with an
/// entry before an alias, and one after it.
fn every_place(test: &mut Explicit) {
    let bob: [L; 2] = [(2, 1, 2, 0, b"Bob"), (3, 2, 0, 0, b"Bob")];
    let two: [L; 5] = [HEAD, HELD, (36, 0, 2, 0, b""), PART, PART];
    let sheet = [&typed(&ENTRY)[..], &two, &bob].concat();
    test.expect("alias: the sheet of every place", 0, &sheet, b"", &LIST);
    for (what, more, refusal) in [
        ("K 36", TARGET, 3),
        ("K 36 of two parts", (36, 0, 2, 0, &b""[..]), 3),
        ("a K 36 not in form", (36, 0, 9, 0, b""), 2),
        ("K 9", PART, 3),
        ("a K 9 not in form", (9, 2, 0, 1, b"Ann"), 2),
    ] {
        for place in 0..=sheet.len() {
            let mut wrong = sheet.clone();
            wrong.insert(place, more);
            test.expect(&format!("alias: {what}, place {place}"), refusal, &wrong, b"", &LIST);
        }
    }
    for (place, refusal) in [0, 4, 0, 3, 6, 3, 6, 3, 3, 3, 3, 6].into_iter().enumerate() {
        let mut wrong = sheet.clone();
        let less = wrong.remove(place);
        test.expect(&format!("alias: without {less:?}"), refusal, &wrong, b"", &LIST);
    }
    let mut moved = sheet;
    moved[7..10].rotate_left(1);
    test.expect("alias: K 36 after its parts", 3, &moved, b"", &LIST);
}

fn schema(test: &mut Explicit) {
    for (what, part) in [
        ("an unknown type", (9, 7, 0, 0, &b"x"[..])),
        ("octets of no bytes", (9, 1, 0, 0, b"")),
        ("text of no bytes", (9, 2, 0, 0, b"")),
        ("text outside", (9, 2, 0, 0, b"\x7f")),
        ("an integer outside", (9, 3, 0, 0, b"-0")),
        ("an integer too large", (9, 3, 0, 0, b"9223372036854775808")),
    ] {
        lines(test, what, 4, &[HEAD, HELD, TARGET, part]);
        lines(test, &format!("{what} second"), 4, &[HEAD, HELD, (36, 0, 2, 0, b""), PART, part]);
        let before = [HEAD, HELD, (36, 0, 2, 0, b""), part, (1, 9, 0, 3, b"")];
        lines(test, &format!("{what} before a wrong line"), 4, &before);
    }
}

/// 6 stands on an alias's last line that is there.
fn naming(test: &mut Explicit) {
    let bob: L = (3, 2, 0, 0, b"Bob");
    let whole: Vec<L> = vec![HEAD, bob, TARGET, PART];
    let two: L = (36, 0, 2, 0, b"");
    for (what, alias) in [
        ("another value", whole.clone()),
        ("no value", vec![HEAD, TARGET, PART]),
        ("K 36 missing", vec![HEAD, bob]),
        ("nothing but K 2", vec![HEAD]),
        ("the part missing", vec![HEAD, bob, TARGET]),
        ("a part missing", vec![HEAD, bob, two, PART]),
        ("no value and the part missing", vec![HEAD, TARGET]),
    ] {
        lines(test, &format!("{what}, the end"), 6, &alias);
        for (next, line, refusal) in [
            ("an entry", (2, 0, 2, 0, &b"Cid"[..]), 6),
            ("an alias", (2, 0, 2, 1, b"Cid"), 6),
            ("a child", (2, 1, 2, 0, b"Cid"), 6),
            ("a sibling of its name", (2, 0, 2, 0, b"nan"), 6),
            ("an entry of unknown type", (2, 0, 7, 0, b"Cid"), 6),
            ("an entry with a wrong parent", (2, 2, 2, 0, b"Cid"), 2),
            ("a child with C 2", (2, 1, 2, 2, b"Cid"), 2),
            ("a type", (1, 9, 0, 0, b""), 3),
            ("a wrong K 36", (36, 0, 9, 0, b""), 2),
        ] {
            let sheet = [&alias[..], &[line]].concat();
            lines(test, &format!("{what}, then {next}"), refusal, &sheet);
        }
    }
    lines(test, "no naming value, then a surplus part", 3, &[&whole[..], &[PART]].concat());
    lines(test, "no naming value, then K 36 again", 3, &[&whole[..], &[TARGET]].concat());
    lines(test, "no naming value, then the value", 3, &[&whole[..], &[HELD]].concat());
    lines(test, "no naming value, unknown part", 4, &[HEAD, bob, TARGET, (9, 7, 0, 0, b"x")]);
    lines(test, "no naming value, wrong part", 2, &[HEAD, bob, TARGET, (9, 0, 0, 0, b"x")]);
    let before: Vec<L> = [&[ENTRY[0]][..], &ALIAS].concat();
    lines(test, "after an entry without its naming value", 6, &before);
}

fn children(test: &mut Explicit) {
    for (what, child, refusal) in [
        ("a child", (2, 1, 2, 0, &b"Bob"[..]), 3),
        ("an alias as child", (2, 1, 2, 1, b"Bob"), 3),
        ("a child of unknown type", (2, 1, 7, 0, b"Bob"), 3),
        ("a child outside its syntax", (2, 1, 3, 0, b"Bob"), 3),
        ("a child of type 0", (2, 1, 0, 0, b"Bob"), 2),
        ("a child with C 2", (2, 1, 2, 2, b"Bob"), 2),
        ("a child of itself", (2, 2, 2, 0, b"Bob"), 2),
    ] {
        lines(test, what, refusal, &then(&[child, (3, 2, 0, 0, b"Bob")]));
    }
    let later = |parent: u32| -> Vec<L> {
        let more: [L; 2] = [(2, parent, 2, 0, b"Bob"), (3, 2, 0, 0, b"Bob")];
        [&ALIAS[..], &ENTRY, &more].concat()
    };
    lines(test, "a child after another entry", 3, &later(1));
    lines(test, "a child of the other entry", 0, &later(2));
    lines(test, "a second entry beside it", 0, &later(0));
    for (what, name, refusal) in
        [("a sibling", &b"Bob"[..], 0), ("a sibling of its name", b" NAN", 5)]
    {
        let more: [L; 2] = [(2, 0, 2, 0, name), (3, 2, 0, 0, name)];
        lines(test, what, refusal, &then(&more));
        lines(test, &format!("{what} before it"), refusal, &[&more[..], &ALIAS].concat());
    }
    lines(test, "twice", 5, &then(&ALIAS));
}

fn counts(test: &mut Explicit) {
    let to_ann = |mut entry: EntryLines| {
        entry.target = Some(vec![(1, b"Ann".to_vec())]);
        entry
    };
    for (count, refusal) in [(256, 0), (257, 3)] {
        let mut directory = wide_directory(count);
        directory.entries = directory.entries.into_iter().map(to_ann).collect();
        test.expect(&format!("{count} aliases"), refusal, &directory, b"", &LIST);
    }
    for (depth, refusal) in [(8, 0), (9, 3)] {
        let mut directory = deep_directory(depth);
        let last = directory.entries.pop().map(to_ann);
        directory.entries.extend(last);
        test.expect(&format!("an alias at depth {depth}"), refusal, &directory, b"", &LIST);
    }
    let mut directory = deep_directory(8);
    let top = to_ann(directory.entries[6].clone());
    directory.entries[6] = top;
    test.expect("a child of an alias at depth 7", 3, &directory, b"", &LIST);
}

/// An answer with outcome 5 is a line.
fn problem(test: &mut Explicit) {
    let line = test.form().line();
    let sheet = typed(&[HEAD, HELD, TARGET, (9, 2, 0, 0, b"Nan")]);
    let asked: [L; 3] = [(10, 0, 0, 0, b""), (11, 3, 1, 0, b""), (9, 2, 0, 0, b"Nan")];
    for (room, refusal) in [(line + 1, 0), (line, 0), (line - 1, 31), (1, 31), (0, 31)] {
        let what = format!("aliasProblem in {room} bytes");
        test.expect_in(room, &what, refusal, &sheet, b"", &asked);
    }
}

/// No kind of the other sheets.
fn other_sheets(test: &mut Explicit) {
    let item: [L; 5] =
        [(4, 0, 0, 1, b""), (5, 1, 1, 0, b""), PART, (6, 0, 0, 0, b""), (7, 0, 0, 0, b"")];
    let item = [&item[..], &[(8, 63, 0, 0, b"")]].concat();
    for place in 0..=item.len() {
        let mut perm = item.clone();
        perm.insert(place, TARGET);
        let what = format!("K 36 in permissions, place {place}");
        test.expect(&what, 12, &typed(&[]), &perm, &LIST);
    }
    let search: [L; 6] = [
        (10, 0, 0, 0, b""),
        (11, 4, 1, 0, b""),
        PART,
        (12, 0, 0, 1, b""),
        (15, 2, 0, 0, b""),
        (26, 1, 0, 0, b""),
    ];
    for place in 0..=search.len() {
        let mut req = search.to_vec();
        req.insert(place, TARGET);
        test.expect(&format!("K 36 in a request, place {place}"), 22, &typed(&[]), b"", &req);
    }
}

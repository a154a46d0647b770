//! Lines in form and not in form, in each of the three sheets.

use harness::explicit::Explicit;
use harness::written::{Written, L};
use peer::form::Form;

/// Numbers of a line, each set to the right of its column, and what follows them.
type Broken = (&'static str, &'static [&'static str], &'static str);

/// A line that is wrong, after one that is right.
const BROKEN: [Broken; 26] = [
    ("one blank", &[], " "),
    ("one line end", &[], "\n"),
    ("a lone byte 0", &[], "\0"),
    ("columns alone", &["K", "1", "0", "0", "0"], ""),
    ("carriage return", &["K", "1", "0", "0", "0"], "\r\n"),
    ("four columns", &["K", "1", "0", "0"], "\n"),
    ("six columns", &["K", "1", "0", "0", "0", "0"], "\n"),
    ("no line end before the next line", &["K", "1", "0", "0", "0", "K", "1", "0", "0", "0"], "\n"),
    ("blank column A", &["K", "", "0", "0", "0"], "\n"),
    ("blank column L", &["K", "1", "0", "0", ""], "\n"),
    ("blank kind", &["", "1", "0", "0", "0"], "\n"),
    ("leading zero", &["K", "01", "0", "0", "0"], "\n"),
    ("two zeros", &["K", "1", "00", "0", "0"], "\n"),
    ("zeros throughout", &["K", "000001", "0", "0", "0"], "\n"),
    ("plus sign", &["K", "+1", "0", "0", "0"], "\n"),
    ("minus sign", &["K", "1", "-0", "0", "0"], "\n"),
    ("tab", &["K", "\t    1", "0", "0", "0"], "\n"),
    ("left-justified", &["K", "1     ", "0", "0", "0"], "\n"),
    ("blank after the number", &["K", "1 ", "0", "0", "0"], "\n"),
    ("blank within the number", &["K", "1 1", "0", "0", "0"], "\n"),
    ("letter", &["K", "1", "0", "x", "0"], "\n"),
    ("value cut off", &["K", "1", "0", "0", "3"], "ab\n"),
    ("value too long", &["K", "1", "0", "0", "1"], "ab\n"),
    (
        "L 65",
        &["K", "1", "0", "0", "65"],
        "aaaaaaaaaaaaaaaaaaaaaaaaaaaaaaaaaaaaaaaaaaaaaaaaaaaaaaaaaaaaaaaaa\n",
    ),
    ("L 999999", &["K", "1", "0", "0", "999999"], "a\n"),
    ("a trailing byte", &["K", "1", "0", "0", "0"], "\nx"),
];

/// K in the texts above becomes the kind of a line that could stand there.
fn written(form: Form, (_, numbers, end): Broken, kind: &str) -> Vec<u8> {
    let width = if form == Form::Wide { 9 } else { 6 };
    let number = |number: &&str| format!("{:>width$}", number.replace('K', kind));
    (numbers.iter().map(number).collect::<String>() + end).into_bytes()
}

pub fn run(test: &mut Explicit) {
    let form = test.form();
    let after = |line: L, broken: Vec<u8>| [[line].written(form), broken].concat();
    for broken in BROKEN {
        let what = broken.0;
        test.expect(&format!("directory, {what}"), 2, &written(form, broken, "1"), b"", b"");
        let perm = after((4, 1, 0, 0, b""), written(form, broken, "5"));
        test.expect(&format!("permissions, {what}"), 12, b"", &perm, b"");
        let req = after((10, 0, 1, 0, b""), written(form, broken, "9"));
        test.expect(&format!("request, {what}"), 22, b"", b"", &req);
    }
    numbers(test);
    let alone = |kind: u32| [(kind, 1, 0, 0, &b""[..])];
    for kind in [0, 4, 8, 10, 15, 16, 20, 28, 29, 30, 35, 36, 38, 39, 99, 999_999] {
        test.expect(&format!("directory, kind {kind}"), 2, &alone(kind), b"", b"");
    }
    for kind in [0, 1, 2, 3, 10, 15, 16, 20, 28, 29, 30, 36, 38, 999_999] {
        test.expect(&format!("permissions, kind {kind}"), 12, b"", &alone(kind), b"");
    }
    for kind in [0, 1, 2, 3, 4, 5, 6, 7, 8, 17, 18, 19, 29, 30, 36, 38, 999_999] {
        test.expect(&format!("request, kind {kind}"), 22, b"", b"", &alone(kind));
    }
    orders(test);
    other_form(test);
}

/// Digits may fill a column.
fn numbers(test: &mut Explicit) {
    let highest = if test.form() == Form::Wide { 999_999_999 } else { 999_999 };
    for number in [1, 99_999, 100_000, 999_999, 1_000_000, 99_999_999, 100_000_000, 999_999_999] {
        if number <= highest {
            let limit = [(10, 0, 0, 0, &b""[..]), (11, 3, 0, number, b"")];
            test.expect(&format!("size limit {number}"), 0, b"", b"", &limit);
        }
    }
    // As a kind, a precedence or a value's length they are not allowed.
    let of = |kind: u32, a: u32| [(kind, a, 0, 0, &b""[..])];
    test.expect("the highest number as a kind", 2, &of(highest, 0), b"", b"");
    test.expect("the highest number as a type", 2, &of(1, highest), b"", b"");
    test.expect("the highest number as a parent", 2, &[(2, highest, 1, 0, &b"a"[..])], b"", b"");
    test.expect("the highest number as a precedence", 12, b"", &of(4, highest), b"");
    test.expect("the highest number as a level", 22, b"", b"", &of(10, highest));
}

/// Sheets of six columns handed in as nine, and the other way round.
fn other_form(test: &mut Explicit) {
    let other = test.form().other();
    let dir: Vec<L> = super::typed(&[(2, 0, 2, 0, b"Ann"), (3, 2, 0, 0, b"Ann")]);
    let perm: [L; 5] = [
        (4, 0, 0, 1, b""),
        (5, 1, 0, 0, b""),
        (6, 0, 0, 0, b""),
        (7, 0, 0, 0, b""),
        (8, 63, 0, 0, b""),
    ];
    let list: [L; 2] = [(10, 0, 0, 0, b""), (11, 3, 0, 0, b"")];
    let turned = [dir.written(other), perm.written(other), list.written(other)];
    test.expect("all sheets in one form", 0, &dir, &perm, &list);
    test.expect("the directory in the other form", 2, &turned[0], &perm, &list);
    test.expect("the permissions in the other form", 12, &dir, &turned[1], &list);
    test.expect("the request in the other form", 22, &dir, &perm, &turned[2]);
    test.expect("all sheets in the other form", 2, &turned[0], &turned[1], &turned[2]);
    test.expect("empty sheets have no form", 0, b"", b"", &list);
    let both = [dir.written(test.form()), [(3u32, 3, 0, 0, &b"7"[..])].written(other)].concat();
    test.expect("a last line in the other form", 2, &both, &perm, &list);
    let both = [dir[..1].to_vec().written(other), dir[1..].to_vec().written(test.form())].concat();
    test.expect("a first line in the other form", 2, &both, &perm, &list);
}

/// Directory, permissions, request, in this order; each whole.
fn orders(test: &mut Explicit) {
    let long = vec![b' '; 65_537];
    let wrong = b"x";
    test.expect("directory too long, all wrong", 1, &long, &long, &long);
    test.expect("directory wrong, others too long", 2, wrong, &long, &long);
    test.expect("permissions too long, request wrong", 11, b"", &long, wrong);
    test.expect("permissions wrong, request too long", 12, b"", wrong, &long);
    test.expect(
        "permissions missing lines, request too long",
        13,
        b"",
        &[(4, 0, 0, 0, &b""[..])],
        &long,
    );
    test.expect("request too long and wrong", 21, b"", b"", &long);
    test.expect("request wrong, no buffer", 22, b"", b"", wrong);
    test.expect_in(0, "request empty, no buffer", 23, b"", b"", b"");
}

//! Moves of a directory sheet from one form to the other: refusals 1 to 6, 35 and 36.

use super::typed;
use harness::explicit::Explicit;
use harness::lent::MAX_ROOM;
use harness::limits::{
    deep_directory, directory_of_length, directory_of_types, large_directory, wide_directory,
};
use harness::written::{Written, L};
use peer::form::Form;
use peer::moves::Way;

pub fn run(test: &mut Explicit) {
    wholes(test);
    lengths(test);
    high_types(test);
    faulty(test);
    other_form(test);
}

/// Ann, with octets of all sorts, above a second entry and an alias.
fn people() -> Vec<L> {
    typed(&[
        (2, 0, 2, 0, b"Ann"),
        (3, 1, 0, 0, b"\n\0\xff "),
        (3, 1, 0, 0, b"     3     1     0     0     1x\n"),
        (3, 1, 0, 0, &[b' '; 64]),
        (3, 2, 0, 0, b" ann  "),
        (3, 3, 0, 0, b"-9223372036854775808"),
        (2, 1, 3, 0, b"999999"),
        (3, 2, 0, 0, b"a   b"),
        (3, 3, 0, 0, b"999999"),
        (2, 1, 2, 1, b"Nan"),
        (3, 2, 0, 0, b"nan"),
        (36, 0, 2, 0, b""),
        (9, 2, 0, 0, b" ANN"),
        (9, 1, 0, 0, b"\n\n"),
    ])
}

/// Moved both ways, into buffers of just the length, longer, and shorter.
fn wholes(test: &mut Explicit) {
    let mut types = directory_of_types(64);
    types.types[63].0 = 999;
    types.entries[0].values[63].0 = 999;
    let sheets: [(&str, &dyn Written); 9] = [
        ("nothing", b""),
        ("one type", &[(1u32, 999, 2, 0, &b""[..])]),
        ("types alone", &typed(&[])),
        ("people", &people()),
        ("64 types", &types),
        ("depth 8", &deep_directory(8)),
        ("256 entries", &wide_directory(256)),
        ("256 entries in the depth", &large_directory()),
        ("40,000 bytes", &directory_of_length(Form::Narrow, 40_000)),
    ];
    for (what, sheet) in sheets {
        for way in Way::ALL {
            let (old, new) = (sheet.written(way.from()), sheet.written(way.to()));
            let length = new.len();
            for room in [length, length + 1, length + 1_000, 65_536, 65_537, MAX_ROOM] {
                test.moves(what, way, &old, room, Ok(&new));
            }
            for room in [0, 1, old.len().min(length), length / 2, length.saturating_sub(1)] {
                if room < length {
                    test.moves(what, way, &old, room, Err(36));
                }
            }
        }
    }
}

fn lengths(test: &mut Explicit) {
    // As long as given once they are moved there.
    for (length, refusal) in [(65_535, 0), (65_536, 0), (65_537, 36), (65_538, 36), (74_000, 36)] {
        let directory = directory_of_length(Form::Wide, length);
        let (old, new) = (directory.to_bytes(Form::Narrow), directory.to_bytes(Form::Wide));
        let what = format!("{length} bytes moved there");
        let expected = if refusal == 0 { Ok(&new[..]) } else { Err(refusal) };
        for room in [length, length + 1, MAX_ROOM] {
            test.moves(&what, Way::There, &old, room, expected);
        }
        for room in [0, length - 1] {
            test.moves(&what, Way::There, &old, room, Err(36));
        }
        let expected = if refusal == 0 { Ok(&old[..]) } else { Err(1) };
        for room in [old.len(), MAX_ROOM] {
            test.moves(&format!("{length} bytes moved back"), Way::Back, &new, room, expected);
        }
    }
    for (length, refusal) in [(65_535, 36), (65_536, 36), (65_537, 1), (70_000, 1)] {
        let old = directory_of_length(Form::Narrow, length).to_bytes(Form::Narrow);
        for room in [0, 65_536, MAX_ROOM] {
            let what = format!("from {length} bytes");
            test.moves(&what, Way::There, &old, room, Err(refusal));
        }
    }
    for way in Way::ALL {
        test.moves("65,537 bytes of nothing", way, &[b' '; 65_537], MAX_ROOM, Err(1));
        test.moves("65,536 bytes of nothing", way, &[b' '; 65_536], MAX_ROOM, Err(2));
    }
}

/// 35 comes after 1 to 6 and before 36.
fn high_types(test: &mut Explicit) {
    for (kind, refusal) in [
        (1, 0),
        (998, 0),
        (999, 0),
        (1_000, 35),
        (1_001, 35),
        (99_999, 35),
        (999_999, 35),
        (1_000_000, 35),
        (9_999_998, 35),
        (9_999_999, 35),
        (10_000_000, 2),
        (999_999_999, 2),
    ] {
        let declared: Vec<L> = vec![(1, kind, 1, 0, b"")];
        let held: Vec<L> =
            vec![(1, kind, 1, 0, b""), (2, 0, kind, 0, b"Ann"), (3, kind, 0, 0, b"Ann")];
        let after: Vec<L> = [&declared[..], &[(1, kind + 1, 0, 0, b"")]].concat();
        for (what, lines) in [("declared", &declared), ("held", &held)] {
            let what = format!("type {kind} {what}");
            let (old, new) = (lines.written(Form::Wide), lines.written(Form::Narrow));
            for room in [0, 1, new.len() - 1, new.len(), MAX_ROOM] {
                let expected = match refusal {
                    0 if room < new.len() => Err(36),
                    0 => Ok(&new[..]),
                    _ => Err(refusal),
                };
                test.moves(&what, Way::Back, &old, room, expected);
            }
        }
        if kind < 9_999_999 {
            let refusal = if kind < 999 { 0 } else { 35 };
            let (old, new) = (after.written(Form::Wide), after.written(Form::Narrow));
            let expected = if refusal == 0 { Ok(&new[..]) } else { Err(refusal) };
            let what = format!("the type after {kind}");
            test.moves(&what, Way::Back, &old, new.len(), expected);
        }
        if kind == 1_000 || kind == 999_999 {
            let old = held.written(Form::Narrow);
            test.moves(&format!("type {kind} moved there"), Way::There, &old, MAX_ROOM, Err(2));
        }
    }
}

/// Whatever a directory may be refused for, before 35 and 36.
fn faulty(test: &mut Explicit) {
    let wrong: [(&str, u64, &[L]); 16] = [
        ("a kind not allowed", 2, &[(4, 1, 0, 0, b"")]),
        ("a parent that is not above", 2, &[(2, 1, 2, 0, b"Ann")]),
        ("a syntax not allowed", 2, &[(1, 900, 3, 0, b"")]),
        ("a type line out of order", 3, &[(1, 3, 0, 0, b"")]),
        ("a value without an entry", 3, &[(3, 2, 0, 0, b"Ann")]),
        ("an unknown type", 4, &[(2, 0, 7, 0, b"Ann")]),
        ("a value outside its syntax", 4, &[(2, 0, 3, 0, b"-0")]),
        ("an empty value", 4, &[(2, 0, 2, 0, b"")]),
        (
            "siblings of one name",
            5,
            &[(2, 0, 2, 0, b"Ann"), (3, 2, 0, 0, b"Ann"), (2, 0, 2, 0, b"ann ")],
        ),
        ("a value twice", 5, &[(2, 0, 2, 0, b"Ann"), (3, 2, 0, 0, b"Ann"), (3, 2, 0, 0, b" Ann")]),
        ("an alias without a target", 3, &[(2, 0, 2, 1, b"Nan"), (3, 2, 0, 0, b"Nan")]),
        (
            "a target outside its syntax",
            4,
            &[(2, 0, 2, 1, b"Nan"), (3, 2, 0, 0, b"Nan"), (36, 0, 1, 0, b""), (9, 3, 0, 0, b"-0")],
        ),
        ("no naming value", 6, &[(2, 0, 2, 0, b"Ann")]),
        ("another naming value", 6, &[(2, 0, 2, 0, b"Ann"), (3, 2, 0, 0, b"Bob")]),
        ("a naming value of another type", 6, &[(2, 0, 2, 0, b"Ann"), (3, 1, 0, 0, b"Ann")]),
        (
            "no naming value, then an entry",
            6,
            &[(2, 0, 2, 0, b"Ann"), (2, 0, 2, 0, b"Bob"), (3, 2, 0, 0, b"Bob")],
        ),
    ];
    for (what, refusal, lines) in wrong {
        for way in Way::ALL {
            let sheet = typed(lines).written(way.from());
            for room in [0, 1, MAX_ROOM] {
                test.moves(what, way, &sheet, room, Err(refusal));
            }
        }
        // With a high type before it; the type line out of order stays so.
        let high = [&super::TYPES[..], &[(1, 1_000, 0, 0, b"")], lines].concat();
        let refusal = if what == "a syntax not allowed" { 2 } else { refusal };
        let what = format!("{what}, after a high type");
        for room in [0, MAX_ROOM] {
            test.moves(&what, Way::Back, &high.written(Form::Wide), room, Err(refusal));
        }
    }
    for way in Way::ALL {
        let whole = people().written(way.from());
        for gone in [1, way.from().line(), 40] {
            let cut = &whole[..whole.len() - gone];
            test.moves(&format!("{gone} bytes less"), way, cut, MAX_ROOM, Err(2));
        }
        let more = [&whole[..], b"\n"].concat();
        test.moves("a byte more", way, &more, MAX_ROOM, Err(2));
        let long = directory_of_length(way.from(), 65_537).to_bytes(way.from());
        test.moves("a sheet too long", way, &long, 0, Err(1));
        for (what, directory) in
            [("257 entries", wide_directory(257)), ("65 types", directory_of_types(65))]
        {
            test.moves(what, way, &directory.to_bytes(way.from()), MAX_ROOM, Err(3));
        }
        test.moves("depth 9", way, &deep_directory(9).to_bytes(way.from()), MAX_ROOM, Err(3));
    }
}

/// A sheet that has the form it is to be moved to.
fn other_form(test: &mut Explicit) {
    for way in Way::ALL {
        for lines in [typed(&[]), people(), vec![(1, 5, 0, 0, b"")]] {
            test.moves("already there", way, &lines.written(way.to()), MAX_ROOM, Err(2));
            test.moves("already there", way, &lines.written(way.to()), 0, Err(2));
        }
    }
}

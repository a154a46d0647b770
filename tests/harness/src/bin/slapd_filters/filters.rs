//! Random filters on which the two logics agree.

use crate::world::{value, World, UNKNOWN};
use harness::random::Random;
use harness::values::{variant, INTEGER, OCTETS, TEXT};
use peer::builder::FilterLines;

/// Assertion values outside the integer syntax on both sides.
const NO_INTEGERS: [&str; 11] = ["abc", "1a", "-", "--1", "", "-0", "00", "010", "+1", " 1", "1 "];

/// Neither printable ASCII nor UTF-8.
const NO_TEXT: &[u8] = b"a\xff";

pub fn filter(random: &mut Random, world: &World) -> FilterLines {
    match random.below(20) {
        0..=4 => item(random, world),
        5 => deep(random, world),
        _ => nested(random, world, 4),
    }
}

fn nested(random: &mut Random, world: &World, depth: usize) -> FilterLines {
    if depth == 0 || random.once_in(5) {
        return item(random, world);
    }
    let parts = |random: &mut Random| {
        let count = *random.pick(&[0, 1, 2, 2, 2, 3]);
        (0..count).map(|_| nested(random, world, depth - 1)).collect()
    };
    match random.below(5) {
        0 | 1 => FilterLines::And(parts(random)),
        2 | 3 => FilterLines::Or(parts(random)),
        _ => FilterLines::Not(Box::new(nested(random, world, depth - 1))),
    }
}

/// One operator in another, up to depth 15 (the negation is one more).
fn deep(random: &mut Random, world: &World) -> FilterLines {
    let mut filter = item(random, world);
    for _ in 1..random.between(8, 15) {
        filter = match random.below(3) {
            0 => FilterLines::And(vec![item(random, world), filter]),
            1 => FilterLines::Or(vec![filter, item(random, world)]),
            _ => FilterLines::Not(Box::new(filter)),
        };
    }
    filter
}

fn item(random: &mut Random, world: &World) -> FilterLines {
    let (kind, syntax) =
        if random.once_in(12) { (UNKNOWN, TEXT) } else { *random.pick(world.compared_types()) };
    let value = asserted(random, world, kind, syntax);
    match random.below(10) {
        0..=2 => FilterLines::Equality(kind, value),
        3 | 4 => FilterLines::AtLeast(kind, value),
        5 | 6 => FilterLines::AtMost(kind, value),
        7 => FilterLines::Present(kind),
        _ => substrings(random, kind, syntax),
    }
}

fn asserted(random: &mut Random, world: &World, kind: u32, syntax: u32) -> Vec<u8> {
    if syntax == INTEGER && random.once_in(10) {
        return random.pick(&NO_INTEGERS).as_bytes().to_vec();
    }
    if syntax == TEXT && random.once_in(15) {
        return if random.percent(50) { Vec::new() } else { NO_TEXT.to_vec() };
    }
    let entry = random.pick(&world.directory.entries);
    let held = entry.values.iter().find(|(other, _)| *other == kind);
    match held {
        Some((_, held)) if random.percent(50) => variant(random, syntax, held),
        _ => value(random, syntax),
    }
}

/// On octets and integers there is no rule for pieces.
fn substrings(random: &mut Random, kind: u32, syntax: u32) -> FilterLines {
    let source = value(random, if syntax == INTEGER { INTEGER } else { TEXT });
    let count = random.between(1, 3);
    let mut start = 0;
    let pieces = (0..count)
        .map(|index| {
            let place = match (index == 0, index + 1 == count) {
                (true, true) => random.below(3),
                (true, false) => random.below(2),
                (false, true) => random.between(1, 2),
                _ => 1,
            };
            let begin = match place {
                0 if random.percent(80) => 0,
                2 if random.percent(80) => source.len() - 1,
                _ => start.min(source.len() - 1),
            };
            let end = random.between(begin + 1, source.len());
            start = end;
            (place as u32, piece(random, place, &source[begin..end]))
        })
        .collect();
    let kind = if syntax == OCTETS && random.percent(50) { 2 } else { kind };
    FilterLines::Substrings(kind, pieces)
}

/// slapd drops blanks before an initial piece of more than blanks, and after a final one.
fn piece(random: &mut Random, place: usize, text: &[u8]) -> Vec<u8> {
    if random.once_in(20) {
        return NO_TEXT.to_vec();
    }
    let text = variant(random, TEXT, text);
    let kept = match place {
        0 if !text.trim_ascii().is_empty() => text.trim_ascii_start(),
        2 => text.trim_ascii_end(),
        _ => &text,
    };
    if kept.is_empty() {
        b"a".to_vec()
    } else {
        kept.to_vec()
    }
}

//! Random requests against a world: names that exist, nearly exist or do not, filters of all
//! kinds, selections with repeats, unknown types and unfit values.

use crate::aliases::name_through_alias;
use crate::random::Random;
use crate::values::{other_letters, unfit, value, variant, OCTETS, TEXT};
use crate::world::{free_part, some_value, stored_name, user_name};
use peer::builder::{DirectorySheet, FilterLines, Name, OperationLines, RequestSheet, Selected};
use peer::form::Form;

const MAX_FILTER_LINES: usize = 128;
const MAX_FILTER_DEPTH: usize = 16;

pub fn request(random: &mut Random, form: Form, directory: &DirectorySheet) -> RequestSheet {
    let level = *random.pick(&[0, 0, 1, 2]);
    let requester = requester(random, directory);
    request_of(random, form, directory, level, requester)
}

/// A random request of a given requester.
pub fn request_of(
    random: &mut Random,
    form: Form,
    directory: &DirectorySheet,
    level: u32,
    requester: Name,
) -> RequestSheet {
    let operation = match random.below(10) {
        0 | 1 => OperationLines::Read(selected(random, directory)),
        2 | 3 => {
            let (kind, value) = asserted(random, directory);
            OperationLines::Compare(kind, value)
        }
        4 => OperationLines::List { limit: limit(random, form) },
        _ => OperationLines::Search {
            limit: limit(random, form),
            selected: selected(random, directory),
            order: random.percent(45).then(|| order(random, directory)),
            subset: *random.pick(&[0, 0, 1, 1, 1, 2, 2, 2, 2, 2]),
            filter: filter(random, directory),
        },
    };
    let from_root =
        matches!(operation, OperationLines::List { .. } | OperationLines::Search { .. })
            && random.percent(40);
    let name = match () {
        _ if from_root => Vec::new(),
        _ if random.percent(20) => requester.clone(),
        _ => asked_name(random, directory),
    };
    let edition = random.below(2) as u32;
    RequestSheet { level, edition, requester, name, operation }
}

pub fn requester(random: &mut Random, directory: &DirectorySheet) -> Name {
    let mut name = user_name(random, directory);
    if random.once_in(8) {
        spoil(random, directory, &mut name);
    }
    name
}

fn asked_name(random: &mut Random, directory: &DirectorySheet) -> Name {
    let through = random.percent(30).then(|| name_through_alias(random, directory)).flatten();
    let mut name = through.unwrap_or_else(|| stored_name(random, directory));
    if random.percent(35) {
        spoil(random, directory, &mut name);
    }
    name
}

/// Makes a name one that nearly exists, or that the schema does not allow.
fn spoil(random: &mut Random, directory: &DirectorySheet, name: &mut Name) {
    let place = random.below(name.len() + 1);
    match random.below(6) {
        0 => name.truncate(place),
        1 if place < name.len() => name[place].0 = any_type(random, directory),
        2 if place < name.len() => {
            name[place].1 = unfit(random, directory.syntax(name[place].0).unwrap_or(TEXT));
        }
        3 if place < name.len() => {
            name[place].1 = value(random, directory.syntax(name[place].0).unwrap_or(TEXT));
        }
        4 if place < name.len() => {
            name[place].1.pop();
        }
        _ if !directory.types.is_empty() => name.push(free_part(random, directory)),
        _ => name.push((any_type(random, directory), b"a".to_vec())),
    }
    name.truncate(8);
}

const LONG_LIMITS: [u32; 8] =
    [5, 999_999, 1_000_000, 1_000_001, 1_000_002, 70_000_003, 123_000_002, 999_999_999];

fn limit(random: &mut Random, form: Form) -> u32 {
    match random.below(20) {
        0..=9 => 0,
        10..=16 => random.between(1, 4) as u32,
        17 | 18 => random.between(4, 7) as u32,
        // Seven digits and more are for nine columns.
        _ if form.is_wide() => *random.pick(&LONG_LIMITS),
        _ => *random.pick(&[5, 10, 100, 256, 999_999]),
    }
}

fn any_type(random: &mut Random, directory: &DirectorySheet) -> u32 {
    if directory.types.is_empty() || random.once_in(8) {
        *random.pick(&[1, 2, 3, 4, 6, 500, 998, 999])
    } else {
        random.pick(&directory.types).0
    }
}

fn selected(random: &mut Random, directory: &DirectorySheet) -> Selected {
    let types = random.percent(50).then(|| {
        let most = if random.once_in(10) { 16 } else { 4 };
        (0..random.below(most + 1)).map(|_| any_type(random, directory)).collect()
    });
    Selected { types, values: random.percent(65) }
}

/// Mostly of a type that has an order.
pub fn order(random: &mut Random, directory: &DirectorySheet) -> (u32, u32) {
    let ordered = directory.types.iter().filter(|(_, syntax)| *syntax != OCTETS);
    let ordered: Vec<u32> = ordered.map(|(kind, _)| *kind).collect();
    let kind = if ordered.is_empty() || random.once_in(12) {
        any_type(random, directory)
    } else {
        *random.pick(&ordered)
    };
    (kind, random.below(2) as u32)
}

/// A type and a value to compare with: often one that is held.
fn asserted(random: &mut Random, directory: &DirectorySheet) -> (u32, Vec<u8>) {
    if random.percent(45) {
        if let Some(held) = some_value(random, directory) {
            return held;
        }
    }
    let kind = any_type(random, directory);
    let syntax = directory.syntax(kind).unwrap_or(random.below(3) as u32);
    let fits = !random.once_in(8);
    (kind, if fits { value(random, syntax) } else { unfit(random, syntax) })
}

pub fn filter(random: &mut Random, directory: &DirectorySheet) -> FilterLines {
    loop {
        let filter = match random.below(60) {
            0 => deep(random, directory),
            1 => wide(random, directory),
            2..=20 => leaf(random, directory),
            _ => nested(random, directory, 4),
        };
        if filter.lines() <= MAX_FILTER_LINES {
            return filter;
        }
    }
}

fn nested(random: &mut Random, directory: &DirectorySheet, depth: usize) -> FilterLines {
    if depth == 0 {
        return leaf(random, directory);
    }
    let parts = |random: &mut Random| {
        let count = *random.pick(&[0, 1, 2, 2, 2, 3, 3]);
        (0..count).map(|_| nested(random, directory, depth - 1)).collect()
    };
    match random.below(10) {
        0..=2 => FilterLines::And(parts(random)),
        3 | 4 => FilterLines::Or(parts(random)),
        5 | 6 => FilterLines::Not(Box::new(nested(random, directory, depth - 1))),
        _ => leaf(random, directory),
    }
}

/// As deep as a filter may be, or nearly.
fn deep(random: &mut Random, directory: &DirectorySheet) -> FilterLines {
    let mut filter = leaf(random, directory);
    for _ in 1..random.between(MAX_FILTER_DEPTH - 2, MAX_FILTER_DEPTH) {
        filter = match random.below(4) {
            0 => FilterLines::And(vec![filter]),
            1 => FilterLines::Or(vec![leaf(random, directory), filter]),
            _ => FilterLines::Not(Box::new(filter)),
        };
    }
    filter
}

/// Many lines, up to the most a filter may have.
fn wide(random: &mut Random, directory: &DirectorySheet) -> FilterLines {
    let most = random.between(100, MAX_FILTER_LINES);
    let mut parts: Vec<FilterLines> = Vec::new();
    let mut lines = 1;
    while lines < most {
        let mut part = leaf(random, directory);
        if lines + part.lines() > most {
            part = FilterLines::Present(any_type(random, directory));
        }
        lines += part.lines();
        parts.push(part);
    }
    if random.percent(50) {
        FilterLines::And(parts)
    } else {
        FilterLines::Or(parts)
    }
}

fn leaf(random: &mut Random, directory: &DirectorySheet) -> FilterLines {
    let (kind, value) = asserted(random, directory);
    match random.below(12) {
        0..=2 => FilterLines::Equality(kind, value),
        3 | 4 => FilterLines::AtLeast(kind, value),
        5 | 6 => FilterLines::AtMost(kind, value),
        7 | 8 => FilterLines::Present(kind),
        _ => substrings(random, directory),
    }
}

fn substrings(random: &mut Random, directory: &DirectorySheet) -> FilterLines {
    let texts: Vec<u32> = directory
        .types
        .iter()
        .filter(|(_, syntax)| *syntax == TEXT)
        .map(|(kind, _)| *kind)
        .collect();
    let kind = if texts.is_empty() || random.once_in(10) {
        any_type(random, directory)
    } else {
        *random.pick(&texts)
    };
    // Pieces cut from a held value fit often.
    let source = (0..8)
        .find_map(|_| some_value(random, directory).filter(|(held, _)| *held == kind))
        .map_or_else(|| value(random, TEXT), |(_, held)| held);
    let count = if random.once_in(12) { random.between(4, 8) } else { random.between(1, 3) };
    let mut start = 0;
    let mut pieces = Vec::new();
    for index in 0..count {
        let place = match (index == 0, index + 1 == count) {
            (true, true) => random.below(3),
            (true, false) => random.below(2),
            (false, true) => random.between(1, 2),
            _ => 1,
        };
        let piece = match random.below(10) {
            0 => value(random, TEXT),
            1 if random.percent(30) => unfit(random, TEXT),
            _ => cut(random, &source, &mut start, place),
        };
        let mut piece = if piece.is_empty() { b"a".to_vec() } else { piece };
        if random.percent(25) {
            // Blanks at its ends make it another piece.
            piece = variant(random, TEXT, &piece);
        } else {
            other_letters(random, &mut piece);
        }
        pieces.push((place as u32, piece));
    }
    FilterLines::Substrings(kind, pieces)
}

/// A part of a text for a place: from the front, from the back, or from about `start`.
fn cut(random: &mut Random, source: &[u8], start: &mut usize, place: usize) -> Vec<u8> {
    let length = random.between(1, source.len().min(3));
    match place {
        0 | 2 if random.once_in(3) => {
            let begin = random.between(0, source.len() - length);
            source[begin..begin + length].to_vec()
        }
        0 => {
            *start = length;
            source[..length].to_vec()
        }
        2 => source[source.len() - length..].to_vec(),
        _ => {
            let begin = match random.below(8) {
                0 | 1 => random.below(source.len()),
                // Over the end of the piece before.
                2 => start.saturating_sub(1),
                _ => *start,
            };
            let begin = begin.min(source.len() - 1);
            let end = (begin + length).min(source.len());
            *start = end;
            source[begin..end].to_vec()
        }
    }
}

//! Damaged sheets: faults of bytes, of lines and of meaning, so that every refusal is met often.

use crate::random::Random;
use crate::values::{unfit, variant, TEXT};
use crate::written::in_columns;
use peer::builder::Sheet;
use peer::form::Form;
use peer::sheet::Lines;

/// A sheet as lines that can be written back, in form or not.
#[derive(Clone)]
struct Raw {
    columns: [u32; 4],
    bytes: Vec<u8>,
}

fn lines_of(form: Form, sheet: &[u8]) -> Vec<Raw> {
    Lines::new(form, sheet)
        .map_while(Result::ok)
        .map(|line| Raw {
            columns: [line.kind, line.a, line.b, line.c],
            bytes: line.bytes.to_vec(),
        })
        .collect()
}

fn sheet_of(form: Form, lines: &[Raw]) -> Vec<u8> {
    let mut sheet = Sheet::new(form);
    for line in lines {
        let [kind, a, b, c] = line.columns;
        sheet.line(kind, a, b, c, &line.bytes);
    }
    sheet.bytes
}

#[derive(Clone, Copy, PartialEq, Eq)]
pub enum Which {
    Directory,
    Permissions,
    Request,
}

/// Damages a sheet in one way; the result may by chance be in order.
pub fn damage(random: &mut Random, form: Form, which: Which, sheet: &mut Vec<u8>) {
    match random.below(20) {
        0 if random.percent(50) => *sheet = in_other_form(form, sheet),
        0..=3 => damage_bytes(random, form, sheet),
        4..=11 => damage_lines(random, form, which, sheet),
        12 => lengthen(random, which, sheet),
        _ if which == Which::Directory => damage_directory(random, form, sheet),
        _ if which == Which::Permissions => damage_permissions(random, form, sheet),
        _ if random.once_in(4) => misplace_order(random, form, sheet),
        _ => damage_filter(random, form, sheet),
    }
}

const BYTES: &[u8] = b"  000123456789-+\t\n\r\0aA~\xff";

/// The same lines in the columns of the other form.
fn in_other_form(form: Form, sheet: &[u8]) -> Vec<u8> {
    match form {
        Form::Narrow => in_columns(Form::Wide, sheet),
        Form::Wide => sheet_of(Form::Narrow, &lines_of(form, sheet)),
    }
}

fn damage_bytes(random: &mut Random, form: Form, sheet: &mut Vec<u8>) {
    let byte = if random.percent(80) { *random.pick(BYTES) } else { random.byte() };
    let place = random.below(sheet.len() + 1);
    match random.below(6) {
        0 => sheet.insert(place, byte),
        1 if place < sheet.len() => {
            sheet.remove(place);
        }
        2 => sheet.truncate(place),
        3 => sheet.push(byte),
        4 => blank_or_zero(random, form, sheet),
        _ if place < sheet.len() => sheet[place] = byte,
        _ => {}
    }
}

/// Spoils the writing of one column: blank, with a leading zero, left-justified, or no line end.
fn blank_or_zero(random: &mut Random, form: Form, sheet: &mut [u8]) {
    let mut starts = Vec::new();
    let mut start = 0;
    for line in lines_of(form, sheet) {
        starts.push(start);
        start += form.line() + line.bytes.len();
    }
    if starts.is_empty() {
        return;
    }
    let start = *random.pick(&starts);
    let column = start + form.column() * random.below(5);
    let digits = &mut sheet[column..column + form.column()];
    match random.below(4) {
        0 => digits.fill(b' '),
        1 => {
            if let Some(place) = digits.iter().rposition(|&byte| byte == b' ') {
                digits[place] = b'0';
            }
        }
        2 => digits.rotate_left(1),
        _ => {
            let end = starts.iter().copied().find(|&next| next > start).unwrap_or(sheet.len());
            sheet[end - 1] = *random.pick(b"\0 \r0");
        }
    }
}

fn damage_lines(random: &mut Random, form: Form, which: Which, sheet: &mut Vec<u8>) {
    let mut lines = lines_of(form, sheet);
    let place = random.below(lines.len() + 1);
    match random.below(8) {
        0 if place < lines.len() => {
            lines.remove(place);
        }
        1 if place < lines.len() => {
            let line = lines[place].clone();
            lines.insert(random.below(lines.len() + 1), line);
        }
        2 if place < lines.len() => lines.swap(place, random.below(place + 1)),
        3 => lines.insert(place, any_line(random, which)),
        4 => lines.truncate(place),
        _ if place < lines.len() => damage_line(random, form, which, &mut lines[place]),
        _ => lines.push(any_line(random, which)),
    }
    *sheet = sheet_of(form, &lines);
}

const NUMBERS: &[u32] = &[
    0, 1, 2, 3, 4, 5, 6, 7, 8, 9, 10, 15, 16, 17, 63, 64, 65, 127, 128, 255, 256, 257, 500, 999,
    1000, 99_999, 100_000, 999_999,
];

/// Of nine columns.
const LONG_NUMBERS: &[u32] = &[1_000_000, 9_999_999, 10_000_000, 99_999_999, 999_999_999];

fn number(random: &mut Random, form: Form) -> u32 {
    let long = form.is_wide() && random.once_in(6);
    *random.pick(if long { LONG_NUMBERS } else { NUMBERS })
}

/// Numbers at the ends of the ranges of types.
fn types(form: Form) -> &'static [u32] {
    match form {
        Form::Narrow => &[0, 1, 999, 1000],
        Form::Wide => &[0, 1, 999, 1000, 9_999_999, 10_000_000],
    }
}

/// Numbers at the ends of the ranges of A, B and C, by kind.
fn ends(form: Form, kind: u32) -> [&'static [u32]; 3] {
    let types = types(form);
    match kind {
        1 => [types, &[0, 1, 2, 3], &[1]],
        2 => [&[0, 1, 2, 3], types, &[0, 1, 2]],
        3 | 9 | 13 | 14 | 23..=26 => [types, &[1], &[1]],
        4 => [&[0, 255, 256], &[0, 2, 3], &[0, 1, 2]],
        5 => [&[0, 1, 2], &[0, 8, 9], &[1]],
        6 => [&[0, 1, 2, 3, 4], &[0, 1, 8, 9], &[1]],
        7 => [&[0, 1, 2, 3, 4, 5, 6], types, &[1]],
        8 => [&[0, 1, 63, 64], &[1], &[1]],
        10 => [&[0, 2, 3], &[0, 8, 9], &[0, 1, 2]],
        11 => [&[0, 1, 2, 3, 4, 5], &[0, 8, 9], &[0, 1, 999_999]],
        12 => [&[0, 1, 2], &[0, 1, 16, 17], &[0, 1, 2]],
        15 => [&[0, 1, 2, 3], &[1], &[1]],
        16 => [types, &[0, 1, 2], &[1]],
        20 | 21 => [&[0, 1, 127, 128], &[1], &[1]],
        27 => [types, &[0, 1, 8, 9], &[1]],
        28 => [&[0, 1, 2, 3], &[1], &[1]],
        36 => [&[1], &[0, 1, 2, 8, 9], &[1]],
        _ => [&[1], &[1], &[1]],
    }
}

fn damage_line(random: &mut Random, form: Form, which: Which, line: &mut Raw) {
    match random.below(11) {
        0 => line.columns[0] = kind(random, which),
        8.. => {
            let column = random.below(3);
            let number = *random.pick(ends(form, line.columns[0])[column]);
            line.columns[column + 1] = number;
        }
        1..=3 => {
            let column = &mut line.columns[random.between(1, 3)];
            *column = match random.below(3) {
                0 => (*column + 1).min(form.top_number()),
                1 => column.saturating_sub(1),
                _ => number(random, form),
            };
        }
        4 => line.bytes.clear(),
        5 => {
            let length = *random.pick(&[1, 63, 64, 65, 66, 100]);
            let filler = *random.pick(b"a0\n~");
            line.bytes.resize(length, filler);
        }
        6 => {
            let syntax = random.below(3) as u32;
            line.bytes = unfit(random, syntax);
        }
        _ => line.bytes = variant(random, TEXT, &line.bytes),
    }
}

/// A kind: mostly one that the sheet has.
fn kind(random: &mut Random, which: Which) -> u32 {
    if random.percent(30) {
        return random.below(40) as u32;
    }
    if random.once_in(20) {
        return *random.pick(&[16, 36]);
    }
    let kinds: &[u32] = match which {
        Which::Directory => &[1, 2, 3, 9, 36],
        Which::Permissions => &[4, 5, 6, 7, 8, 9],
        Which::Request => &[9, 10, 11, 12, 13, 14, 15, 16, 20, 21, 22, 23, 24, 25, 26, 27, 28],
    };
    *random.pick(kinds)
}

fn any_line(random: &mut Random, which: Which) -> Raw {
    let kind = kind(random, which);
    let mut small = |bound: usize| random.below(bound) as u32;
    let columns = match kind {
        2 => [kind, small(6), small(8), small(2)],
        36 => [kind, 0, small(3), 0],
        3 | 9 | 13 | 14 | 23..=26 => [kind, small(8), 0, 0],
        4 => [kind, small(3), small(3), small(2)],
        16 => [kind, small(8), small(2), 0],
        1 | 5 | 6 | 7 | 10 | 12 | 27 => [kind, small(4), small(4), 0],
        11 => [kind, small(5), small(3), small(3)],
        _ => [kind, small(4), 0, 0],
    };
    let named = matches!(kind, 2 | 3 | 9 | 14 | 23..=25 | 28);
    let bytes = if named { vec![*random.pick(b"abAB019")] } else { Vec::new() };
    Raw { columns, bytes }
}

/// Faults of meaning: duplicates, missing naming values, types and values outside the schema.
fn damage_directory(random: &mut Random, form: Form, sheet: &mut Vec<u8>) {
    let mut lines = lines_of(form, sheet);
    let of_kind = |lines: &[Raw], kind| -> Vec<usize> {
        (0..lines.len()).filter(|&place| lines[place].columns[0] == kind).collect()
    };
    let entries = of_kind(&lines, 2);
    let values = of_kind(&lines, 3);
    if entries.is_empty() || values.is_empty() {
        return damage_lines(random, form, Which::Directory, sheet);
    }
    let targets = of_kind(&lines, 36);
    if !targets.is_empty() && random.percent(40) {
        let target = *random.pick(&targets);
        damage_alias(random, &mut lines, target);
        *sheet = sheet_of(form, &lines);
        return;
    }
    let entry = *random.pick(&entries);
    let value = *random.pick(&values);
    match random.below(8) {
        7 => {
            // The last type goes up.
            let last = entries[0].saturating_sub(1);
            lines[last].columns[1] = *random.pick(types(form));
        }
        0 => {
            // A value twice.
            let mut twin = lines[value].clone();
            twin.bytes = variant(random, TEXT, &twin.bytes);
            lines.insert(value + 1, twin);
        }
        1 => {
            // An entry twice, with or without the values of the first.
            let mut twin: Vec<Raw> = vec![lines[entry].clone()];
            twin[0].bytes = variant(random, TEXT, &twin[0].bytes);
            let own = lines[entry + 1..].iter().take_while(|line| line.columns[0] == 3);
            twin.extend(own.cloned());
            lines.append(&mut twin);
        }
        2 | 3 => {
            // The naming value is not held; perhaps the next line is damaged too.
            lines[entry].bytes = b"77".to_vec();
            let own = lines[entry + 1..].iter().take_while(|line| line.columns[0] == 3).count();
            let next = entry + 1 + own;
            if random.percent(70) {
                let line = any_line(random, Which::Directory);
                lines.insert(next, line);
            } else if next < lines.len() {
                damage_line(random, form, Which::Directory, &mut lines[next]);
            }
        }
        4 => lines[value].columns[1] = *random.pick(&[4, 6, 998]),
        5 => {
            let syntax = random.below(3) as u32;
            lines[value].bytes = unfit(random, syntax);
        }
        _ => {
            // A sibling of one name in another type.
            let mut twin = lines[entry].clone();
            twin.columns[2] = lines[value].columns[1];
            let mut held = twin.clone();
            held.columns = [3, twin.columns[2], 0, 0];
            lines.extend([twin, held]);
        }
    }
    *sheet = sheet_of(form, &lines);
}

/// Faults of an alias, whose K 36 stands at a place.
fn damage_alias(random: &mut Random, lines: &mut Vec<Raw>, place: usize) {
    let end = (place + 1 + lines[place].columns[2] as usize).min(lines.len());
    if end == place + 1 {
        // Already damaged.
        lines.remove(place);
        return;
    }
    let part = random.between(place + 1, end - 1);
    let head = (0..place).rfind(|&place| lines[place].columns[0] == 2).unwrap_or(0);
    let number = lines[..=head].iter().filter(|line| line.columns[0] == 2).count() as u32;
    if random.once_in(4) {
        // Its naming value is not held.
        lines[head].bytes = b"77".to_vec();
    }
    match random.below(13) {
        0 => lines[head].columns[3] = *random.pick(&[0, 2]),
        1 => {
            lines.drain(place..end);
        }
        2 => {
            lines.remove(place);
        }
        3 => {
            lines.remove(part);
        }
        // The sheet ends within the alias.
        4 => lines.truncate(random.between(head + 1, end - 1)),
        5 => lines[place].columns[2] = *random.pick(&[0, 1, 2, 7, 8, 9]),
        6 => {
            let twin = lines[part].clone();
            lines.insert(end, twin);
        }
        7 => {
            let twin = lines[place..end].to_vec();
            lines.splice(end..end, twin);
        }
        8 => lines[part].columns[1] = *random.pick(&[4, 6, 998]),
        9 => {
            let syntax = random.below(3) as u32;
            lines[part].bytes = unfit(random, syntax);
        }
        // A value after the target, or within it.
        10 => {
            let value = Raw { columns: [3, lines[head].columns[2], 0, 0], bytes: b"99".to_vec() };
            lines.insert(random.between(place + 1, end), value);
        }
        // A child of the alias, in order or not.
        11 => {
            let kind = if random.percent(70) { lines[head].columns[2] } else { 6 };
            let bytes = if random.percent(70) { b"5".to_vec() } else { Vec::new() };
            let child = Raw { columns: [2, number, kind, 0], bytes };
            let held = Raw { columns: [3, kind, 0, 0], bytes: child.bytes.clone() };
            lines.splice(end..end, [child, held]);
        }
        // The target of an entry that is no alias.
        _ => {
            let target = lines[place..end].to_vec();
            let entry = random.below(lines.len());
            lines.splice(entry..entry, target);
        }
    }
}

/// Types and values outside the schema.
fn damage_permissions(random: &mut Random, form: Form, sheet: &mut Vec<u8>) {
    let mut lines = lines_of(form, sheet);
    let named = |line: &Raw| matches!(line.columns, [9, ..] | [7, 3..=5, ..]);
    let places: Vec<usize> = (0..lines.len()).filter(|&place| named(&lines[place])).collect();
    if places.is_empty() {
        return damage_lines(random, form, Which::Permissions, sheet);
    }
    let line = &mut lines[*random.pick(&places)];
    if random.percent(50) {
        let column = if line.columns[0] == 9 { 1 } else { 2 };
        line.columns[column] = *random.pick(&[4, 6, 998]);
    } else {
        let syntax = random.below(3) as u32;
        line.bytes = unfit(random, syntax);
    }
    *sheet = sheet_of(form, &lines);
}

/// Pieces out of their place, and operators with more or fewer parts.
fn damage_filter(random: &mut Random, form: Form, sheet: &mut Vec<u8>) {
    let mut lines = lines_of(form, sheet);
    let wanted = if random.percent(70) { 28..=28 } else { 20..=27 };
    let places: Vec<usize> =
        (0..lines.len()).filter(|&place| wanted.contains(&lines[place].columns[0])).collect();
    if places.is_empty() {
        return damage_lines(random, form, Which::Request, sheet);
    }
    let place = *random.pick(&places);
    let line = &mut lines[place];
    match line.columns[0] {
        28 if random.percent(80) => line.columns[1] = random.below(3) as u32,
        28 => line.bytes.clear(),
        20 | 21 => line.columns[1] = (line.columns[1] + 1) % 129,
        _ => {
            lines.remove(place);
        }
    }
    *sheet = sheet_of(form, &lines);
}

/// K 16 at another place, or once more.
fn misplace_order(random: &mut Random, form: Form, sheet: &mut Vec<u8>) {
    let mut lines = lines_of(form, sheet);
    let there = lines.iter().position(|line| line.columns[0] == 16);
    if let Some(place) = there.filter(|_| random.once_in(4)) {
        lines[place].columns[2] = 2;
        *sheet = sheet_of(form, &lines);
        return;
    }
    let line = match there {
        Some(place) if random.percent(60) => lines.remove(place),
        Some(place) => lines[place].clone(),
        None => Raw { columns: [16, random.between(1, 7) as u32, 0, 0], bytes: Vec::new() },
    };
    let near = lines.iter().position(|line| matches!(line.columns[0], 12 | 15));
    let place = match near {
        Some(near) if random.percent(50) => random.between(near, (near + 2).min(lines.len())),
        _ => random.between(0, lines.len()),
    };
    lines.insert(place, line);
    if random.once_in(4) {
        lines.truncate(random.between(place, lines.len()));
    }
    *sheet = sheet_of(form, &lines);
}

/// Beyond the longest a sheet may be, or just as long.
fn lengthen(random: &mut Random, which: Which, sheet: &mut Vec<u8>) {
    let most = if which == Which::Request { 8_192 } else { 65_536 };
    let filler = *random.pick(b" 0\n");
    sheet.resize(most + random.below(3), filler);
}

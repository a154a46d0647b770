//! Sheets at the limits: of exact length, or with an exact count of something.

use peer::builder::{
    DirectorySheet, EntryLines, FilterLines, ItemLines, OperationLines, PermissionSheet,
    RequestSheet, Selected, Thing,
};
use peer::form::Form;

/// The types of all sheets here: 1 octets, 2 text, 3 integer.
pub const TYPES: [(u32, u32); 3] = [(1, 0), (2, 1), (3, 2)];

/// Value lengths whose lines fill `total` bytes, which is more than a line of 64 bytes takes.
fn lengths(form: Form, mut total: usize) -> Vec<usize> {
    let line = form.line();
    let mut lengths = Vec::new();
    while total > 2 * (line + 64) {
        lengths.push(64);
        total -= line + 64;
    }
    lengths.push(total / 2 - line);
    lengths.push(total - total / 2 - line);
    lengths
}

/// Octets that differ for each number.
fn numbered(number: usize, length: usize) -> Vec<u8> {
    let mut bytes = vec![b'x'; length];
    for (digit, place) in (number.to_string().bytes().rev()).zip(&mut bytes) {
        *place = digit;
    }
    bytes
}

fn directory(entries: Vec<EntryLines>) -> DirectorySheet {
    DirectorySheet { types: TYPES.to_vec(), entries }
}

/// Entries 1 to `count` below the root.
pub fn wide_directory(count: usize) -> DirectorySheet {
    directory((1..=count).map(|number| EntryLines::bare(0, 1, &numbered(number, 4))).collect())
}

/// A chain of entries, each below the one before.
pub fn deep_directory(depth: usize) -> DirectorySheet {
    directory((0..depth).map(|parent| EntryLines::bare(parent as u32, 1, b"d")).collect())
}

pub fn directory_of_length(form: Form, total: usize) -> DirectorySheet {
    let mut directory = wide_directory(20);
    let lengths = lengths(form, total - directory.to_bytes(form).len());
    for (number, length) in lengths.into_iter().enumerate() {
        let value = numbered(1000 + number, length);
        directory.entries[number % 20].values.push((1, value));
    }
    directory
}

/// 256 entries, most of them at depth 8: all of them take more than 65,536 bytes to print.
pub fn large_directory() -> DirectorySheet {
    let mut directory = deep_directory(7);
    for number in 8..=256 {
        directory.entries.push(EntryLines::bare(7, 1, &numbered(number, 40)));
    }
    directory
}

pub fn directory_of_types(count: usize) -> DirectorySheet {
    let types: Vec<(u32, u32)> = (0..count as u32).map(|place| (1 + 15 * place, 0)).collect();
    let mut entry = EntryLines::bare(0, 1, b"e");
    for &(kind, _) in &types[1..] {
        entry.values.push((kind, b"v".to_vec()));
    }
    DirectorySheet { types, entries: vec![entry] }
}

/// All entries open to everybody.
pub fn open() -> Vec<ItemLines> {
    vec![
        ItemLines::everywhere(0, true, Thing::Entry, 63),
        ItemLines::everywhere(0, true, Thing::AllTypesAndValues, 63),
    ]
}

pub fn open_permissions() -> PermissionSheet {
    PermissionSheet { items: open() }
}

pub fn permissions_of_items(count: usize) -> PermissionSheet {
    let mut items = open();
    items.resize(count, ItemLines::everywhere(0, true, Thing::Entry, 1));
    PermissionSheet { items }
}

pub fn permissions_of_length(form: Form, total: usize) -> PermissionSheet {
    let line = form.line();
    let mut items = open();
    let mut left = total - PermissionSheet { items: items.clone() }.to_bytes(form).len();
    let mut add = |parts: &[usize]| {
        let mut item = ItemLines::everywhere(0, true, Thing::Entry, 7);
        item.base = parts.iter().map(|&length| (1, numbered(7, length))).collect();
        let length = 5 * line + parts.iter().map(|length| line + length).sum::<usize>();
        items.push(item);
        length
    };
    let usual: &[usize] = if form.is_wide() { &[64] } else { &[64, 30] };
    while left > 2 * (7 * line + 128) {
        left -= add(usual);
    }
    // Two items of one part, or of two.
    for half in [left / 2, left - left / 2] {
        if half <= 6 * line + 64 {
            add(&[half - 6 * line]);
        } else {
            let value = (half - 7 * line) / 2;
            add(&[value, half - 7 * line - value]);
        }
    }
    PermissionSheet { items }
}

pub fn search(filter: FilterLines) -> RequestSheet {
    search_with(filter, Selected::ALL)
}

pub fn search_with(filter: FilterLines, selected: Selected) -> RequestSheet {
    let (requester, name) = (Vec::new(), Vec::new());
    let order = None;
    let operation = OperationLines::Search { limit: 0, selected, order, subset: 2, filter };
    RequestSheet { level: 0, edition: 0, requester, name, operation }
}

pub fn request_of_length(form: Form, total: usize) -> RequestSheet {
    let parts = lengths(form, total - 5 * form.line())
        .into_iter()
        .map(|length| FilterLines::Equality(1, numbered(1, length)))
        .collect();
    search(FilterLines::Or(parts))
}

/// A filter whose innermost item stands at the depth.
pub fn filter_of_depth(depth: usize) -> FilterLines {
    (1..depth).fold(FilterLines::Present(1), |filter, _| FilterLines::Not(Box::new(filter)))
}

pub fn filter_of_lines(count: usize) -> FilterLines {
    FilterLines::Or(vec![FilterLines::Present(1); count - 1])
}

/// A filter that reaches its count of lines with pieces alone.
pub fn filter_of_pieces(count: usize) -> FilterLines {
    let mut left = count - 1;
    let mut parts = Vec::new();
    while left > 0 {
        let pieces = match left {
            1 => {
                parts.push(FilterLines::Present(1));
                break;
            }
            _ => 8.min(left - 1),
        };
        parts.push(FilterLines::Substrings(2, vec![(1, b"a".to_vec()); pieces]));
        left -= 1 + pieces;
    }
    FilterLines::Or(parts)
}

/// A substrings item at the depth.
pub fn substrings_at_depth(depth: usize) -> FilterLines {
    (1..depth).fold(substrings_of(2), |filter, _| FilterLines::And(vec![filter]))
}

/// A filter with as many substrings pieces in one item.
pub fn substrings_of(count: usize) -> FilterLines {
    FilterLines::Substrings(2, vec![(1, b"a".to_vec()); count])
}

//! Worlds, and six requests or more over each.

use std::sync::OnceLock;

use harness::limits::open;
use harness::random::Random;
use peer::builder::{
    DirectorySheet, EntryLines, FilterLines, ItemLines, Name, OperationLines, PermissionSheet,
    RequestSheet, Selected, Thing, User,
};
use peer::form::Form;

const NAME: u32 = 1;
const ROOM: u32 = 2;
const EXTENSION: u32 = 3;
const ROLE: u32 = 4;
const KEY: u32 = 5;
/// Numbers and syntaxes: text, integers, octets.
const TYPES: [(u32, u32); 5] = [(NAME, 1), (ROOM, 2), (EXTENSION, 2), (ROLE, 1), (KEY, 0)];
const HOTEL: &str = "The Grand Hotel";

pub struct World {
    pub name: &'static str,
    pub directory: Vec<u8>,
    pub permissions: Vec<u8>,
    /// What is asked, and the request.
    pub requests: Vec<(&'static str, Vec<u8>)>,
}

pub fn worlds() -> Vec<World> {
    vec![
        small(),
        full(),
        register("register", 12, 1_900, ROLE, letters),
        register("contended", 256, 1_900, ROLE, letters),
        register("colliding", 12, 1_800, KEY, alike),
        withheld(),
        typed(),
        register("crowded", 256, 1_800, KEY, crowded),
        register("twins", 200, 800, KEY, twin),
        ordered(),
    ]
}

/// 30 entries, 12 items.
fn small() -> World {
    let directory = hotel(2, 27, 1);
    let items = items(12, |number| match number % 5 {
        0 => (true, Thing::Entry),
        1 => (true, Thing::Type(ROLE)),
        2 => (true, Thing::ValuesOf(ROLE)),
        3 => (false, Thing::Type(EXTENSION)),
        _ => (false, Thing::Value(ROLE, role(number, 0))),
    });
    world("small", directory, items, deep_filter())
}

/// 256 entries, and 256 items that all concern the requester and every entry; both sheets are
/// near 65,536 bytes.
fn full() -> World {
    let directory = hotel(15, 240, 2);
    let items = items(256, |number| match number % 4 {
        0 => (true, Thing::Entry),
        1 => (true, Thing::Type(ROLE)),
        2 => (true, Thing::ValuesOf(ROLE)),
        _ => (false, Thing::Value(ROLE, role(1000 + number, 0))),
    });
    world("full", directory, items, deep_filter())
}

/// One entry with many values of one type; all items but two are about single values.
fn register(
    name: &'static str,
    item_count: u32,
    value_count: u32,
    kind: u32,
    value: fn(u32) -> Vec<u8>,
) -> World {
    let mut entry = EntryLines::bare(0, NAME, HOTEL.as_bytes());
    entry.values.extend((0..value_count).map(|number| (kind, value(number))));
    let items =
        items(item_count, |number| (number % 2 == 0, Thing::Value(kind, value(7 * number))));
    let directory = DirectorySheet { types: TYPES.to_vec(), entries: vec![entry] };
    world(name, directory, items, deep_filter())
}

/// One entry with many values; 254 items are about all of them, and the last refuses. All values
/// pass the filter's tests, and none may be matched.
fn withheld() -> World {
    let mut entry = EntryLines::bare(0, NAME, HOTEL.as_bytes());
    entry.values.extend((0..1_900).map(|number| (ROLE, letters(number))));
    let items = items(256, |number| (number < 255, Thing::ValuesOf(ROLE)));
    let mut tests = vec![FilterLines::AtLeast(ROLE, b"a".to_vec()); 126];
    tests.push(FilterLines::Present(NAME));
    let directory = DirectorySheet { types: TYPES.to_vec(), entries: vec![entry] };
    world("withheld", directory, items, FilterLines::Or(tests))
}

/// 256 entries, 64 types, and 256 items about types; the filter asks about each type twice.
fn typed() -> World {
    let mut directory = hotel(15, 240, 1);
    directory.types = (1..=64).map(|number| (number, 1)).collect();
    let items = items(256, |number| match number % 2 {
        0 => (true, Thing::AllTypes),
        _ => (true, Thing::Type(1 + number % 64)),
    });
    let tests = (0..127).map(|number| FilterLines::Present(64 - number % 64)).collect();
    world("typed", directory, items, FilterLines::Or(tests))
}

/// 256 entries whose keys differ in their last bytes alone, each before all that come earlier: the
/// longest way to put them in order. Asked for in order, too.
fn ordered() -> World {
    let entries = (0..256).map(|number: u32| {
        let mut entry = EntryLines::bare(0, NAME, letters(number).as_slice());
        entry.values.push((ROLE, prefixed(255 - number)));
        entry
    });
    let directory = DirectorySheet { types: TYPES.to_vec(), entries: entries.collect() };
    let mut world = world("ordered", directory, items(12, |_| (true, Thing::Entry)), deep_filter());
    for (name, direction, limit) in
        [("rising search", 0, 0), ("falling search", 1, 0), ("first of a rising search", 0, 1)]
    {
        let operation = OperationLines::Search {
            limit,
            selected: Selected::ALL,
            order: Some((ROLE, direction)),
            subset: 2,
            filter: FilterLines::Present(NAME),
        };
        let (requester, root) = (Name::new(), Name::new());
        let request = RequestSheet { level: 0, edition: 0, requester, name: root, operation };
        world.requests.push((name, request.to_bytes(Form::Narrow)));
    }
    world
}

/// 64 bytes of text, in words and letters of both kinds, the last of them others for each number.
fn prefixed(number: u32) -> Vec<u8> {
    let mut text = b"The Guest  ".repeat(6);
    text.truncate(61);
    text.extend(letters(number));
    text
}

/// A hotel with departments, and people below them, each with a room, an extension and roles.
fn hotel(departments: u32, people: u32, roles: u32) -> DirectorySheet {
    let mut entries = vec![EntryLines::bare(0, NAME, HOTEL.as_bytes())];
    for number in 0..departments {
        entries.push(EntryLines::bare(1, NAME, format!("Department {number}").as_bytes()));
    }
    for number in 0..people {
        let name = format!("Guest {number:03}");
        let mut entry = EntryLines::bare(2 + number % departments, NAME, name.as_bytes());
        entry.values.push((ROOM, (100 + number).to_string().into_bytes()));
        entry.values.push((EXTENSION, (2000 + number).to_string().into_bytes()));
        entry.values.extend((0..roles).map(|which| (ROLE, role(number, which))));
        entries.push(entry);
    }
    DirectorySheet { types: TYPES.to_vec(), entries }
}

fn role(number: u32, which: u32) -> Vec<u8> {
    format!("duty {number:04}, of the rank {which}").into_bytes()
}

/// Three letters, others for each number.
fn letters(number: u32) -> Vec<u8> {
    [number / 676, number / 26 % 26, number % 26].map(|place| b'a' + place as u8).to_vec()
}

/// Four octets, others for each number, the same in their low five bits.
fn alike(number: u32) -> Vec<u8> {
    [number >> 9, number >> 6, number >> 3, number].map(|place| (place as u8 & 7) << 5 | 1).to_vec()
}

/// Four octets, others for each number, chosen so that the library (crate `directory_duplicates`) notes all of
/// them in one bucket and looks through it for each.
fn crowded(number: u32) -> Vec<u8> {
    static VALUES: OnceLock<Vec<[u8; 4]>> = OnceLock::new();
    let values = VALUES.get_or_init(|| {
        let all =
            (0..1 << 28).map(|number| [21, 14, 7, 0].map(|bits| (number >> bits) as u8 | 128));
        let apart = all.filter(|value| value.map(caseless) == *value);
        apart.filter(|value| digest(value) % 2048 == 0).take(1_800).collect()
    });
    values[number as usize].to_vec()
}

/// Fifty octets, others for each number below 4,096, all with one digest: six times a choice between
/// four blocks that lead from one digest to the next, and two octets more.
fn twin(number: u32) -> Vec<u8> {
    static CHOICES: OnceLock<Vec<[[u8; 8]; 4]>> = OnceLock::new();
    let choices = CHOICES.get_or_init(|| {
        let mut sum = seed();
        let mut choices = Vec::new();
        while choices.len() < 6 {
            let blocks = colliding_blocks(sum);
            sum = digest_from(sum, &blocks[0]);
            choices.push(blocks);
        }
        choices
    });
    let blocks = choices.iter().enumerate();
    let chosen = blocks.flat_map(|(place, block)| block[(number >> (2 * place) & 3) as usize]);
    chosen.chain([128; 2]).collect()
}

/// Four blocks of eight octets that lead from `sum` to one digest: after any first word there is a second
/// that makes the same sum with what the first has led to.
fn colliding_blocks(sum: u64) -> [[u8; 8]; 4] {
    const SUM: u64 = (1 << 32) + (1 << 30);
    let mut random = Random::new(sum);
    let mut blocks = Vec::new();
    while blocks.len() < 4 {
        let first = [0; 4].map(|_| 128 + random.below(128) as u8);
        let second = SUM - digest_from(sum, &first);
        let Ok(second) = u32::try_from(second) else { continue };
        let [a, b, c, d] = first;
        let [e, f, g, h] = second.to_le_bytes();
        if [e, f, g, h].iter().all(|byte| *byte >= 128 && caseless(*byte) == *byte) {
            blocks.push([a, b, c, d, e, f, g, h]);
        }
    }
    [blocks[0], blocks[1], blocks[2], blocks[3]]
}

/// The library's digest (crate `value_syntax`) of a value of the type KEY that the first entry holds.
fn digest(value: &[u8]) -> u64 {
    digest_from(seed(), value)
}

fn seed() -> u64 {
    258 * 64 + u64::from(KEY) - 1
}

/// A byte as the digest takes it, letters without case.
fn caseless(byte: u8) -> u8 {
    byte | (byte & 64) >> 1
}

fn digest_from(sum: u64, value: &[u8]) -> u64 {
    let bytes: Vec<u8> = value.iter().map(|byte| caseless(*byte)).collect();
    let words = bytes.chunks_exact(4);
    let left = words.remainder();
    let words =
        words.map(|word| u64::from(u32::from_le_bytes([word[0], word[1], word[2], word[3]])));
    let numbers = words.chain(left.iter().map(|byte| u64::from(*byte)));
    let mixed = numbers.fold(sum, |sum, number| {
        let product = (sum % (1 << 32) + number) * 1_540_483_477;
        product ^ product >> 29
    });
    mixed % (1 << 32)
}

/// Everything open, and items from the hotel down for those at or below it.
fn items(count: u32, grants: impl Fn(u32) -> (bool, Thing)) -> PermissionSheet {
    let mut items = open();
    for number in 2..count {
        let (grants, what) = grants(number);
        let mut item = ItemLines::everywhere(number.min(255), grants, what, 63);
        item.base = name(&[HOTEL]);
        item.who = User::AtOrBelow(name(&[HOTEL]));
        items.push(item);
    }
    PermissionSheet { items }
}

fn name(parts: &[&str]) -> Name {
    parts.iter().map(|part| (NAME, part.as_bytes().to_vec())).collect()
}

/// The requests are about the directory's last entry, which is also who asks; the worst search has
/// the filter given.
fn world(
    name: &'static str,
    directory: DirectorySheet,
    permissions: PermissionSheet,
    filter: FilterLines,
) -> World {
    let last = directory.entries.len() - 1;
    let person = directory.name(last);
    let (kind, held) = directory.entries[last].values.last().expect("an entry holds values");
    let mut above = person.clone();
    above.pop();
    let ask = |name: &Name, operation| {
        let (requester, name) = (person.clone(), name.clone());
        RequestSheet { level: 0, edition: 0, requester, name, operation }.to_bytes(Form::Narrow)
    };
    let search = |filter| {
        let root = Name::new();
        let (selected, order) = (Selected::ALL, None);
        ask(&root, OperationLines::Search { limit: 0, selected, order, subset: 2, filter })
    };
    let requests = vec![
        ("read", ask(&person, OperationLines::Read(Selected::ALL))),
        ("compare", ask(&person, OperationLines::Compare(*kind, held.clone()))),
        ("list", ask(&above, OperationLines::List { limit: 0 })),
        ("broad search", search(FilterLines::Present(NAME))),
        ("narrow search", search(FilterLines::Equality(*kind, held.clone()))),
        ("worst search", search(filter)),
    ];
    World {
        name,
        directory: directory.to_bytes(Form::Narrow),
        permissions: permissions.to_bytes(Form::Narrow),
        requests,
    }
}

/// 128 lines, 113 of them at depth 16, all false but the last: nothing is decided early, and every
/// entry is selected.
fn deep_filter() -> FilterLines {
    let mut items = Vec::new();
    for number in 0..28 {
        items.push(FilterLines::Equality(ROLE, role(2000 + number, 0)));
        items.push(FilterLines::AtLeast(ROOM, (3000 + number).to_string().into_bytes()));
        items.push(FilterLines::Substrings(ROLE, vec![(1, b"absent".to_vec())]));
    }
    items.push(FilterLines::Present(NAME));
    (0..14).fold(FilterLines::Or(items), |filter, level| match level % 4 {
        0 | 1 => FilterLines::Not(Box::new(filter)),
        2 => FilterLines::And(vec![filter]),
        _ => FilterLines::Or(vec![filter]),
    })
}

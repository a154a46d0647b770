//! The size limits of both calling programs, and what else a panel gets.

use super::operations::{compare, entry, head, held, line, list, on, read, search};
use harness::explicit::{deny, person, Explicit, Situation};
use harness::limits::open;
use peer::builder::{FilterLines, Selected, Thing};
use peer::caller::{Call, Caller};
use peer::form::Form;

/// Entries below the root that match, the request's own limit, and how many of them the exchange
/// and a panel get, each with C.
const TABLE: [(usize, u32, (usize, u32), (usize, u32)); 23] = [
    (1, 0, (1, 0), (1, 0)),
    (1, 1, (1, 0), (1, 0)),
    (4, 0, (4, 0), (4, 0)),
    (4, 1, (1, 1), (1, 1)),
    (4, 4, (4, 0), (4, 0)),
    (4, 5, (4, 0), (4, 0)),
    (4, 6, (4, 0), (4, 0)),
    (5, 0, (5, 0), (5, 0)),
    (5, 1, (1, 1), (1, 1)),
    (5, 4, (4, 1), (4, 1)),
    (5, 5, (5, 0), (5, 0)),
    (5, 6, (5, 0), (5, 0)),
    (5, 999_999, (5, 0), (5, 0)),
    (6, 0, (6, 0), (5, 1)),
    (6, 1, (1, 1), (1, 1)),
    (6, 4, (4, 1), (4, 1)),
    (6, 5, (5, 1), (5, 1)),
    (6, 6, (6, 0), (5, 1)),
    (6, 7, (6, 0), (5, 1)),
    (6, 999_999, (6, 0), (5, 1)),
    (8, 0, (8, 0), (5, 1)),
    (8, 6, (6, 1), (5, 1)),
    (8, 7, (7, 1), (5, 1)),
];

const NAMES: [&str; 8] = ["Ann", "Bob", "Cid", "Dan", "Eve", "Fay", "Gus", "Hal"];

pub fn run(test: &mut Explicit) {
    for call in Call::ALL {
        test.call = call;
        table(test);
        long_limits(test);
        withheld(test);
        others(test);
    }
}

fn guests(count: usize) -> Situation {
    let entries = NAMES[..count].iter().map(|name| person(0, name, &[(3, "7")])).collect();
    Situation::new(entries, open())
}

fn listed(names: &[&str], cut: u32) -> String {
    let lines: String = names.iter().map(|name| line(32, 2, 0, 0, name)).collect();
    head(3, 0, cut) + &lines
}

fn found(names: &[&str], cut: u32) -> String {
    let entries: String = names.iter().map(|name| entry(&[*name])).collect();
    head(4, 0, cut) + &entries
}

fn seven() -> FilterLines {
    FilterLines::Equality(3, b"7".to_vec())
}

fn table(test: &mut Explicit) {
    for (matches, limit, exchange, panel) in TABLE {
        let (shown, cut) = if test.call.caller == Caller::Panel { panel } else { exchange };
        let shown = &NAMES[..shown];
        let world = guests(matches);
        let what = format!("list of {matches} with limit {limit}");
        test.answers(&what, &world, &list(&[], limit), &listed(shown, cut));
        for subset in [1, 2] {
            let what = format!("search, subset {subset}, of {matches} with limit {limit}");
            let request = search(&[], subset, limit, seven());
            test.answers(&what, &world, &request, &found(shown, cut));
        }
    }
}

/// Limits of seven digits and more, in nine columns.
fn long_limits(test: &mut Explicit) {
    if test.form() != Form::Wide {
        return;
    }
    let (shown, cut) = if test.call.caller == Caller::Panel { (5, 1) } else { (6, 0) };
    let world = guests(6);
    for limit in [1_000_000, 1_000_001, 1_000_005, 9_999_999, 10_000_000, 123_000_002, 999_999_999]
    {
        let what = format!("list of six with limit {limit}");
        test.answers(&what, &world, &list(&[], limit), &listed(&NAMES[..shown], cut));
        let what = format!("search of six with limit {limit}");
        let request = search(&[], 2, limit, seven());
        test.answers(&what, &world, &request, &found(&NAMES[..shown], cut));
    }
}

/// Entries that are withheld or do not match count against no limit.
fn withheld(test: &mut Explicit) {
    let mut world = guests(7);
    world.permissions.items.push(on(&["Bob"], false, deny(9, Thing::Entry, 2)));
    world.permissions.items.push(on(&["Gus"], false, deny(9, Thing::Entry, 4)));
    let five = ["Ann", "Cid", "Dan", "Eve", "Fay"];
    for limit in [0, 5, 6] {
        let what = format!("five of seven, limit {limit}, list");
        test.answers(&what, &world, &list(&[], limit), &listed(&five, 0));
        let what = format!("five of seven, limit {limit}, search");
        test.answers(&what, &world, &search(&[], 2, limit, seven()), &found(&five, 0));
    }
    test.answers("four of them", &world, &list(&[], 4), &listed(&five[..4], 1));
    let mut world = guests(8);
    for place in [0, 3, 7] {
        world.directory.entries[place].values[1].1 = b"8".to_vec();
    }
    let five = ["Bob", "Cid", "Eve", "Fay", "Gus"];
    test.answers("five of eight match", &world, &search(&[], 2, 0, seven()), &found(&five, 0));
    let nothing = search(&[], 2, 0, FilterLines::Or(vec![]));
    test.answers("none of eight match", &world, &nothing, &head(4, 1, 0));
}

/// Read and compare have no size limit, and values are not counted.
fn others(test: &mut Explicit) {
    let mut world = guests(6);
    let values: Vec<String> = (1..=7).map(|number| number.to_string()).collect();
    let values: Vec<&str> = values.iter().map(String::as_str).collect();
    world.directory.entries[5].values = vec![(2, b"Fay".to_vec())];
    let more = values.iter().map(|value| (3, value.as_bytes().to_vec()));
    world.directory.entries[5].values.extend(more);
    let all = entry(&["Fay"]) + &held(2, &["Fay"]) + &held(3, &values);
    let request = read(&["Fay"], Selected::ALL);
    test.answers("a read of seven values", &world, &request, &(head(1, 0, 0) + &all));
    let equal = head(2, 0, 0) + &line(31, 1, 0, 0, "");
    test.answers("a compare with the last", &world, &compare(&["Fay"], 3, "7"), &equal);
}

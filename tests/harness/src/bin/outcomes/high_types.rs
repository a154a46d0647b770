//! Types of four to seven digits, which nine columns alone have.

use harness::explicit::{asking, deny, Explicit, Situation};
use harness::limits::open;
use peer::builder::{EntryLines, FilterLines, Name, OperationLines, RequestSheet, Selected, Thing};
use peer::form::Form;

const NAME: u32 = 1_000;
const NUMBER: u32 = 9_999_999;

/// A line of nine columns.
fn line(kind: u32, a: u32, b: u32, bytes: &str) -> String {
    format!("{kind:9}{a:9}{b:9}{:9}{:9}{bytes}\n", 0, bytes.len())
}

/// Ann and Bob, named by type 1,000, with 9,999,999: 7 and 8.
fn guests() -> Situation {
    let entry = |name: &str, number: &str| {
        let mut entry = EntryLines::bare(0, NAME, name.as_bytes());
        entry.values.push((NUMBER, number.as_bytes().to_vec()));
        entry
    };
    let mut world = Situation::new(vec![entry("Ann", "7"), entry("Bob", "8")], open());
    world.directory.types = vec![(999, 0), (NAME, 1), (70_000, 0), (NUMBER, 2)];
    world
}

fn named(name: &str) -> Name {
    vec![(NAME, name.as_bytes().to_vec())]
}

fn expect(test: &mut Explicit, what: &str, world: &Situation, asked: &RequestSheet, text: &str) {
    let given = test.reply(world, asked);
    let good = given.as_deref() == Ok(text.as_bytes());
    let given = given.map(|answer| String::from_utf8_lossy(&answer).into_owned());
    test.check(good, &format!("high types: {what}\nexpected\n{text}given {given:?}"));
}

pub fn run(test: &mut Explicit) {
    if test.form() != Form::Wide {
        return;
    }
    let world = guests();
    let entry = |name: &str| line(33, 0, 1, "") + &line(9, NAME, 0, name);
    let name = |name: &str| line(34, NAME, 1, "") + &line(35, 0, 0, name);
    let number = |number: &str| line(34, NUMBER, 1, "") + &line(35, 0, 0, number);
    let ann = entry("Ann") + &name("Ann") + &number("7");
    let bob = entry("Bob") + &name("Bob") + &number("8");

    let read = |selected| asking(named("ann"), OperationLines::Read(selected));
    let listed = |types: &[u32]| Selected { types: Some(types.to_vec()), values: true };
    let head = |operation, outcome| line(30, operation, outcome, "");
    let whole = head(1, 0) + &ann;
    expect(test, "read", &world, &read(Selected::ALL), &whole);
    let one = head(1, 0) + &entry("Ann") + &number("7");
    expect(test, "one type read", &world, &read(listed(&[NUMBER, 5_000_000])), &one);
    let none = head(1, 3);
    expect(test, "types not held", &world, &read(listed(&[999, 70_000])), &none);
    expect(test, "types unknown", &world, &read(listed(&[99, 100_000, 999_999])), &none);

    let compare = |kind, value: &str| {
        asking(named("bob"), OperationLines::Compare(kind, value.as_bytes().to_vec()))
    };
    let equal = |equal| head(2, 0) + &line(31, equal, 0, "");
    expect(test, "compared", &world, &compare(NUMBER, "8"), &equal(1));
    expect(test, "compared otherwise", &world, &compare(NUMBER, "7"), &equal(0));
    expect(test, "compared with its name", &world, &compare(NAME, "BOB"), &equal(1));
    expect(test, "an unknown type compared", &world, &compare(99, "8"), &head(2, 3));

    let list = asking(vec![], OperationLines::List { limit: 0 });
    let children = head(3, 0) + &line(32, NAME, 0, "Ann") + &line(32, NAME, 0, "Bob");
    expect(test, "listed", &world, &list, &children);

    let search = |filter| harness::explicit::search_root(2, filter);
    let seven = || FilterLines::Equality(NUMBER, b"7".to_vec());
    expect(test, "found", &world, &search(seven()), &(head(4, 0) + &ann));
    let above = FilterLines::AtLeast(NUMBER, b"8".to_vec());
    expect(test, "found by order", &world, &search(above), &(head(4, 0) + &bob));
    let held = FilterLines::Present(NAME);
    expect(test, "found by presence", &world, &search(held), &(head(4, 0) + &ann + &bob));
    let piece = FilterLines::Substrings(NAME, vec![(1, b"n".to_vec())]);
    expect(test, "found by a piece", &world, &search(piece), &(head(4, 0) + &ann));

    let mut hidden = world.clone();
    hidden.permissions.items.push(deny(9, Thing::Type(NUMBER), 33));
    let rest = head(1, 0) + &entry("Ann") + &name("Ann");
    expect(test, "a type denied", &hidden, &read(Selected::ALL), &rest);
    expect(test, "a type denied in a filter", &hidden, &search(seven()), &head(4, 1));
    let mut hidden = world;
    hidden.permissions.items.push(deny(9, Thing::Value(NUMBER, b"7".to_vec()), 1));
    expect(test, "a value denied", &hidden, &read(Selected::ALL), &rest);
}

//! "May this requester?": who, what, level, precedence.

use harness::explicit::{asking, deny, grant, named, person, Explicit, Situation};
use peer::builder::{ItemLines, Name, OperationLines, RequestSheet, Selected, Thing, User};

/// The requester Ann, below Staff.
fn ann() -> Name {
    named(&["Staff", "Ann"])
}

struct Asker {
    name: Name,
    level: u32,
}

impl Asker {
    fn ann() -> Self {
        Asker { name: ann(), level: 1 }
    }

    fn named(name: Name) -> Self {
        Asker { name, level: 1 }
    }
}

/// Whether the asker may read an entry under the items.
fn reads(test: &Explicit, items: Vec<ItemLines>, asker: &Asker, entry: &[&str]) -> bool {
    let entries = vec![
        person(0, "Staff", &[]),
        person(1, "Ann", &[]),
        person(1, "Bob", &[]),
        person(2, "Desk", &[]),
    ];
    let world = Situation::new(entries, items);
    let selected = Selected { types: Some(vec![]), values: false };
    let request = RequestSheet {
        requester: asker.name.clone(),
        level: asker.level,
        ..asking(named(entry), OperationLines::Read(selected))
    };
    test.reply(&world, &request).is_ok_and(|answer| test.digit(&answer, 2) == '0')
}

fn read(precedence: u32) -> ItemLines {
    grant(precedence, Thing::Entry, 1)
}

fn no_read(precedence: u32) -> ItemLines {
    deny(precedence, Thing::Entry, 1)
}

fn to(who: User, item: ItemLines) -> ItemLines {
    ItemLines { who, ..item }
}

fn on(base: &[&str], subtree: bool, item: ItemLines) -> ItemLines {
    ItemLines { base: named(base), subtree, ..item }
}

pub fn run(test: &mut Explicit) {
    bases(test);
    users(test);
    ranks(test);
    levels(test);
    things(test);
}

fn bases(test: &mut Explicit) {
    let asker = Asker::ann();
    for (what, base, subtree, entry, granted) in [
        ("empty base alone", &[][..], false, &["Staff"][..], false),
        ("empty base and below", &[], true, &["Staff", "Ann", "Desk"], true),
        ("base alone", &["Staff"], false, &["Staff"], true),
        ("base alone, below it", &["Staff"], false, &["Staff", "Ann"], false),
        ("base and below, the base", &["STAFF"], true, &["staff"], true),
        ("base and below, two below", &["Staff"], true, &["Staff", "Ann", "Desk"], true),
        ("beside the base", &["Staff", "Ann"], true, &["Staff", "Bob"], false),
        ("above the base", &["Staff", "Ann"], true, &["Staff"], false),
        ("a base that does not exist", &["Staff", "Cid"], true, &["Staff", "Ann"], false),
    ] {
        let given = reads(test, vec![on(base, subtree, read(0))], &asker, entry);
        test.check(given == granted, what);
    }
}

fn users(test: &mut Explicit) {
    let unfit = vec![(2, b"Staff".to_vec()), (2, b"Ann".to_vec()), (3, b"-0".to_vec())];
    let unknown = vec![(7, b"Staff".to_vec()), (2, b"Ann".to_vec())];
    let below = |parts: &[&str]| User::AtOrBelow(named(parts));
    let user = |parts: &[&str]| User::Named(named(parts));
    for (what, who, name, granted) in [
        ("all users", User::All, vec![], true),
        ("below the empty name, nameless", below(&[]), vec![], true),
        ("below the empty name, named", below(&[]), ann(), true),
        ("the empty name, nameless", user(&[]), vec![], true),
        ("the empty name, named", user(&[]), ann(), false),
        ("below, above", below(&["Staff"]), ann(), true),
        ("below, the name itself", below(&["staff", "ann"]), ann(), true),
        ("below, a longer name", below(&["Staff", "Ann", "Desk"]), ann(), false),
        ("below, nameless", below(&["Staff"]), vec![], false),
        (
            "below, a part outside the syntax after it",
            below(&["Staff", "Ann"]),
            unfit.clone(),
            true,
        ),
        ("below, an unknown type in it", below(&["Staff"]), unknown.clone(), false),
        ("named", user(&["Staff", "ANN"]), ann(), true),
        ("named, above", user(&["Staff"]), ann(), false),
        ("named, a part outside the syntax", user(&["Staff", "Ann"]), unfit, false),
        ("named, no entry", user(&["Cid"]), named(&["cid"]), true),
        ("itself, nameless", User::Itself, vec![], false),
        ("itself", User::Itself, named(&["STAFF", "ANN"]), true),
        ("itself, another entry", User::Itself, named(&["Staff"]), false),
        ("itself, an unknown type", User::Itself, unknown, false),
    ] {
        let given = reads(test, vec![to(who, read(0))], &Asker::named(name), &["Staff", "Ann"]);
        test.check(given == granted, &format!("who: {what}"));
    }
}

fn ranks(test: &mut Explicit) {
    let below = || User::AtOrBelow(named(&["Staff"]));
    let nobody = || User::AtOrBelow(vec![]);
    let user = || User::Named(ann());
    let itself = || User::Itself;
    for (what, items, granted) in [
        ("grant and denial", vec![read(5), no_read(5)], false),
        ("grant above denial", vec![read(6), no_read(5)], true),
        ("denial above grant", vec![read(5), no_read(6)], false),
        ("255 above 0", vec![to(user(), no_read(0)), read(255)], true),
        ("below beats all", vec![to(below(), read(5)), no_read(5)], true),
        ("below the empty name beats all", vec![to(nobody(), read(5)), no_read(5)], true),
        ("all loses to below", vec![read(5), to(below(), no_read(5))], false),
        ("named beats below", vec![to(user(), read(5)), to(below(), no_read(5))], true),
        ("itself beats below", vec![to(itself(), read(5)), to(below(), no_read(5))], true),
        ("itself and named are equal", vec![to(itself(), read(5)), to(user(), no_read(5))], false),
        ("named and itself are equal", vec![to(user(), read(5)), to(itself(), no_read(5))], false),
        (
            "below at any depth is one rank",
            vec![to(below(), read(5)), to(nobody(), no_read(5))],
            false,
        ),
        ("precedence before who", vec![to(user(), read(5)), no_read(6)], false),
        ("a denial of another permission", vec![read(5), deny(9, Thing::Entry, 62)], true),
        ("a denial elsewhere", vec![read(5), on(&["Staff", "Bob"], true, no_read(9))], true),
        ("two grants", vec![read(5), read(5)], true),
        ("two grants and a denial", vec![read(5), read(5), no_read(5)], false),
    ] {
        let given = reads(test, items, &Asker::ann(), &["Staff", "Ann"]);
        test.check(given == granted, &format!("rank: {what}"));
    }
}

fn levels(test: &mut Explicit) {
    let at = |level: u32, item: ItemLines| ItemLines { level, ..item };
    for (what, items, granted) in [
        ("grant below the requester's", vec![at(0, read(0))], true),
        ("grant at the requester's", vec![at(1, read(0))], true),
        ("grant above the requester's", vec![at(2, read(0))], false),
        ("denial above the requester's", vec![at(0, read(0)), at(2, no_read(0))], false),
        ("grant above, another below", vec![at(2, read(9)), at(0, read(0))], true),
        ("grant above does not shadow a denial", vec![at(2, read(9)), no_read(0)], false),
    ] {
        let given = reads(test, items, &Asker::ann(), &["Staff", "Ann"]);
        test.check(given == granted, &format!("level: {what}"));
    }
}

/// What of the entry Ann (2: Ann; 3: 1, 2) is read.
fn read_lines(test: &Explicit, items: Vec<ItemLines>) -> String {
    let mut all = vec![grant(0, Thing::Entry, 1)];
    all.extend(items);
    let world = Situation::new(vec![person(0, "Ann", &[(3, "1"), (3, "2")])], all);
    let request = asking(named(&["Ann"]), OperationLines::Read(Selected::ALL));
    let answer = test.reply(&world, &request).unwrap_or_default();
    // Values, or the outcome.
    let text = String::from_utf8_lossy(&answer).into_owned();
    let values: Vec<&str> = text
        .lines()
        .filter(|line| line.trim_start().starts_with("35"))
        .filter_map(|line| line.get(test.form().head()..))
        .collect();
    if values.is_empty() {
        test.digit(&answer, 2).to_string()
    } else {
        values.join(" ")
    }
}

fn things(test: &mut Explicit) {
    let yes = |what| grant(5, what, 1);
    let no = |what| deny(5, what, 1);
    let one = || Thing::Value(3, b"1".to_vec());
    let all = || Thing::AllTypesAndValues;
    for (what, items, shown) in [
        ("nothing", vec![], "3"),
        ("the entry again", vec![yes(Thing::Entry)], "3"),
        ("all types", vec![yes(Thing::AllTypes)], "3"),
        ("all types and values", vec![yes(all())], "Ann 1 2"),
        ("type without values", vec![yes(Thing::Type(3))], "3"),
        ("values without type", vec![yes(Thing::ValuesOf(3))], "3"),
        ("type and values", vec![yes(Thing::Type(3)), yes(Thing::ValuesOf(3))], "1 2"),
        ("type and one value", vec![yes(Thing::Type(3)), yes(one())], "1"),
        ("all types and one value", vec![yes(Thing::AllTypes), yes(one())], "1"),
        ("all but a type", vec![yes(all()), no(Thing::Type(3))], "Ann"),
        ("all but the values of a type", vec![yes(all()), no(Thing::ValuesOf(3))], "Ann"),
        ("all but one value", vec![yes(all()), no(one())], "Ann 2"),
        (
            "a type against all types",
            vec![no(Thing::AllTypes), yes(Thing::Type(3)), yes(Thing::ValuesOf(3))],
            "1 2",
        ),
        (
            "a value against all values",
            vec![yes(all()), no(Thing::ValuesOf(3)), yes(one())],
            "Ann 1",
        ),
        (
            "values of a type are not explicit",
            vec![yes(Thing::Type(3)), no(all()), yes(Thing::ValuesOf(3))],
            "3",
        ),
        (
            "explicit grant and denial of a type",
            vec![yes(all()), yes(Thing::Type(3)), no(Thing::Type(3))],
            "Ann",
        ),
        ("explicit grant and denial of a value", vec![yes(all()), yes(one()), no(one())], "Ann 2"),
        (
            "explicit but lower",
            vec![grant(4, one(), 1), yes(Thing::Type(3)), no(Thing::ValuesOf(3))],
            "3",
        ),
    ] {
        let given = read_lines(test, items);
        test.check(given == shown, &format!("thing: {what}: expected {shown}, given {given}"));
    }
    let named = |item: ItemLines| ItemLines { who: User::Named(vec![]), ..item };
    let items = vec![named(yes(all())), no(Thing::Type(3))];
    let given = read_lines(test, items);
    test.check(given == "Ann 1 2", &format!("who comes before explicit: {given}"));
}

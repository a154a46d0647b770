//! Read, compare, list, search and their outcomes.

use harness::explicit::{asking, deny, grant, named, person, Explicit, Situation};
use harness::limits::open;
use peer::builder::{FilterLines, ItemLines, OperationLines, RequestSheet, Selected, Thing};

/// Staff above Ann and Bob; Ann above Desk. Ann holds 3: 1, 2.
fn world(items: Vec<ItemLines>) -> Situation {
    Situation::new(
        vec![
            person(0, "Staff", &[]),
            person(1, "Ann", &[(3, "1"), (3, "2")]),
            person(1, "Bob", &[(3, "2")]),
            person(2, "Desk", &[]),
        ],
        items,
    )
}

/// Everything open but for more items.
fn open_but(more: Vec<ItemLines>) -> Situation {
    let mut items = open();
    items.extend(more);
    world(items)
}

pub fn on(base: &[&str], subtree: bool, item: ItemLines) -> ItemLines {
    ItemLines { base: named(base), subtree, ..item }
}

fn all() -> Selected {
    Selected::ALL
}

fn listed(types: &[u32], values: bool) -> Selected {
    Selected { types: Some(types.to_vec()), values }
}

pub fn read(name: &[&str], selected: Selected) -> RequestSheet {
    asking(named(name), OperationLines::Read(selected))
}

pub fn compare(name: &[&str], kind: u32, value: &str) -> RequestSheet {
    asking(named(name), OperationLines::Compare(kind, value.as_bytes().to_vec()))
}

pub fn list(name: &[&str], limit: u32) -> RequestSheet {
    asking(named(name), OperationLines::List { limit })
}

pub fn search(name: &[&str], subset: u32, limit: u32, filter: FilterLines) -> RequestSheet {
    let selected = listed(&[], false);
    let order = None;
    asking(named(name), OperationLines::Search { limit, selected, order, subset, filter })
}

/// Line 30.
pub fn head(operation: u32, outcome: u32, cut: u32) -> String {
    line(30, operation, outcome, cut, "")
}

pub fn line(kind: u32, a: u32, b: u32, c: u32, bytes: &str) -> String {
    format!("{kind:6}{a:6}{b:6}{c:6}{:6}{bytes}\n", bytes.len())
}

/// K 33 with a name.
pub fn entry(name: &[&str]) -> String {
    line(33, 0, name.len() as u32, 0, "") + &name_lines(name)
}

pub fn name_lines(name: &[&str]) -> String {
    name.iter().map(|part| line(9, 2, 0, 0, part)).collect()
}

pub fn held(kind: u32, values: &[&str]) -> String {
    let lines: String = values.iter().map(|value| line(35, 0, 0, 0, value)).collect();
    line(34, kind, values.len() as u32, 0, "") + &lines
}

pub fn run(test: &mut Explicit) {
    absent(test);
    reads(test);
    compares(test);
    lists(test);
    searches(test);
}

fn absent(test: &mut Explicit) {
    let world = open_but(vec![on(&["Staff", "Ann"], false, deny(9, Thing::Entry, 8))]);
    for (operation, make) in [
        (1, &(|name: &[&str]| read(name, all())) as &dyn Fn(&[&str]) -> RequestSheet),
        (2, &|name| compare(name, 2, "x")),
        (3, &|name| list(name, 0)),
        (4, &|name| search(name, 2, 0, FilterLines::And(vec![]))),
    ] {
        let absent = |matched: &[&str]| head(operation, 1, 0) + &name_lines(matched);
        let what = |what: &str| format!("operation {operation}: {what}");
        test.answers(&what("absent at the root"), &world, &make(&["Cid"]), &absent(&[]));
        test.answers(&what("absent"), &world, &make(&["STAFF", "Cid"]), &absent(&["Staff"]));
        let below = make(&["staff", "ann", "cid"]);
        test.answers(&what("below an undisclosed entry"), &world, &below, &absent(&["Staff"]));
        let deep = make(&["staff", "ann", "desk", "x", "y"]);
        let desk = absent(&["Staff", "Ann", "Desk"]);
        test.answers(&what("below a disclosed entry"), &world, &deep, &desk);
        let mut unknown = make(&["staff", "bob", "x"]);
        unknown.name[2] = (7, b"x".to_vec());
        test.answers(&what("unknown type"), &world, &unknown, &absent(&["Staff", "Bob"]));
        unknown.name[0].1 = b"a\n".to_vec();
        test.answers(&what("first part outside"), &world, &unknown, &absent(&[]));
    }
}

fn reads(test: &mut Explicit) {
    let world = open_but(vec![]);
    let ann = &["Staff", "Ann"][..];
    let full = head(1, 0, 0) + &entry(ann) + &held(2, &["Ann"]) + &held(3, &["1", "2"]);
    test.answers("read all", &world, &read(&["STAFF", "ANN"], all()), &full);
    let types = head(1, 0, 0) + &entry(ann) + &held(2, &[]) + &held(3, &[]);
    let selected = Selected { types: None, values: false };
    test.answers("read types only", &world, &read(ann, selected), &types);
    let one = head(1, 0, 0) + &entry(ann) + &held(3, &["1", "2"]);
    test.answers("repeated type", &world, &read(ann, listed(&[3, 7, 3], true)), &one);
    let order = head(1, 0, 0) + &entry(ann) + &held(2, &["Ann"]) + &held(3, &["1", "2"]);
    test.answers("order of the directory", &world, &read(ann, listed(&[3, 2], true)), &order);
    let empty = head(1, 0, 0) + &entry(ann);
    test.answers("empty list", &world, &read(ann, listed(&[], true)), &empty);
    test.answers("unknown type", &world, &read(ann, listed(&[7], true)), &head(1, 3, 0));
    test.answers("type not held", &world, &read(ann, listed(&[1], true)), &head(1, 3, 0));
    test.answers("read the root", &world, &read(&[], all()), &head(1, 1, 0));

    let on_ann = |mask| open_but(vec![on(ann, false, deny(9, Thing::Entry, mask))]);
    test.answers("no Read", &on_ann(1), &read(ann, all()), &head(1, 2, 0));
    let matched = head(1, 1, 0) + &name_lines(&["Staff"]);
    test.answers("no Read, no disclosure", &on_ann(9), &read(ann, all()), &matched);
    let nameless =
        head(1, 0, 0) + &line(33, 0, 0, 0, "") + &held(2, &["Ann"]) + &held(3, &["1", "2"]);
    test.answers("no ReturnDN", &on_ann(4), &read(ann, all()), &nameless);
    test.answers("no Browse", &on_ann(2), &read(ann, all()), &full);
    test.answers("Read alone", &on_ann(62), &read(ann, all()), &nameless);

    let on_three = |what, mask| open_but(vec![deny(9, what, mask)]);
    let three = Thing::Type(3);
    let list = listed(&[3], true);
    let hidden = on_three(three.clone(), 1);
    test.answers("type refused", &hidden, &read(ann, list.clone()), &head(1, 2, 0));
    let unseen = on_three(three, 9);
    test.answers("type refused, undisclosed", &unseen, &read(ann, list.clone()), &head(1, 3, 0));
    let rest = head(1, 0, 0) + &entry(ann) + &held(2, &["Ann"]);
    test.answers("type refused, another left", &hidden, &read(ann, all()), &rest);
    let values = on_three(Thing::ValuesOf(3), 1);
    test.answers("values refused", &values, &read(ann, list.clone()), &head(1, 2, 0));
    let types = head(1, 0, 0) + &entry(ann) + &held(3, &[]);
    test.answers("values refused, types only", &values, &read(ann, listed(&[3], false)), &types);
    let undisclosed = open_but(vec![deny(9, Thing::ValuesOf(3), 1), deny(9, Thing::Type(3), 8)]);
    test.answers(
        "values refused, undisclosed",
        &undisclosed,
        &read(ann, list.clone()),
        &head(1, 3, 0),
    );
    let one = on_three(Thing::Value(3, b"1".to_vec()), 1);
    let left = head(1, 0, 0) + &entry(ann) + &held(3, &["2"]);
    test.answers("one value refused", &one, &read(ann, list), &left);
    let none = open_but(vec![deny(9, Thing::AllTypes, 1)]);
    test.answers("all types refused", &none, &read(ann, all()), &head(1, 2, 0));
    let none = open_but(vec![deny(9, Thing::AllTypes, 9)]);
    test.answers("all types refused, undisclosed", &none, &read(ann, all()), &head(1, 3, 0));
    let not_held = open_but(vec![deny(9, Thing::Type(1), 1)]);
    test.answers("refused, not held", &not_held, &read(ann, listed(&[1], true)), &head(1, 3, 0));
}

fn compares(test: &mut Explicit) {
    let ann = &["Staff", "Ann"][..];
    let verdict = |equal| head(2, 0, 0) + &line(31, equal, 0, 0, "");
    let world = open_but(vec![]);
    test.answers("equal", &world, &compare(ann, 2, "ANN"), &verdict(1));
    test.answers("second value", &world, &compare(ann, 3, "2"), &verdict(1));
    test.answers("not equal", &world, &compare(ann, 3, "3"), &verdict(0));
    test.answers("not held", &world, &compare(ann, 1, "x"), &head(2, 3, 0));
    test.answers("not held, empty", &world, &compare(ann, 1, ""), &head(2, 3, 0));
    test.answers("unknown type", &world, &compare(ann, 7, "x"), &head(2, 3, 0));
    test.answers("outside", &world, &compare(ann, 3, "x"), &head(2, 4, 0));
    test.answers("empty", &world, &compare(ann, 2, ""), &head(2, 4, 0));
    test.answers("compare the root", &world, &compare(&[], 2, "x"), &head(2, 1, 0));
    let but = |what, mask| open_but(vec![deny(9, what, mask)]);
    let refused = but(Thing::Type(3), 16);
    test.answers("refused", &refused, &compare(ann, 3, "1"), &head(2, 2, 0));
    test.answers("refused, outside", &refused, &compare(ann, 3, "x"), &head(2, 2, 0));
    test.answers("refused, not held", &refused, &compare(&["Staff"], 3, "1"), &head(2, 3, 0));
    let unseen = but(Thing::Type(3), 24);
    test.answers("refused, undisclosed", &unseen, &compare(ann, 3, "1"), &head(2, 3, 0));
    test.answers("undisclosed, outside", &unseen, &compare(ann, 3, "x"), &head(2, 3, 0));
    let value = but(Thing::Value(3, b"1".to_vec()), 16);
    test.answers("value refused", &value, &compare(ann, 3, "1"), &verdict(0));
    test.answers("another value", &value, &compare(ann, 3, "2"), &verdict(1));
    let unread = but(Thing::AllTypesAndValues, 47);
    test.answers("Compare alone", &unread, &compare(ann, 3, "1"), &verdict(1));
    let entry = but(Thing::Entry, 1);
    test.answers("no Read on the entry", &entry, &compare(ann, 3, "1"), &head(2, 2, 0));
    let entry = but(Thing::Entry, 9);
    test.answers("no Read, no disclosure", &entry, &compare(ann, 3, "1"), &head(2, 1, 0));
}

fn lists(test: &mut Explicit) {
    let child = |name: &str| line(32, 2, 0, 0, name);
    let world = open_but(vec![]);
    let both = head(3, 0, 0) + &child("Ann") + &child("Bob");
    test.answers("list", &world, &list(&["staff"], 0), &both);
    test.answers("list the root", &world, &list(&[], 0), &(head(3, 0, 0) + &child("Staff")));
    test.answers("at the limit", &world, &list(&["Staff"], 2), &both);
    let first = head(3, 0, 1) + &child("Ann");
    test.answers("over the limit", &world, &list(&["Staff"], 1), &first);
    test.answers("no children", &world, &list(&["Staff", "Bob"], 0), &head(3, 0, 0));
    let but = |base: &[&str], mask| open_but(vec![on(base, false, deny(9, Thing::Entry, mask))]);
    let ann = &["Staff", "Ann"];
    let bob = head(3, 0, 0) + &child("Bob");
    test.answers("a child without Browse", &but(ann, 2), &list(&["Staff"], 0), &bob);
    test.answers("a child without ReturnDN", &but(ann, 4), &list(&["Staff"], 0), &bob);
    test.answers("a withheld child is not counted", &but(ann, 2), &list(&["Staff"], 1), &bob);
    let last = head(3, 0, 0) + &child("Ann");
    let without_bob = but(&["Staff", "Bob"], 2);
    test.answers("nor one after the limit", &without_bob, &list(&["Staff"], 1), &last);
    test.answers("a child without Read", &but(ann, 9), &list(&["Staff"], 0), &both);
    test.answers("a base without rights", &but(&["Staff"], 15), &list(&["Staff"], 0), &both);
    let unseen = open_but(vec![
        on(ann, false, deny(9, Thing::Entry, 2)),
        on(&["Staff", "Bob"], false, deny(9, Thing::Entry, 2)),
    ]);
    test.answers("nothing, disclosed", &unseen, &list(&["Staff"], 0), &head(3, 0, 0));
    let mut secret = unseen.clone();
    secret.permissions.items.push(on(&["Staff"], false, deny(9, Thing::Entry, 8)));
    test.answers("nothing, undisclosed", &secret, &list(&["Staff"], 0), &head(3, 1, 0));
    let leaf = but(ann, 8);
    let none = leaf.clone();
    let matched = head(3, 1, 0) + &name_lines(&["Staff"]);
    let mut nothing_below = none;
    nothing_below.directory.entries.pop();
    test.answers("no children, undisclosed", &nothing_below, &list(ann, 0), &matched);
    let empty = Situation::new(vec![], open());
    test.answers("an empty root", &empty, &list(&[], 0), &head(3, 1, 0));
}

fn searches(test: &mut Explicit) {
    let world = open_but(vec![]);
    let everything = || FilterLines::And(vec![]);
    let staff = entry(&["Staff"]);
    let ann = entry(&["Staff", "Ann"]);
    let bob = entry(&["Staff", "Bob"]);
    let desk = entry(&["Staff", "Ann", "Desk"]);
    let found = |entries: &[&String]| {
        head(4, 0, 0) + &entries.iter().map(|entry| entry.as_str()).collect::<String>()
    };
    let base = search(&["staff"], 0, 0, everything());
    let level = search(&["staff"], 1, 0, everything());
    let tree = search(&["staff"], 2, 0, everything());
    test.answers("base", &world, &base, &found(&[&staff]));
    test.answers("one level", &world, &level, &found(&[&ann, &bob]));
    test.answers("subtree", &world, &tree, &found(&[&staff, &ann, &bob, &desk]));
    test.answers("root, base", &world, &search(&[], 0, 0, everything()), &head(4, 1, 0));
    test.answers("root, one level", &world, &search(&[], 1, 0, everything()), &found(&[&staff]));
    let whole = found(&[&staff, &ann, &bob, &desk]);
    test.answers("root, subtree", &world, &search(&[], 2, 0, everything()), &whole);
    let of_ann = search(&["Staff", "Ann"], 2, 0, everything());
    test.answers("a later subtree", &world, &of_ann, &found(&[&ann, &desk]));
    test.answers(
        "at the limit",
        &world,
        &search(&["Staff"], 1, 2, everything()),
        &found(&[&ann, &bob]),
    );
    let cut = head(4, 0, 1) + &ann;
    test.answers("over the limit", &world, &search(&["Staff"], 1, 1, everything()), &cut);
    let two = FilterLines::Equality(3, b"2".to_vec());
    test.answers("filter", &world, &search(&[], 2, 2, two.clone()), &found(&[&ann, &bob]));
    let one = search(&[], 2, 1, FilterLines::Equality(3, b"1".to_vec()));
    test.answers("unmatched entries are not counted", &world, &one, &found(&[&ann]));
    let none = FilterLines::Or(vec![]);
    test.answers(
        "nothing, disclosed",
        &world,
        &search(&["Staff"], 2, 0, none.clone()),
        &head(4, 0, 0),
    );
    test.answers("nothing at the root", &world, &search(&[], 2, 0, none.clone()), &head(4, 1, 0));

    let but = |base: &[&str], mask| open_but(vec![on(base, false, deny(9, Thing::Entry, mask))]);
    test.answers("base by Read", &but(&["Staff"], 2), &base, &found(&[&staff]));
    test.answers("base by Browse", &but(&["Staff"], 1), &base, &found(&[&staff]));
    test.answers("base by neither", &but(&["Staff"], 3), &base, &head(4, 0, 0));
    test.answers("base by neither, undisclosed", &but(&["Staff"], 11), &base, &head(4, 1, 0));
    test.answers("base without ReturnDN", &but(&["Staff"], 4), &base, &head(4, 0, 0));
    test.answers("base of a subtree by Read", &but(&["Staff"], 2), &tree, &whole);
    let rest = found(&[&staff, &bob, &desk]);
    test.answers("below, Read does not do", &but(&["Staff", "Ann"], 2), &tree, &rest);
    test.answers("below, without ReturnDN", &but(&["Staff", "Ann"], 4), &tree, &rest);
    test.answers("below, without Read", &but(&["Staff", "Ann"], 9), &tree, &whole);
    test.answers("a base without rights", &but(&["Staff"], 15), &level, &found(&[&ann, &bob]));
    let limited = search(&["Staff"], 1, 1, everything());
    test.answers("withheld after the limit", &but(&["Staff", "Bob"], 2), &limited, &found(&[&ann]));
    test.answers(
        "withheld before the limit",
        &but(&["Staff", "Ann"], 2),
        &limited,
        &found(&[&bob]),
    );

    let mut informed = search(&["Staff", "Ann"], 0, 0, everything());
    if let OperationLines::Search { selected, .. } = &mut informed.operation {
        *selected = all();
    }
    let full = head(4, 0, 0) + &ann + &held(2, &["Ann"]) + &held(3, &["1", "2"]);
    test.answers("information", &world, &informed, &full);
    let unread = open_but(vec![deny(9, Thing::AllTypes, 1)]);
    test.answers("no information is no error", &unread, &informed, &found(&[&ann]));
    let some = open_but(vec![deny(9, Thing::Value(3, b"1".to_vec()), 1)]);
    let left = head(4, 0, 0) + &ann + &held(2, &["Ann"]) + &held(3, &["2"]);
    test.answers("a value withheld", &some, &informed, &left);
    let only = open_but(vec![deny(9, Thing::ValuesOf(3), 1)]);
    let left = head(4, 0, 0) + &ann + &held(2, &["Ann"]);
    test.answers("a type left without values", &only, &informed, &left);
    let nothing_granted = Situation { permissions: Default::default(), ..world.clone() };
    test.answers("no items", &nothing_granted, &tree, &head(4, 1, 0));
    let below = world_with_grant_below();
    test.answers("granted below alone", &below, &tree, &found(&[&ann, &desk]));
}

/// Ann and below are granted, nothing else.
fn world_with_grant_below() -> Situation {
    world(vec![on(&["Staff", "Ann"], true, grant(0, Thing::Entry, 63))])
}

//! Aliases: where a name leads, who follows them and who does not.

use super::operations::{compare, entry, head, held, line, list, name_lines, on, read, search};
use harness::explicit::{deny, grant, named, person, Explicit, Situation};
use harness::limits::open;
use peer::builder::{EntryLines, FilterLines, ItemLines, RequestSheet, Selected, Thing, User};

/// An alias named by text.
fn alias(parent: u32, name: &str, target: &[&str]) -> EntryLines {
    EntryLines { target: Some(named(target)), ..person(parent, name, &[]) }
}

/// Staff above Ann (3: 1) and Bob; Ann above Desk; then more.
fn hotel(more: Vec<EntryLines>, items: Vec<ItemLines>) -> Situation {
    let mut entries = vec![
        person(0, "Staff", &[]),
        person(1, "Ann", &[(3, "1")]),
        person(1, "Bob", &[]),
        person(2, "Desk", &[]),
    ];
    entries.extend(more);
    let mut all = open();
    all.extend(items);
    Situation::new(entries, all)
}

fn everything() -> FilterLines {
    FilterLines::And(vec![])
}

/// A request of each operation about a name, with what it gets where the name is Staff's.
fn requests(name: &[&str]) -> [(RequestSheet, String); 4] {
    let listed = ["Ann", "Bob"].map(|name| line(32, 2, 0, 0, name)).concat();
    [
        (read(name, Selected::ALL), head(1, 0, 0) + &entry(&["Staff"]) + &held(2, &["Staff"])),
        (compare(name, 2, "staff"), head(2, 0, 0) + &line(31, 1, 0, 0, "")),
        (list(name, 0), head(3, 0, 0) + &listed),
        (search(name, 0, 0, everything()), head(4, 0, 0) + &entry(&["Staff"])),
    ]
}

/// All operations lead to Staff.
fn leads_to_staff(test: &mut Explicit, what: &str, world: &Situation, name: &[&str]) {
    for (request, expected) in requests(name) {
        test.answers(&format!("{what}: {name:?} leads to Staff"), world, &request, &expected);
    }
}

/// All operations get an outcome and lines.
fn gets(
    test: &mut Explicit,
    what: &str,
    world: &Situation,
    name: &[&str],
    outcome: u32,
    more: &[&str],
) {
    for (operation, (request, _)) in (1..).zip(requests(name)) {
        let expected = head(operation, outcome, 0) + &name_lines(more);
        test.answers(&format!("{what}: {name:?} gets {outcome}"), world, &request, &expected);
    }
}

pub fn run(test: &mut Explicit) {
    chains(test);
    long_chains(test);
    loops(test);
    targets(test);
    long_names(test);
    matched(test);
    permissions(test);
    users(test);
    bases(test);
    lists(test);
    searches(test);
    writings(test);
    behind(test);
}

/// A1 leads to A2, and so on, the last to Staff.
fn chains(test: &mut Explicit) {
    let names: Vec<String> = (1..=11).map(|number| format!("A{number}")).collect();
    for length in 1..=10 {
        let aliases = (0..length).map(|place| {
            let next = if place + 1 == length { "Staff" } else { &names[place + 1] };
            alias(0, &names[place], &[next])
        });
        let mut world = hotel(aliases.collect(), vec![]);
        for turned in [false, true] {
            let what = format!("a chain of {length}, turned {turned}");
            for (place, name) in names[..length].iter().enumerate() {
                let name = &[&name[..]][..];
                if length - place <= 8 {
                    leads_to_staff(test, &what, &world, name);
                } else {
                    gets(test, &what, &world, name, 5, &[]);
                }
            }
            let full = head(1, 0, 0) + &entry(&["Staff", "Bob"]) + &held(2, &["Bob"]);
            let below = read(&["a1", "bob"], Selected::ALL);
            let expected = if length <= 8 { full } else { head(1, 5, 0) };
            test.answers(&format!("{what}, below"), &world, &below, &expected);
            let absent = read(&["a1", "x"], Selected::ALL);
            let matched = head(1, 1, 0) + &name_lines(&["Staff"]);
            let expected = if length <= 8 { matched } else { head(1, 5, 0) };
            test.answers(&format!("{what}, absent below"), &world, &absent, &expected);
            // The other order of lines.
            world.directory.entries[4..].reverse();
        }
    }
}

/// Chains whose last target makes a name of eight parts, or of nine, one that begins with an alias's
/// name: too long goes before a ninth replacement.
fn long_chains(test: &mut Explicit) {
    let names: Vec<String> = (1..=9).map(|number| format!("A{number}")).collect();
    for (length, parts, outcome, matched) in [
        (7, 8, 5, &[][..]),
        (7, 9, 1, &["A1"]),
        (8, 8, 5, &[]),
        (8, 9, 1, &["A1"]),
        (9, 8, 5, &[]),
        (9, 9, 5, &[]),
    ] {
        let back = ["A1", "x", "x", "x", "x", "x", "x", "x"];
        let aliases = (0..length).map(|place| {
            let next = [&names[(place + 1) % length][..]];
            alias(0, &names[place], if place + 1 == length { &back } else { &next })
        });
        let world = hotel(aliases.collect(), vec![]);
        let asked = ["A1", "y"];
        let what = format!("a chain of {length} to {parts} parts");
        gets(test, &what, &world, &asked[..parts - 7], outcome, matched);
    }
}

fn loops(test: &mut Explicit) {
    let names = ["A1", "A2", "A3"];
    for length in 1..=3 {
        let aliases =
            (0..length).map(|place| alias(0, names[place], &[names[(place + 1) % length]]));
        let mut aliases: Vec<EntryLines> = aliases.collect();
        aliases.push(alias(0, "In", &["A1"]));
        aliases.push(alias(0, "Below", &["A1", "Ann"]));
        let world = hotel(aliases, vec![]);
        let what = format!("a loop of {length}");
        for name in [&["A1"][..], &["a1", "x"], &["In"], &["In", "Ann"], &["Below"]] {
            gets(test, &what, &world, name, 5, &[]);
        }
        let root = head(3, 0, 0) + &line(32, 2, 0, 0, "Staff");
        let marked: String = (0..length).map(|place| line(32, 2, 0, 1, names[place])).collect();
        let cut = u32::from(test.room() == 1_024 && length == 3);
        let more = ["In", "Below"].map(|name| line(32, 2, 0, 1, name));
        let more = if cut == 1 { more[0].clone() } else { more.concat() };
        let root = root.replacen(&head(3, 0, 0), &head(3, 0, cut), 1);
        test.answers(&format!("{what}, listed"), &world, &list(&[], 0), &(root + &marked + &more));
    }
    // A name of eight parts that stays so.
    let world = hotel(vec![alias(0, "A1", &["A2"]), alias(0, "A2", &["A1"])], vec![]);
    gets(test, "eight parts", &world, &["a1", "x", "x", "x", "x", "x", "x", "x"], 5, &[]);
    // Each replacement makes the name longer, until it has nine parts.
    let world = hotel(vec![alias(0, "Grow", &["Grow", "x"])], vec![]);
    gets(test, "growing", &world, &["Grow"], 1, &["Grow"]);
    gets(test, "growing", &world, &["Grow", "y"], 1, &["Grow"]);
    let eight = ["Grow", "y", "y", "y", "y", "y", "y", "y"];
    gets(test, "growing", &world, &eight, 1, &["Grow"]);
    let two = hotel(vec![alias(0, "Grow", &["Grow", "x", "x"])], vec![]);
    gets(test, "growing by two", &two, &["Grow"], 1, &["Grow"]);
}

fn targets(test: &mut Explicit) {
    let world = hotel(
        vec![
            alias(0, "Crew", &["Staff"]),
            alias(0, "Nan", &["Staff", "Ann"]),
            alias(0, "Nobody", &["Cid"]),
            alias(0, "Nothing", &["Staff", "Cid", "Dan"]),
            alias(0, "Herself", &["Herself"]),
            alias(0, "Child", &["Crew", "Ann"]),
            alias(0, "Under", &["Nan", "Desk"]),
            alias(0, "Lost", &["Nobody", "Desk"]),
            alias(1, "Inner", &["Staff"]),
            alias(1, "Twin", &["Staff", "Inner", "Inner", "Bob"]),
        ],
        vec![],
    );
    // "Staff" lists its aliases too.
    let whole = |world: &Situation| {
        let mut world = world.clone();
        world.directory.entries.retain(|entry| entry.target.is_none() || entry.parent == 0);
        world
    };
    leads_to_staff(test, "to the root's child", &whole(&world), &["Crew"]);
    for (asked, name, values) in [
        (&["crew", "ann"][..], &["Staff", "Ann"][..], "Ann"),
        (&["crew", "ann", "desk"], &["Staff", "Ann", "Desk"], "Desk"),
        (&["Nan"], &["Staff", "Ann"], "Ann"),
        (&["nan", "desk"], &["Staff", "Ann", "Desk"], "Desk"),
        (&["Child"], &["Staff", "Ann"], "Ann"),
        (&["child", "desk"], &["Staff", "Ann", "Desk"], "Desk"),
        (&["Under"], &["Staff", "Ann", "Desk"], "Desk"),
        (&["staff", "inner", "bob"], &["Staff", "Bob"], "Bob"),
        (&["crew", "inner", "inner", "bob"], &["Staff", "Bob"], "Bob"),
        (&["staff", "twin"], &["Staff", "Bob"], "Bob"),
        (&["crew", "inner", "twin"], &["Staff", "Bob"], "Bob"),
    ] {
        let number = if values == "Ann" { held(3, &["1"]) } else { String::new() };
        let full = head(1, 0, 0) + &entry(name) + &held(2, &[values]) + &number;
        test.answers(&format!("{asked:?} read"), &world, &read(asked, Selected::ALL), &full);
        let equal = head(2, 0, 0) + &line(31, 1, 0, 0, "");
        test.answers(&format!("{asked:?} compared"), &world, &compare(asked, 2, values), &equal);
        let found = head(4, 0, 0) + &entry(name);
        let request = search(asked, 0, 0, everything());
        test.answers(&format!("{asked:?} searched"), &world, &request, &found);
    }
    let children = head(3, 0, 0) + &line(32, 2, 0, 0, "Desk");
    for asked in [&["Nan"][..], &["Child"], &["crew", "ann"]] {
        test.answers(&format!("{asked:?} listed"), &world, &list(asked, 0), &children);
    }
    gets(test, "to nothing", &world, &["Nobody"], 1, &[]);
    gets(test, "to nothing, below", &world, &["Nobody", "Ann"], 1, &[]);
    gets(test, "to nothing below Staff", &world, &["Nothing"], 1, &["Staff"]);
    gets(test, "to nothing through an alias", &world, &["Lost"], 1, &[]);
    gets(test, "to itself", &world, &["Herself"], 5, &[]);
    gets(test, "to itself, below", &world, &["Herself", "Ann"], 5, &[]);
    let mut unknown = read(&["crew", "ann", "x"], Selected::ALL);
    unknown.name[2] = (7, b"x".to_vec());
    let matched = head(1, 1, 0) + &name_lines(&["Staff", "Ann"]);
    test.answers("an unknown type after an alias", &world, &unknown, &matched);
    unknown.name[0] = (7, b"crew".to_vec());
    test.answers("an unknown type as an alias", &world, &unknown, &head(1, 1, 0));
}

/// A replaced name of eight parts, of nine, and of more.
fn long_names(test: &mut Explicit) {
    let deep = ["d"; 8];
    let mut entries: Vec<EntryLines> = (0..8).map(|parent| person(parent, "d", &[])).collect();
    entries.push(alias(0, "One", &deep[..1]));
    entries.push(alias(0, "Two", &deep[..2]));
    entries.push(alias(0, "Eight", &deep));
    let through = [&["One"][..], &deep[..7]].concat();
    entries.push(alias(0, "Again", &through));
    // Aliases at depth 8.
    entries.push(alias(7, "Near", &["One"]));
    entries.push(alias(7, "Far", &deep));
    let world = Situation::new(entries, open());
    let asked = |first: &'static str, rest: usize| [&[first][..], &deep[..rest]].concat();
    let found = |depth: usize| head(4, 0, 0) + &entry(&deep[..depth]);
    for (first, rest, depth) in [
        ("One", 0, 1),
        ("One", 6, 7),
        ("One", 7, 8),
        ("Two", 5, 7),
        ("Two", 6, 8),
        ("Eight", 0, 8),
        ("Again", 0, 8),
    ] {
        let request = search(&asked(first, rest), 0, 0, everything());
        let what = format!("{first} and {rest} more");
        test.answers(&what, &world, &request, &found(depth));
    }
    for (last, depth) in [("Near", 1), ("Far", 8)] {
        let name = [&deep[..7], &[last]].concat();
        let request = search(&name, 0, 0, everything());
        test.answers(&format!("{last} at depth 8"), &world, &request, &found(depth));
    }
    // Nine parts and more, up to fifteen: absent, though the first eight are there.
    for (first, rest) in [("Two", 7), ("Eight", 1), ("Eight", 2), ("Eight", 6), ("Eight", 7)] {
        gets(test, "too long", &world, &asked(first, rest), 1, &deep);
    }
    // Nine parts that begin with an alias are not replaced again.
    for rest in [1, 2, 7] {
        gets(test, "too long to replace", &world, &asked("Again", rest), 1, &["One"]);
    }
    let mut hidden = world.clone();
    hidden.permissions.items.push(on(&["One"], false, deny(9, Thing::Entry, 8)));
    gets(test, "an undisclosed alias", &hidden, &asked("Again", 1), 1, &[]);
    let mut hidden = world;
    hidden.permissions.items.push(on(&deep[..5], true, deny(9, Thing::Entry, 8)));
    gets(test, "undisclosed in the depth", &hidden, &asked("Two", 7), 1, &deep[..4]);
}

/// The matched name is of the replaced name.
fn matched(test: &mut Explicit) {
    let aliases = || {
        vec![
            alias(0, "Crew", &["Staff"]),
            alias(1, "Nan", &["Staff", "Ann"]),
            alias(0, "Lost", &["Staff", "Cid"]),
        ]
    };
    let world = hotel(aliases(), vec![]);
    for (name, matched) in [
        (&["crew", "x"][..], &["Staff"][..]),
        (&["crew", "ann", "x"], &["Staff", "Ann"]),
        (&["staff", "nan", "x"], &["Staff", "Ann"]),
        (&["crew", "nan", "desk", "x"], &["Staff", "Ann", "Desk"]),
        (&["Lost"], &["Staff"]),
        (&["lost", "ann"], &["Staff"]),
    ] {
        gets(test, "matched", &world, name, 1, matched);
    }
    let world = hotel(aliases(), vec![on(&["Staff"], false, deny(9, Thing::Entry, 8))]);
    gets(test, "Staff undisclosed", &world, &["crew", "x"], 1, &[]);
    gets(test, "Staff undisclosed", &world, &["crew", "nan", "x"], 1, &["Staff", "Ann"]);
    let hidden = hotel(aliases(), vec![on(&["Staff", "Ann"], true, deny(9, Thing::Entry, 15))]);
    for (operation, request) in
        [(1, read(&["staff", "nan"], Selected::ALL)), (2, compare(&["staff", "nan"], 2, "ann"))]
    {
        let expected = head(operation, 1, 0) + &name_lines(&["Staff"]);
        test.answers("to a hidden entry", &hidden, &request, &expected);
    }
    let listed = head(3, 1, 0) + &name_lines(&["Staff"]);
    test.answers("to a hidden entry, listed", &hidden, &list(&["staff", "nan"], 0), &listed);
    let request = search(&["staff", "nan"], 2, 0, everything());
    let found = head(4, 1, 0) + &name_lines(&["Staff"]);
    test.answers("to a hidden entry, searched", &hidden, &request, &found);
    gets(test, "below a hidden entry", &hidden, &["staff", "nan", "desk", "x"], 1, &["Staff"]);
    let unread = hotel(aliases(), vec![on(&["Staff", "Ann"], false, deny(9, Thing::Entry, 1))]);
    let refused = read(&["staff", "nan"], Selected::ALL);
    test.answers("to an entry that is not read", &unread, &refused, &head(1, 2, 0));
}

/// Replacing needs none.
fn permissions(test: &mut Explicit) {
    for mask in [1, 2, 4, 8, 15, 63] {
        let aliases = vec![alias(0, "Crew", &["Staff"]), alias(0, "Loop", &["Loop"])];
        let items = vec![
            on(&["Crew"], true, deny(9, Thing::Entry, mask)),
            on(&["Crew"], true, deny(9, Thing::AllTypesAndValues, 63)),
            on(&["Loop"], true, deny(9, Thing::Entry, mask)),
        ];
        let world = hotel(aliases, items);
        leads_to_staff(test, &format!("without {mask}"), &world, &["crew"]);
        gets(test, &format!("without {mask}"), &world, &["crew", "x"], 1, &["Staff"]);
        gets(test, &format!("without {mask}"), &world, &["loop"], 5, &[]);
    }
    // What the alias has does not serve its target.
    let mut world = hotel(vec![alias(0, "Crew", &["Staff"])], vec![]);
    world.permissions.items = vec![on(&["Crew"], true, grant(0, Thing::Entry, 63))];
    gets(test, "granted on the alias alone", &world, &["crew"], 1, &[]);
}

/// A requester's name is never replaced.
fn users(test: &mut Explicit) {
    let ann = || named(&["Staff", "Ann"]);
    let nan = || named(&["Staff", "Nan"]);
    let user = User::Named;
    let below = User::AtOrBelow;
    for (what, who, requester, granted) in [
        ("the entry itself", User::Itself, ann(), true),
        ("the entry itself by its alias", User::Itself, nan(), false),
        ("named", user(ann()), ann(), true),
        ("named, asking by the alias", user(ann()), nan(), false),
        ("named by the alias", user(nan()), ann(), false),
        ("named and asking by the alias", user(nan()), nan(), true),
        ("below, asking by the alias", below(ann()), nan(), false),
        ("below the alias", below(nan()), ann(), false),
        ("below, asking below the alias", below(ann()), named(&["Staff", "Nan", "Desk"]), false),
    ] {
        let mut world = hotel(vec![alias(1, "Nan", &["Staff", "Ann"])], vec![]);
        world.permissions.items = vec![ItemLines { who, ..grant(0, Thing::Entry, 1) }];
        let request = RequestSheet {
            requester,
            ..read(&["staff", "nan"], Selected { types: Some(vec![]), values: false })
        };
        let nameless = head(1, 0, 0) + &line(33, 0, 0, 0, "");
        let expected = if granted { nameless } else { head(1, 1, 0) };
        test.answers(&format!("requester: {what}"), &world, &request, &expected);
    }
    // The alias is an entry, and may be the requester's own.
    let mut world = hotel(vec![alias(1, "Nan", &["Staff", "Ann"])], vec![]);
    world.permissions.items = vec![ItemLines { who: User::Itself, ..grant(0, Thing::Entry, 6) }];
    let request = RequestSheet { requester: nan(), ..search(&["Staff"], 1, 0, everything()) };
    let own = head(4, 0, 0) + &entry(&["Staff", "Nan"]);
    test.answers("requester: the alias itself", &world, &request, &own);
}

/// A base's name is never replaced.
fn bases(test: &mut Explicit) {
    let read_ann = || read(&["staff", "ann"], Selected { types: Some(vec![]), values: false });
    for (what, base, subtree, granted) in [
        ("the entry", &["Staff", "Ann"][..], false, true),
        ("its alias", &["Staff", "Nan"], false, false),
        ("its alias and below", &["Staff", "Nan"], true, false),
        ("an alias above", &["Crew"], true, false),
        ("through an alias", &["Crew", "Ann"], false, false),
    ] {
        let aliases = vec![alias(1, "Nan", &["Staff", "Ann"]), alias(0, "Crew", &["Staff"])];
        let mut world = hotel(aliases, vec![]);
        world.permissions.items = vec![on(base, subtree, grant(0, Thing::Entry, 1))];
        let nameless = head(1, 0, 0) + &line(33, 0, 0, 0, "");
        let expected = if granted { nameless } else { head(1, 1, 0) };
        test.answers(&format!("base: {what}"), &world, &read_ann(), &expected);
    }
}

fn lists(test: &mut Explicit) {
    let aliases =
        vec![alias(1, "Nan", &["Staff", "Ann"]), alias(1, "Lost", &["Cid"]), person(1, "Dan", &[])];
    let world = hotel(aliases.clone(), vec![]);
    let child = |name: &str, mark: u32| line(32, 2, 0, mark, name);
    let all = child("Ann", 0) + &child("Bob", 0) + &child("Nan", 1) + &child("Lost", 1);
    let whole = head(3, 0, 0) + &all + &child("Dan", 0);
    test.answers("aliases listed", &world, &list(&["Staff"], 0), &whole);
    let three = head(3, 0, 1) + &child("Ann", 0) + &child("Bob", 0) + &child("Nan", 1);
    test.answers("an alias counts", &world, &list(&["Staff"], 3), &three);
    for mask in [2, 4, 6] {
        let items = vec![on(&["Staff", "Nan"], false, deny(9, Thing::Entry, mask))];
        let world = hotel(aliases.clone(), items);
        let rest = head(3, 0, 0)
            + &child("Ann", 0)
            + &child("Bob", 0)
            + &child("Lost", 1)
            + &child("Dan", 0);
        test.answers("an alias withheld", &world, &list(&["Staff"], 0), &rest);
    }
    let items = vec![on(&["Staff", "Ann"], true, deny(9, Thing::Entry, 15))];
    let hidden = hotel(aliases, items);
    let rest =
        head(3, 0, 0) + &child("Bob", 0) + &child("Nan", 1) + &child("Lost", 1) + &child("Dan", 0);
    test.answers("an alias to a hidden entry", &hidden, &list(&["Staff"], 0), &rest);
}

/// Aliases that a search meets are entries like others.
fn searches(test: &mut Explicit) {
    let mut nan = alias(1, "Nan", &["Staff", "Ann"]);
    nan.values.push((3, b"9".to_vec()));
    let world = hotel(vec![nan, alias(0, "Crew", &["Staff"])], vec![]);
    let ann = entry(&["Staff", "Ann"]);
    let bob = entry(&["Staff", "Bob"]);
    let nan = entry(&["Staff", "Nan"]);
    let crew = entry(&["Crew"]);
    let staff = entry(&["Staff"]);
    let desk = entry(&["Staff", "Ann", "Desk"]);
    let found = |entries: &[&str]| head(4, 0, 0) + &entries.concat();
    let level = search(&["Staff"], 1, 0, everything());
    test.answers("one level", &world, &level, &found(&[&ann, &bob, &nan]));
    let level = search(&["Crew"], 1, 0, everything());
    test.answers("one level through an alias", &world, &level, &found(&[&ann, &bob, &nan]));
    let tree = search(&["Crew"], 2, 0, everything());
    let below = found(&[&staff, &ann, &bob, &desk, &nan]);
    test.answers("subtree through an alias", &world, &tree, &below);
    let base = search(&["staff", "nan"], 0, 0, everything());
    test.answers("base through an alias", &world, &base, &found(&[&ann]));
    let base = search(&["staff", "nan"], 2, 0, everything());
    test.answers("subtree of an alias", &world, &base, &found(&[&ann, &desk]));
    let root = search(&[], 1, 0, everything());
    test.answers("one level of the root", &world, &root, &found(&[&staff, &crew]));
    let of = |kind: u32, value: &str| FilterLines::Equality(kind, value.as_bytes().to_vec());
    for (filter, entries) in [
        (of(3, "9"), &[&nan[..]][..]),
        (of(3, "1"), &[&ann]),
        (of(2, "nan"), &[&nan]),
        (of(2, "crew"), &[&crew]),
        (FilterLines::Present(3), &[&ann, &nan]),
    ] {
        let what = format!("filter {filter:?}");
        test.answers(&what, &world, &search(&[], 2, 0, filter), &found(entries));
    }
    let mut informed = search(&[], 2, 0, of(3, "9"));
    if let peer::builder::OperationLines::Search { selected, .. } = &mut informed.operation {
        *selected = Selected::ALL;
    }
    let full = head(4, 0, 0) + &nan + &held(2, &["Nan"]) + &held(3, &["9"]);
    test.answers("an alias's own information", &world, &informed, &full);
    let mut hidden = world.clone();
    hidden.permissions.items.push(on(&["Staff", "Nan"], true, deny(9, Thing::Entry, 2)));
    let level = search(&["Staff"], 1, 0, everything());
    test.answers("an alias withheld", &hidden, &level, &found(&[&ann, &bob]));
    let mut hidden = world;
    hidden.permissions.items.push(on(&["Staff", "Ann"], true, deny(9, Thing::Entry, 15)));
    test.answers("an alias to a hidden entry", &hidden, &level, &found(&[&bob, &nan]));
}

/// Names and targets are equal under their syntaxes; answers print what is stored.
fn writings(test: &mut Explicit) {
    let world = hotel(vec![alias(0, "The  Crew", &["STAFF "])], vec![]);
    for asked in ["The  Crew", "the crew", " THE   CREW "] {
        leads_to_staff(test, "other writing", &world, &[asked]);
    }
    gets(test, "a blank too few", &world, &["thecrew"], 1, &[]);
    let listed = head(3, 0, 0) + &line(32, 2, 0, 0, "Staff") + &line(32, 2, 0, 1, "The  Crew");
    test.answers("listed as stored", &world, &list(&[], 0), &listed);
}

/// What may not be seen behind an alias changes no answer: Ann hidden, with or without Desk, other
/// values or a name in other letters; or absent.
fn behind(test: &mut Explicit) {
    let aliases = [
        alias(1, "Nan", &["Staff", "Ann"]),
        alias(0, "Desk", &["Staff", "Ann", "Desk"]),
        alias(0, "Crew", &["Staff"]),
    ];
    let ann = |more: Vec<EntryLines>| {
        let mut entries = vec![person(0, "Staff", &[]), person(1, "Bob", &[])];
        entries.extend(aliases.clone());
        entries.extend(more);
        let mut items = open();
        items.push(on(&["Staff", "Ann"], true, deny(9, Thing::Entry, 63)));
        items.push(on(&["Staff", "Ann"], true, deny(9, Thing::AllTypesAndValues, 63)));
        Situation::new(entries, items)
    };
    let absent = ann(vec![]);
    let hidden = [
        ann(vec![person(1, "Ann", &[])]),
        ann(vec![person(1, "ANN", &[(3, "7")])]),
        ann(vec![person(1, "Ann", &[]), person(6, "Desk", &[])]),
        ann(vec![person(1, "Ann", &[]), alias(6, "Desk", &["Staff", "Bob"])]),
    ];
    let names: [&[&str]; 8] = [
        &["staff", "nan"],
        &["staff", "nan", "desk"],
        &["staff", "nan", "x"],
        &["Desk"],
        &["desk", "x"],
        &["crew", "nan"],
        &["Crew"],
        &[],
    ];
    for (place, world) in hidden.iter().enumerate() {
        let differs = names.iter().any(|name| {
            let mut requests = requests(name).map(|(request, _)| request).to_vec();
            requests.push(search(name, 2, 0, everything()));
            requests.iter().any(|asked| test.reply(world, asked) != test.reply(&absent, asked))
        });
        // A hidden alias is no secret: who asks for it is led to Bob.
        let told = place == 3;
        test.check(differs == told, &format!("behind an alias: world {place} differs {differs}"));
    }
}

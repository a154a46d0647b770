//! The examples of document 01, each through the server.

use harness::explicit::{asking, deny, grant, named, person, search_root, Explicit, Situation};
use harness::limits::{deep_directory, open, open_permissions, wide_directory};
use peer::builder::{
    EntryLines, FilterLines, ItemLines, OperationLines, RequestSheet, Selected, Thing, User,
};
use peer::caller::{Call, Caller};
use peer::form::Form;
use std::process::ExitCode;

fn main() -> ExitCode {
    let mut test = Explicit::new("thirteen_examples");
    for form in Form::ALL {
        test.call = Call::new(Caller::Exchange, form);
        truth_values(&mut test);
        decisions(&mut test);
        values(&mut test);
        counts(&mut test);
        printed(&mut test);
    }
    test.finish()
}

fn truth_values(test: &mut Explicit) {
    let world = Situation::new(vec![person(0, "Ann", &[])], open());
    let truth = || FilterLines::Present(2);
    let falsehood = || FilterLines::Present(3);
    let undefined = || FilterLines::Present(7);
    test.expect_truth("true", &world, truth(), 'T');
    test.expect_truth("false", &world, falsehood(), 'F');
    test.expect_truth("undefined", &world, undefined(), 'U');
    let and = |parts| FilterLines::And(parts);
    test.expect_truth("1", &world, and(vec![undefined(), truth()]), 'U');
    test.expect_truth("2", &world, and(vec![undefined(), falsehood()]), 'F');
    test.expect_truth("3, and", &world, and(vec![]), 'T');
    test.expect_truth("3, or", &world, FilterLines::Or(vec![]), 'F');
    test.expect_truth("4", &world, FilterLines::Not(Box::new(undefined())), 'U');
}

fn decisions(test: &mut Explicit) {
    let to_ann = |item: ItemLines| ItemLines { who: User::Named(named(&["Ann"])), ..item };
    let grant = |precedence| grant(precedence, Thing::Entry, 1);
    let deny = |precedence| deny(precedence, Thing::Entry, 1);
    for (what, items, granted) in [
        ("5", vec![grant(10), deny(10)], false),
        ("6", vec![to_ann(grant(10)), deny(10)], true),
        ("7", vec![to_ann(grant(10)), deny(11)], false),
        ("8", vec![], false),
    ] {
        let world = Situation::new(vec![person(0, "Ann", &[])], items);
        let selected = Selected { types: Some(vec![]), values: false };
        let request = RequestSheet {
            requester: named(&["Ann"]),
            ..asking(named(&["Ann"]), OperationLines::Read(selected))
        };
        let text = if granted {
            "    30     1     0     0     0\n    33     0     0     0     0\n"
        } else {
            "    30     1     1     0     0\n"
        };
        test.answers(what, &world, &request, text);
    }
}

fn values(test: &mut Explicit) {
    let world = Situation::new(vec![person(0, "banana", &[(3, "-10")])], open());
    let below = FilterLines::AtMost(3, b"-9".to_vec());
    let above = FilterLines::AtLeast(3, b"-9".to_vec());
    test.expect_truth("9, at most -9", &world, below, 'T');
    test.expect_truth("9, at least -9", &world, above, 'F');
    let pieces = |count| FilterLines::Substrings(2, vec![(1, b"ana".to_vec()); count]);
    test.expect_truth("10, once", &world, pieces(1), 'T');
    test.expect_truth("10, twice", &world, pieces(2), 'F');
    for wrong in ["-0", "9223372036854775808"] {
        let world = Situation::new(vec![person(0, "Ann", &[(3, wrong)])], open());
        let (dir, perm) = (&world.directory, &world.permissions);
        test.expect(&format!("11, {wrong}"), 4, dir, perm, b"");
    }
}

fn counts(test: &mut Explicit) {
    let list = |limit| asking(vec![], OperationLines::List { limit });
    let perm = open_permissions();
    test.expect("12, 256 entries", 0, &wide_directory(256), &perm, &list(0));
    test.expect("12, 257 entries", 3, &wide_directory(257), &perm, &list(0));
    test.expect("12, depth 8", 0, &deep_directory(8), &perm, &list(0));
    test.expect("12, depth 9", 3, &deep_directory(9), &perm, &list(0));
    for (count, cut) in [(2, '0'), (3, '1')] {
        let (reply, sound) = test.ask(&wide_directory(count), &perm, &list(2), test.room());
        let good = sound && reply.is_ok_and(|answer| test.digit(&answer, 3) == cut);
        test.check(good, &format!("12, limit 2 with {count}"));
    }
    test.expect("12, empty directory", 0, b"", &perm, &list(0));
    test.expect("12, empty request", 23, b"", &perm, b"");
}

fn printed(test: &mut Explicit) {
    let person = |name: &str, number: &str| {
        let mut entry = EntryLines::bare(0, 3, name.as_bytes());
        entry.values.push((5, number.as_bytes().to_vec()));
        entry
    };
    let bob = ItemLines {
        subtree: false,
        base: vec![(3, b"Bob".to_vec())],
        ..deny(10, Thing::Entry, 15)
    };
    let mut world = Situation::default();
    world.directory.types = vec![(3, 1), (5, 2)];
    world.directory.entries = vec![person("Ann", "-7"), person("Bob", "12")];
    world.permissions.items =
        vec![grant(0, Thing::Entry, 7), grant(0, Thing::AllTypesAndValues, 33), bob];
    let text = "    30     4     0     0     0
    33     0     1     0     0
     9     3     0     0     3Ann
    34     3     1     0     0
    35     0     0     0     3Ann
    34     5     1     0     0
    35     0     0     0     2-7
";
    test.answers("13", &world, &search_root(2, FilterLines::Present(5)), text);
}

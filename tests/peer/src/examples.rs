//! The examples 1 to 13 of document 01.

use crate::builder::*;
use crate::filter::{and, not, or, Truth};
use crate::form::Form;
use crate::serve;
use crate::value::{substrings, Piece, Place, Syntax, Value};
use std::cmp::Ordering;

#[test]
fn example_1_and_of_undefined_and_true_is_undefined() {
    assert_eq!(and([Truth::Undefined, Truth::True]), Truth::Undefined);
}

#[test]
fn example_2_and_of_undefined_and_false_is_false() {
    assert_eq!(and([Truth::Undefined, Truth::False]), Truth::False);
}

#[test]
fn example_3_empty_and_is_true_empty_or_false() {
    assert_eq!(and([]), Truth::True);
    assert_eq!(or([]), Truth::False);
}

#[test]
fn example_4_not_keeps_undefined() {
    assert_eq!(not(Truth::Undefined), Truth::Undefined);
}

/// Whether user Ann may read the entry Ann under these items.
fn may_read(items: Vec<ItemLines>) -> bool {
    let ann = vec![(3, b"Ann".to_vec())];
    let directory =
        DirectorySheet { types: vec![(3, 1)], entries: vec![EntryLines::bare(0, 3, b"Ann")] };
    let request = RequestSheet {
        level: 0,
        edition: 0,
        requester: ann.clone(),
        name: ann,
        operation: OperationLines::Read(Selected { types: Some(vec![]), values: false }),
    };
    let permissions = PermissionSheet { items };
    let answer = serve(
        &directory.to_bytes(Form::Narrow),
        &permissions.to_bytes(Form::Narrow),
        &request.to_bytes(Form::Narrow),
        65_536,
    );
    match &answer.unwrap()[..30] {
        b"    30     1     0     0     0" => true,
        b"    30     1     1     0     0" => false,
        line => panic!("{}", String::from_utf8_lossy(line)),
    }
}

fn grant(precedence: u32) -> ItemLines {
    ItemLines::everywhere(precedence, true, Thing::Entry, 1)
}

fn denial(precedence: u32) -> ItemLines {
    ItemLines::everywhere(precedence, false, Thing::Entry, 1)
}

fn grant_to_ann(precedence: u32) -> ItemLines {
    ItemLines { who: User::Named(vec![(3, b"ANN".to_vec())]), ..grant(precedence) }
}

#[test]
fn example_5_a_denial_beats_a_grant_of_its_rank() {
    assert!(!may_read(vec![grant(10), denial(10)]));
    assert!(!may_read(vec![denial(10), grant(10)]));
    assert!(may_read(vec![grant(10)]));
}

#[test]
fn example_6_a_grant_for_the_named_user_is_more_specific() {
    assert!(may_read(vec![grant_to_ann(10), denial(10)]));
    assert!(may_read(vec![denial(10), grant_to_ann(10)]));
}

#[test]
fn example_7_the_higher_precedence_decides() {
    assert!(!may_read(vec![grant_to_ann(10), denial(11)]));
    assert!(!may_read(vec![denial(11), grant_to_ann(10)]));
}

#[test]
fn example_8_without_items_all_is_refused() {
    assert!(!may_read(vec![]));
}

#[test]
fn example_9_integers_are_ordered_by_number() {
    let ten = Value::new(Syntax::Integer, b"-10").unwrap();
    let nine = Value::new(Syntax::Integer, b"-9").unwrap();
    assert_eq!(ten.compare(&nine), Some(Ordering::Less));
}

#[test]
fn example_10_pieces_do_not_overlap() {
    let text = |bytes| Value::new(Syntax::Text, bytes).unwrap();
    let ana = |count| vec![Piece::new(Place::Any, &text(b"ana")); count];
    assert!(substrings(&text(b"banana"), &ana(1)));
    assert!(!substrings(&text(b"banana"), &ana(2)));
    assert!(substrings(&text(b"bananAna"), &ana(2)));
}

#[test]
fn example_11_no_integers() {
    assert!(Value::new(Syntax::Integer, b"-0").is_none());
    assert!(Value::new(Syntax::Integer, b"9223372036854775808").is_none());
}

fn list_of_root(limit: u32) -> Vec<u8> {
    let (requester, name) = (Vec::new(), Vec::new());
    let operation = OperationLines::List { limit };
    RequestSheet { level: 0, edition: 0, requester, name, operation }.to_bytes(Form::Narrow)
}

fn browse_all() -> Vec<u8> {
    PermissionSheet { items: vec![ItemLines::everywhere(0, true, Thing::Entry, 6)] }
        .to_bytes(Form::Narrow)
}

#[test]
fn example_12_entries() {
    let wide = |count: u32| {
        let name = |number: u32| number.to_string().into_bytes();
        let entries = (1..=count).map(|number| EntryLines::bare(0, 1, &name(number))).collect();
        DirectorySheet { types: vec![(1, 0)], entries }.to_bytes(Form::Narrow)
    };
    assert!(serve(&wide(256), &browse_all(), &list_of_root(0), 65_536).is_ok());
    assert_eq!(serve(&wide(257), &browse_all(), &list_of_root(0), 65_536), Err(3));
}

#[test]
fn example_12_depth() {
    let deep = |depth: u32| {
        let entries = (0..depth).map(|parent| EntryLines::bare(parent, 1, b"x")).collect();
        DirectorySheet { types: vec![(1, 0)], entries }.to_bytes(Form::Narrow)
    };
    assert!(serve(&deep(8), &browse_all(), &list_of_root(0), 65_536).is_ok());
    assert_eq!(serve(&deep(9), &browse_all(), &list_of_root(0), 65_536), Err(3));
}

#[test]
fn example_12_size_limit() {
    let cut = |count: u8| {
        let entries = (0..count).map(|name| EntryLines::bare(0, 1, &[name])).collect();
        let directory = DirectorySheet { types: vec![(1, 0)], entries }.to_bytes(Form::Narrow);
        let answer = serve(&directory, &browse_all(), &list_of_root(2), 65_536).unwrap();
        let lines = answer.iter().filter(|&&byte| byte == b'\n').count();
        (answer[23], lines)
    };
    assert_eq!(cut(2), (b'0', 3));
    assert_eq!(cut(3), (b'1', 3));
}

#[test]
fn example_12_empty_sheets() {
    let nothing = b"    30     3     1     0     0\n".to_vec();
    assert_eq!(serve(b"", b"", &list_of_root(0), 65_536), Ok(nothing));
    assert_eq!(serve(b"", b"", b"", 65_536), Err(23));
}

#[test]
fn example_13_prints() {
    let person = |name: &str, number: &str| {
        let mut entry = EntryLines::bare(0, 3, name.as_bytes());
        entry.values.push((5, number.as_bytes().to_vec()));
        entry
    };
    let directory = DirectorySheet {
        types: vec![(3, 1), (5, 2)],
        entries: vec![person("Ann", "-7"), person("Bob", "12")],
    };
    let permissions = PermissionSheet {
        items: vec![
            ItemLines::everywhere(0, true, Thing::Entry, 7),
            ItemLines::everywhere(0, true, Thing::AllTypesAndValues, 33),
            ItemLines {
                subtree: false,
                base: vec![(3, b"Bob".to_vec())],
                ..ItemLines::everywhere(10, false, Thing::Entry, 15)
            },
        ],
    };
    let request = RequestSheet {
        level: 0,
        edition: 0,
        requester: vec![],
        name: vec![],
        operation: OperationLines::Search {
            limit: 0,
            selected: Selected::ALL,
            order: None,
            subset: 2,
            filter: FilterLines::Present(5),
        },
    };
    let printed = "    30     4     0     0     0
    33     0     1     0     0
     9     3     0     0     3Ann
    34     3     1     0     0
    35     0     0     0     3Ann
    34     5     1     0     0
    35     0     0     0     2-7
";
    let (dir, perm, req) = (
        directory.to_bytes(Form::Narrow),
        permissions.to_bytes(Form::Narrow),
        request.to_bytes(Form::Narrow),
    );
    assert_eq!(serve(&dir, &perm, &req, 65_536), Ok(printed.as_bytes().to_vec()));
    assert!(serve(&dir, &perm, &req, printed.len()).is_ok());
    assert_eq!(serve(&dir, &perm, &req, printed.len() - 1), Err(31));
}

//! Refusal 33 and a panel's lent buffer.

use harness::explicit::{asking, Explicit};
use harness::lent::MAX_ROOM;
use harness::limits::{large_directory, open_permissions, search, wide_directory};
use harness::written::Written;
use peer::builder::{FilterLines, OperationLines, RequestSheet};
use peer::caller::Caller;

/// Buffers that a panel may not lend.
const TOO_LONG: [usize; 5] = [1_025, 1_026, 2_048, 65_536, MAX_ROOM];

pub fn run(test: &mut Explicit) {
    test.call.caller = Caller::Panel;
    lengths(test);
    before_any_sheet(test);
    test.call.caller = Caller::Exchange;
    exchange(test);
}

fn list(limit: u32) -> RequestSheet {
    asking(vec![], OperationLines::List { limit })
}

fn lengths(test: &mut Explicit) {
    let perm = open_permissions();
    let dir = wide_directory(6);
    // Line 30 and five lines of 4 bytes each.
    let line = test.form().line();
    let length = line + 5 * (line + 4);
    for (room, refusal) in [
        (0, 31),
        (line, 31),
        (length - 1, 31),
        (length, 0),
        (length + 1, 0),
        (1_023, 0),
        (1_024, 0),
    ] {
        let what = format!("five of six in {room} bytes");
        test.expect_in(room, &what, refusal, &dir, &perm, &list(0));
    }
    for room in TOO_LONG {
        test.expect_in(room, &format!("list in {room} bytes"), 33, &dir, &perm, &list(0));
    }
    for (limit, length) in [(1, 2 * line + 4), (4, line + 4 * (line + 4)), (6, length)] {
        for (room, refusal) in [(length, 0), (length - 1, 31)] {
            let what = format!("limit {limit} in {room} bytes");
            test.expect_in(room, &what, refusal, &dir, &perm, &list(limit));
        }
    }
    // Each entry at depth 8 takes more than 400 bytes to print.
    let mut deep = search(FilterLines::Present(1));
    deep.name = vec![(1, b"d".to_vec()); 7];
    let dir = large_directory();
    test.expect_in(1_024, "an answer longer than 1,024 bytes", 31, &dir, &perm, &deep);
    test.expect_in(1_025, "the same in 1,025 bytes", 33, &dir, &perm, &deep);
}

fn before_any_sheet(test: &mut Explicit) {
    let long = vec![b' '; 65_537];
    let list = list(0);
    let clash = wide_directory(257);
    for (what, dir, perm, req, refusal) in [
        (
            "directory too long",
            &long as &dyn Written,
            b"" as &dyn Written,
            &list as &dyn Written,
            1,
        ),
        ("wrong directory", b"x", b"", &list, 2),
        ("257 entries", &clash, b"", &list, 3),
        ("permissions too long", b"", &long, &list, 11),
        ("wrong permissions", b"", b"x", &list, 12),
        ("request too long", b"", b"", &long, 21),
        ("wrong request", b"", b"", b"x", 22),
        ("empty request", b"", b"", b"", 23),
        ("all wrong", b"x", b"x", b"x", 2),
        ("nothing to return", b"", b"", &list, 0),
    ] {
        test.expect_in(1_024, &format!("{what}, 1,024 bytes"), refusal, dir, perm, req);
        for room in TOO_LONG {
            test.expect_in(room, &format!("{what}, {room} bytes"), 33, dir, perm, req);
        }
    }
}

/// The exchange may lend more, and gets more.
fn exchange(test: &mut Explicit) {
    let perm = open_permissions();
    let dir = wide_directory(6);
    let line = test.form().line();
    let length = line + 6 * (line + 4);
    for (room, refusal) in [(length - 1, 31), (length, 0), (1_024, 0), (1_025, 0), (MAX_ROOM, 0)] {
        test.expect_in(room, &format!("six in {room} bytes"), refusal, &dir, &perm, &list(0));
    }
}

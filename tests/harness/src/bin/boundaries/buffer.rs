//! Refusal 31 and the lent buffer.

use harness::explicit::{asking, Explicit};
use harness::lent::MAX_ROOM;
use harness::limits::{large_directory, open_permissions, search, wide_directory};
use harness::written::Written;
use peer::builder::{FilterLines, OperationLines};

pub fn run(test: &mut Explicit) {
    let perm = open_permissions();
    let list = asking(vec![], OperationLines::List { limit: 0 });
    let dir = wide_directory(3);
    // Line 30 and three lines of 4 bytes each.
    let line = test.form().line();
    let length = line + 3 * (line + 4);
    for (room, refusal) in [
        (length + 1, 0),
        (length, 0),
        (length - 1, 31),
        (length - line - 4, 31),
        (line, 31),
        (1, 31),
        (0, 31),
    ] {
        test.expect_in(room, &format!("list in {room} bytes"), refusal, &dir, &perm, &list);
    }
    for (room, refusal) in [(line + 1, 0), (line, 0), (line - 1, 31), (0, 31)] {
        test.expect_in(room, &format!("noSuchObject in {room} bytes"), refusal, b"", b"", &list);
    }
    let dir = large_directory();
    let all = search(FilterLines::Present(1));
    let (reply, sound) = test.ask(&dir, &perm, &all, MAX_ROOM);
    let length = reply.map_or(0, |answer| answer.len());
    test.check(sound && length > 65_536, "an answer longer than 65,536 bytes");
    for (room, refusal) in [(length, 0), (length.saturating_sub(1), 31), (65_536, 31), (0, 31)] {
        test.expect_in(room, &format!("long answer in {room} bytes"), refusal, &dir, &perm, &all);
    }
    for (what, dir, perm, req, refusal) in [
        ("directory", b"x" as &dyn Written, b"" as &dyn Written, &list as &dyn Written, 2),
        ("permissions", b"", b"x", &list, 12),
        ("request", b"", b"", b"x", 22),
    ] {
        for room in [0, 1, line, 65_536] {
            test.expect_in(room, &format!("wrong {what}, {room} bytes"), refusal, dir, perm, req);
        }
    }
}

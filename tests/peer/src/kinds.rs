//! Which kinds a sheet has, and which columns each kind allows wherever it stands.

use crate::fault::{planted, Fault};
use crate::form::Form;
use crate::sheet::{Line, Reason};

pub const MAX_PARTS: u32 = 8;

pub fn in_directory(kind: u32) -> bool {
    matches!(kind, 1..=3 | 9 | 36) || (kind == 16 && planted(Fault::OrderInDirectoryMisplaced))
}

pub fn in_permissions(kind: u32) -> bool {
    matches!(kind, 4..=9)
        || (kind == 36 && planted(Fault::TargetInPermissionsMisplaced))
        || (kind == 16 && planted(Fault::OrderInPermissionsMisplaced))
}

pub fn in_request(kind: u32) -> bool {
    matches!(kind, 9..=16 | 20..=28) || (kind == 36 && planted(Fault::TargetInRequestMisplaced))
}

/// `NotAllowed` unless the sheet has the kind and every column is in its range. The parent
/// number of an entry depends on the entry's own number and is left to the directory.
pub fn check(form: Form, line: &Line, sheet_has: fn(u32) -> bool) -> Result<(), Reason> {
    if sheet_has(line.kind) && (columns_allowed(form, line) || wrongly_allowed(form, line)) {
        Ok(())
    } else if !sheet_has(line.kind) && planted(Fault::ForeignKindOutOfOrder) {
        Err(Reason::OutOfOrder)
    } else {
        Err(Reason::NotAllowed)
    }
}

fn columns_allowed(form: Form, line: &Line) -> bool {
    let is_type = |number: u32| (1..=form.top_type()).contains(&number);
    let Line { kind, a, b, c, bytes } = *line;
    let bare = bytes.is_empty();
    match kind {
        1 => is_type(a) && b <= 2 && c == 0 && bare,
        2 => is_type(b) && c <= 1,
        3 | 9 | 14 | 23..=25 => is_type(a) && b == 0 && c == 0,
        4 => a <= 255 && b <= 2 && c <= 1 && bare,
        5 => a <= 1 && b <= MAX_PARTS && c == 0 && bare,
        6 => a <= 3 && b <= MAX_PARTS && (b == 0 || a == 1 || a == 3) && c == 0 && bare,
        7 => {
            let names_type = matches!(a, 3..=5);
            a <= 5 && (if names_type { is_type(b) } else { b == 0 }) && c == 0 && (a == 5 || bare)
        }
        8 => (1..=63).contains(&a) && b == 0 && c == 0 && bare,
        10 => a <= 2 && b <= MAX_PARTS && c <= 1 && bare,
        11 => (1..=4).contains(&a) && b <= MAX_PARTS && (c == 0 || a >= 3) && bare,
        12 => a <= 1 && b <= 16 && (b == 0 || a == 1) && c <= 1 && bare,
        13 | 26 => is_type(a) && b == 0 && c == 0 && bare,
        15 => a <= 2 && b == 0 && c == 0 && bare,
        16 => is_type(a) && b <= 1 && c == 0 && bare,
        20 | 21 => a <= 127 && b == 0 && c == 0 && bare,
        22 => a == 0 && b == 0 && c == 0 && bare,
        27 => is_type(a) && (1..=8).contains(&b) && c == 0 && bare,
        28 => a <= 2 && b == 0 && c == 0 && !bare,
        36 => a == 0 && (1..=MAX_PARTS).contains(&b) && c == 0 && bare,
        _ => false,
    }
}

/// Columns that only a planted fault lets pass.
fn wrongly_allowed(form: Form, line: &Line) -> bool {
    let above = form.top_type() + 1;
    let Line { kind, a, b, c, bytes } = *line;
    match (kind, a, b, c) {
        (2, _, 1..=999, 2) => planted(Fault::AliasMarkTwoAccepted),
        (36, 0, 0, 0) => planted(Fault::TargetOfNoPartsAccepted) && bytes.is_empty(),
        (36, 0, 9, 0) => planted(Fault::TargetOfNinePartsAccepted) && bytes.is_empty(),
        (4, 256, 0..=2, 0..=1) => planted(Fault::Precedence256Accepted) && bytes.is_empty(),
        (4, 0..=255, 3, 0..=1) => planted(Fault::LevelThreeAccepted) && bytes.is_empty(),
        (6, 0 | 2, 1..=8, 0) => planted(Fault::NameForAllUsersAccepted) && bytes.is_empty(),
        (8, 64, 0, 0) => planted(Fault::Mask64Accepted) && bytes.is_empty(),
        (8, 0, 0, 0) => planted(Fault::EmptyMaskAccepted) && bytes.is_empty(),
        (3 | 9 | 14, _, 0, 0) if a == above => planted(Fault::TypeAboveTopIsUnknown),
        (1, _, 0..=2, 0) if a == above && form.is_wide() => {
            planted(Fault::WideTypeOfEightDigits) && bytes.is_empty()
        }
        (5 | 10, 0..=1, 9, 0) => planted(Fault::NineParts) && bytes.is_empty(),
        (10, 0..=2, 0..=8, 2) => planted(Fault::EditionTwoAccepted) && bytes.is_empty(),
        (11, 1 | 2, 0..=8, _) => planted(Fault::LimitOnReadAccepted) && bytes.is_empty(),
        (12, 1, 17, 0..=1) => planted(Fault::ListOf17Accepted) && bytes.is_empty(),
        (12, 0, 1..=16, 0..=1) => planted(Fault::ListWithAllTypesAccepted) && bytes.is_empty(),
        (16, 1..=999, 2, 0) => planted(Fault::OrderOfTwoAccepted) && bytes.is_empty(),
        (20 | 21, 128, 0, 0) => planted(Fault::PartsOf128Accepted) && bytes.is_empty(),
        (22, 1, 0, 0) => planted(Fault::NotWithACountAccepted) && bytes.is_empty(),
        (27, 1..=999, 0 | 9, 0) => planted(Fault::NinePiecesAccepted) && bytes.is_empty(),
        (28, 0..=2, 0, 0) => planted(Fault::EmptyPieceAccepted),
        _ => false,
    }
}

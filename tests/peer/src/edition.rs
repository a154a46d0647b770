//! The filter's operators in the later logic and in the first edition.

use crate::fault::{planted, Fault};
use crate::filter::{and, not, or, Truth};
use crate::sheet::Line;

/// The text that a requester's handset follows.
#[derive(Clone, Copy, Debug, PartialEq, Eq)]
pub enum Edition {
    Later,
    First,
}

impl Edition {
    /// C of line 10.
    pub fn of(line: &Line) -> Self {
        let first = match () {
            _ if planted(Fault::FirstEditionForAll) => true,
            _ if planted(Fault::FirstEditionForNobody) => false,
            _ if planted(Fault::EditionFromLevel) => line.a == 1,
            _ if planted(Fault::EditionFromParts) => line.b == 1,
            _ => line.c == 1,
        };
        if first {
            Edition::First
        } else {
            Edition::Later
        }
    }

    pub fn and(self, parts: impl Iterator<Item = Truth>) -> Truth {
        match self {
            Edition::First if !planted(Fault::FirstAndByLaterLogic) => first_and(parts),
            _ => and(parts),
        }
    }

    pub fn or(self, parts: impl Iterator<Item = Truth>) -> Truth {
        match self {
            Edition::First if !planted(Fault::FirstOrByLaterLogic) => first_or(parts),
            _ => or(parts),
        }
    }

    /// Not keeps undefined in both.
    pub fn not(self, part: Truth) -> Truth {
        match (self, part) {
            (Edition::First, Truth::Undefined) if planted(Fault::FirstNotUndefinedIsTrue) => {
                Truth::True
            }
            (Edition::First, Truth::Undefined) if planted(Fault::FirstNotUndefinedIsFalse) => {
                Truth::False
            }
            _ => not(part),
        }
    }
}

/// True unless a part is false, if not all are undefined.
fn first_and(parts: impl Iterator<Item = Truth>) -> Truth {
    let parts: Vec<Truth> = parts.collect();
    let undefined = all_undefined(&parts, Fault::FirstEmptyAndUndefined);
    if undefined && !planted(Fault::FirstAndUndefinedIsTrue) {
        return Truth::Undefined;
    }
    (!parts.contains(&Truth::False)).into()
}

/// False unless a part is true, if not all are undefined.
fn first_or(parts: impl Iterator<Item = Truth>) -> Truth {
    let parts: Vec<Truth> = parts.collect();
    let undefined = all_undefined(&parts, Fault::FirstEmptyOrUndefined);
    if undefined && !planted(Fault::FirstOrUndefinedIsFalse) {
        return Truth::Undefined;
    }
    parts.contains(&Truth::True).into()
}

/// One or more parts, all undefined; no parts only with the fault.
fn all_undefined(parts: &[Truth], of_none: Fault) -> bool {
    let some = !parts.is_empty() || planted(of_none);
    some && parts.iter().all(|&part| part == Truth::Undefined)
}

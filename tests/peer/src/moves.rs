//! A directory sheet moved from one form to the other.

use crate::directory::{Directory, MAX_LENGTH};
use crate::fault::{planted, Fault};
use crate::form::Form;
use crate::sheet::{append, Line, Lines};

/// Refusal on the way back: a type above 999.
pub const TYPE_TOO_HIGH: u32 = 35;

/// Refusal of a move: the moved sheet does not fit the lent buffer, or is longer than a directory
/// may be.
pub const MOVED_TOO_LONG: u32 = 36;

#[derive(Clone, Copy, Debug, PartialEq, Eq, PartialOrd, Ord)]
pub enum Way {
    /// To nine columns.
    There,
    /// To six.
    Back,
}

impl Way {
    pub const ALL: [Way; 2] = [Way::There, Way::Back];

    pub fn from(self) -> Form {
        match self {
            Way::There => Form::Narrow,
            Way::Back => Form::Wide,
        }
    }

    pub fn to(self) -> Form {
        self.from().other()
    }

    pub fn turned(self) -> Self {
        match self {
            Way::There => Way::Back,
            Way::Back => Way::There,
        }
    }
}

/// The sheet in the other form, or the refusal number. `room` is the length of the lent buffer.
pub fn moved(way: Way, sheet: &[u8], room: usize) -> Result<Vec<u8>, u32> {
    let highest = highest_type(way, sheet)?;
    let longest = match () {
        _ if planted(Fault::MovedLengthUnlimited) => usize::MAX,
        _ if planted(Fault::Moved65537Accepted) => MAX_LENGTH + 1,
        _ if planted(Fault::Moved65536Refused) => MAX_LENGTH - 1,
        _ => MAX_LENGTH,
    };
    let moved = rewritten(way, sheet);
    let fits = match () {
        _ if planted(Fault::MovedEqualLengthRefused) => moved.len() < room,
        _ if planted(Fault::MovedRoomByOldLength) => sheet.len() <= room,
        _ if planted(Fault::MovedRoomUnjudged) => true,
        _ => moved.len() <= room,
    };
    let short = !fits || moved.len() > longest;
    let high = match () {
        _ if planted(Fault::HighTypesMovedBack) => false,
        _ if planted(Fault::Type999NotMovedBack) => highest >= 999,
        _ if planted(Fault::Type1000MovedBack) => highest > 1000,
        _ => highest > Form::Narrow.top_type(),
    };
    match (high, short) {
        (true, true) if planted(Fault::MovedLengthBeforeTypes) => Err(MOVED_TOO_LONG),
        (true, _) => Err(TYPE_TOO_HIGH),
        (_, true) => Err(MOVED_TOO_LONG),
        _ => Ok(moved),
    }
}

/// The highest type of a sheet that gets none of 1 to 6.
fn highest_type(way: Way, sheet: &[u8]) -> Result<u32, u32> {
    let form = if planted(Fault::MoveJudgesOtherForm) { way.to() } else { way.from() };
    let lines = || Lines::new(way.from(), sheet).map_while(Result::ok);
    match Directory::decode(form, sheet) {
        Ok(directory) => Ok(directory.schema.highest()),
        Err(reason) => {
            let early = planted(Fault::HighTypesBeforeLines) && way == Way::Back;
            if early && lines().any(|line| line.kind == 1 && line.a > 999) {
                return Err(TYPE_TOO_HIGH);
            }
            let unjudged = match () {
                _ if planted(Fault::MoveUnjudged) => true,
                _ if planted(Fault::MoveJudgesFormAlone) => reason as u32 > 2,
                _ if planted(Fault::MoveJudgesNoNaming) => reason as u32 == 6,
                _ => false,
            };
            let whole = lines().map(|line| form.line() + line.bytes.len()).sum::<usize>();
            if unjudged && whole == sheet.len() {
                Ok(lines().filter(|line| line.kind == 1).map(|line| line.a).max().unwrap_or(0))
            } else {
                Err(reason as u32)
            }
        }
    }
}

/// Each line again, in the columns of the other form.
fn rewritten(way: Way, sheet: &[u8]) -> Vec<u8> {
    let mut moved = Vec::new();
    for line in Lines::new(way.from(), sheet).map_while(Result::ok) {
        let bytes = match way {
            Way::Back if planted(Fault::MoveTrimsValues) => line.bytes.trim_ascii_end(),
            _ => line.bytes,
        };
        append(&mut moved, way.to(), &Line { bytes, ..line });
    }
    moved
}

#[cfg(test)]
mod tests {
    use super::*;
    use crate::builder::{DirectorySheet, EntryLines};

    fn directory(highest: u32) -> DirectorySheet {
        let types = vec![(3, 1), (highest, 2)];
        DirectorySheet { types, entries: vec![EntryLines::bare(0, 3, b"Ann")] }
    }

    #[test]
    fn there_and_back() {
        let [narrow, wide] = Form::ALL.map(|form| directory(999).to_bytes(form));
        assert_eq!(moved(Way::There, &narrow, wide.len()), Ok(wide.clone()));
        assert_eq!(moved(Way::Back, &wide, narrow.len()), Ok(narrow.clone()));
        assert_eq!(moved(Way::There, &narrow, wide.len() - 1), Err(36));
        assert_eq!(moved(Way::Back, &wide, narrow.len() - 1), Err(36));
        assert_eq!(moved(Way::There, b"", 0), Ok(Vec::new()));
    }

    #[test]
    fn high_types_do_not_come_back() {
        for highest in [1_000, 9_999_999] {
            assert_eq!(moved(Way::Back, &directory(highest).to_bytes(Form::Wide), 0), Err(35));
        }
        assert_eq!(moved(Way::Back, &directory(10_000_000).to_bytes(Form::Wide), 0), Err(2));
    }
}

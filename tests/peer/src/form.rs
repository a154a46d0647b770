//! The two forms of every sheet: how wide a column is, and how high types go.

use crate::fault::{planted, Fault};

#[derive(Clone, Copy, Debug, PartialEq, Eq, PartialOrd, Ord)]
pub enum Form {
    /// Six columns a number, types to 999.
    Narrow,
    /// Nine columns a number, types to 9,999,999.
    Wide,
}

impl Form {
    pub const ALL: [Form; 2] = [Form::Narrow, Form::Wide];

    pub fn of(wide: bool) -> Self {
        if wide {
            Form::Wide
        } else {
            Form::Narrow
        }
    }

    pub fn is_wide(self) -> bool {
        self == Form::Wide
    }

    pub fn other(self) -> Self {
        Form::of(!self.is_wide())
    }

    /// Columns of a number.
    pub fn column(self) -> usize {
        match self {
            Form::Narrow => 6,
            Form::Wide if planted(Fault::EightColumns) => 8,
            Form::Wide => 9,
        }
    }

    /// Bytes of a line before its value.
    pub fn head(self) -> usize {
        5 * self.column()
    }

    /// Bytes of a line without a value.
    pub fn line(self) -> usize {
        self.head() + 1
    }

    /// Where the last digit of a number stands: the kind's 0, A 1, B 2, C 3, L 4.
    pub fn digit(self, number: usize) -> usize {
        (number + 1) * self.column() - 1
    }

    /// The highest type.
    pub fn top_type(self) -> u32 {
        match self {
            Form::Narrow => 999,
            Form::Wide if planted(Fault::WideTopTypeKept) => 999,
            Form::Wide if planted(Fault::WideTopTypeSixDigits) => 999_999,
            Form::Wide => 9_999_999,
        }
    }

    /// The highest number that a column holds.
    pub fn top_number(self) -> u32 {
        match self {
            Form::Narrow => 999_999,
            Form::Wide => 999_999_999,
        }
    }

    /// A sheet's most bytes: the same in both forms, but for a planted fault.
    pub fn longest(self, bytes: usize) -> usize {
        if self.is_wide() && planted(Fault::WideSheetsLonger) {
            bytes / 2 * 3
        } else {
            bytes
        }
    }
}

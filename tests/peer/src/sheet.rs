//! Lines: five numbers in columns, the bytes, byte 10.

use crate::fault::{planted, Fault};
use crate::form::Form;

pub const MAX_BYTES: u32 = 64;

/// Why a sheet is refused, in the order in which the numbers rise.
#[derive(Clone, Copy, Debug, PartialEq, Eq, PartialOrd, Ord)]
#[repr(u32)]
pub enum Reason {
    TooLong = 1,
    /// A line not in form, or a kind or column not allowed.
    NotAllowed = 2,
    /// A line out of order, missing, or over a count.
    OutOfOrder = 3,
    /// Unknown type, or value outside its syntax.
    NotInSchema = 4,
    /// Siblings of one name, or one value twice in a type.
    Twice = 5,
    NamingValueNotHeld = 6,
}

#[derive(Clone, Copy, Debug)]
pub struct Line<'a> {
    pub kind: u32,
    pub a: u32,
    pub b: u32,
    pub c: u32,
    pub bytes: &'a [u8],
}

/// Takes lines off the front of a sheet. A line not in form is `NotAllowed`.
pub struct Lines<'a> {
    form: Form,
    rest: &'a [u8],
}

impl<'a> Lines<'a> {
    pub fn new(form: Form, sheet: &'a [u8]) -> Self {
        Lines { form, rest: sheet }
    }
}

impl<'a> Iterator for Lines<'a> {
    type Item = Result<Line<'a>, Reason>;

    fn next(&mut self) -> Option<Self::Item> {
        if self.rest.is_empty() {
            return None;
        }
        match take(self.form, self.rest) {
            Some((line, rest)) => {
                self.rest = rest;
                Some(Ok(line))
            }
            None if planted(Fault::BrokenLineIsMissing) && self.rest.len() < self.form.line() => {
                None
            }
            None => {
                self.rest = &[];
                Some(Err(Reason::NotAllowed))
            }
        }
    }
}

fn take(form: Form, sheet: &[u8]) -> Option<(Line<'_>, &[u8])> {
    let (head, rest) = sheet.split_at_checked(form.head())?;
    let mut columns = [0; 5];
    for (number, digits) in columns.iter_mut().zip(head.chunks_exact(form.column())) {
        *number = column(digits)?;
    }
    let [kind, a, b, c, length] = columns;
    if length > MAX_BYTES && !(planted(Fault::LongLineAccepted) && length == 65) {
        return None;
    }
    let length = length as usize;
    if rest.len() <= length || (rest[length] != b'\n' && !planted(Fault::LineEndUnchecked)) {
        return None;
    }
    let bytes = &rest[..length];
    Some((Line { kind, a, b, c, bytes }, &rest[length + 1..]))
}

/// One column: spaces, then a decimal number without leading zero.
fn column(digits: &[u8]) -> Option<u32> {
    let spaces = digits.iter().take_while(|&&byte| byte == b' ').count();
    let digits = &digits[spaces..];
    if digits.is_empty() && planted(Fault::BlankColumnIsZero) {
        return Some(0);
    }
    if digits.len() > 1 && digits[0] == b'0' && !planted(Fault::LeadingZeroAccepted) {
        return None;
    }
    let mut number = 0;
    for &byte in digits {
        if !byte.is_ascii_digit() {
            return None;
        }
        number = number * 10 + u32::from(byte - b'0');
    }
    (!digits.is_empty()).then_some(number)
}

/// Appends one line. Numbers must fit the columns and the bytes 64.
pub fn append(sheet: &mut Vec<u8>, form: Form, line: &Line) {
    let start = sheet.len();
    sheet.resize(start + form.head(), b' ');
    let columns = [line.kind, line.a, line.b, line.c, line.bytes.len() as u32];
    for (digits, mut number) in sheet[start..].chunks_exact_mut(form.column()).zip(columns) {
        for digit in digits.iter_mut().rev() {
            *digit = b'0' + (number % 10) as u8;
            number /= 10;
            if number == 0 {
                break;
            }
        }
    }
    sheet.extend_from_slice(line.bytes);
    sheet.push(b'\n');
}

#[cfg(test)]
mod tests {
    use super::*;

    fn only(form: Form, sheet: &[u8]) -> Option<(u32, u32, u32, u32, Vec<u8>)> {
        let mut lines = Lines::new(form, sheet);
        let line = lines.next()?.ok()?;
        assert!(lines.next().is_none());
        Some((line.kind, line.a, line.b, line.c, line.bytes.to_vec()))
    }

    #[test]
    fn a_line_is_read_as_written() {
        let line = Line { kind: 3, a: 999, b: 0, c: 999_999, bytes: b"a\nb" };
        let mut sheet = Vec::new();
        append(&mut sheet, Form::Narrow, &line);
        assert_eq!(sheet, b"     3   999     0999999     3a\nb\n");
        assert_eq!(only(Form::Narrow, &sheet), Some((3, 999, 0, 999_999, b"a\nb".to_vec())));
        assert_eq!(only(Form::Wide, &sheet), None);
        sheet.clear();
        append(&mut sheet, Form::Wide, &Line { a: 9_999_999, c: 999_999_999, ..line });
        assert_eq!(sheet, b"        3  9999999        0999999999        3a\nb\n");
        let read = Some((3, 9_999_999, 0, 999_999_999, b"a\nb".to_vec()));
        assert_eq!(only(Form::Wide, &sheet), read);
        assert_eq!(only(Form::Narrow, &sheet), None);
    }

    #[test]
    fn lines_not_in_form() {
        for sheet in [
            &b"     1     0     0     0     0"[..],
            b"     1     0     0     0     0\r",
            b"     1     0     0     0     1\n",
            b"     1           0     0     0\n",
            b"     1    00     0     0     0\n",
            b"     1    -1     0     0     0\n",
            b"     1    +1     0     0     0\n",
            b"1          0     0     0     0\n",
            b"\t    1     0     0     0     0\n",
            b"     1    0      0     0     0\n",
            b"     1     0     0     0    65\n",
            b"     1",
        ] {
            let mut lines = Lines::new(Form::Narrow, sheet);
            assert_eq!(lines.next().map(|line| line.err()), Some(Some(Reason::NotAllowed)));
            assert!(lines.next().is_none());
        }
        assert!(Lines::new(Form::Narrow, b"").next().is_none());
    }
}

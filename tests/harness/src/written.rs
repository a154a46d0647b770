//! What can stand as a sheet in a test: lines, written in the form asked for, or bytes as they are.

use peer::builder::{DirectorySheet, PermissionSheet, RequestSheet, Sheet};
use peer::form::Form;

/// A line as kind, A, B, C and bytes.
pub type L = (u32, u32, u32, u32, &'static [u8]);

pub trait Written {
    fn written(&self, form: Form) -> Vec<u8>;
}

fn lines(lines: &[L], form: Form) -> Vec<u8> {
    let mut sheet = Sheet::new(form);
    for &(kind, a, b, c, bytes) in lines {
        sheet.line(kind, a, b, c, bytes);
    }
    sheet.bytes
}

impl<const N: usize> Written for [L; N] {
    fn written(&self, form: Form) -> Vec<u8> {
        lines(self, form)
    }
}

impl Written for Vec<L> {
    fn written(&self, form: Form) -> Vec<u8> {
        lines(self, form)
    }
}

impl Written for DirectorySheet {
    fn written(&self, form: Form) -> Vec<u8> {
        self.to_bytes(form)
    }
}

impl Written for PermissionSheet {
    fn written(&self, form: Form) -> Vec<u8> {
        self.to_bytes(form)
    }
}

impl Written for RequestSheet {
    fn written(&self, form: Form) -> Vec<u8> {
        self.to_bytes(form)
    }
}

impl<const N: usize> Written for [u8; N] {
    fn written(&self, _: Form) -> Vec<u8> {
        self.to_vec()
    }
}

impl Written for Vec<u8> {
    fn written(&self, _: Form) -> Vec<u8> {
        self.clone()
    }
}

/// Lines of six columns in another form: three blanks more before each number make nine. What
/// is no such line stays as it is.
pub fn in_columns(form: Form, narrow: &[u8]) -> Vec<u8> {
    let mut sheet = Vec::new();
    let mut rest = narrow;
    while let Some((head, after)) = rest.split_first_chunk::<30>() {
        let length =
            std::str::from_utf8(&head[24..]).ok().and_then(|text| text.trim().parse().ok());
        let Some((bytes, after)) =
            length.and_then(|length: usize| after.split_at_checked(length + 1))
        else {
            break;
        };
        for number in head.chunks(6) {
            if form == Form::Wide {
                sheet.extend(b"   ");
            }
            sheet.extend(number);
        }
        sheet.extend(bytes);
        rest = after;
    }
    sheet.extend(rest);
    sheet
}

/// The number of an answer's line 30 that ends at a place: its last digit, or `-`.
pub fn digit(form: Form, answer: &[u8], number: usize) -> char {
    let width = if form == Form::Wide { 9 } else { 6 };
    answer.get((number + 1) * width - 1).copied().unwrap_or(b'-').into()
}

//! Syntaxes and matching rules.

use crate::fault::{planted, Fault};
use crate::text::{self, normal, without_blanks};
use std::cmp::Ordering;

#[derive(Clone, Copy, Debug, PartialEq, Eq)]
pub enum Syntax {
    Octets,
    Text,
    Integer,
}

impl Syntax {
    pub fn from_column(number: u32) -> Self {
        match number {
            0 => Syntax::Octets,
            1 => Syntax::Text,
            _ => Syntax::Integer,
        }
    }
}

/// A value that fits its syntax. Only values of one type are compared.
#[derive(Clone, Copy, Debug)]
pub struct Value<'a> {
    /// As written in the sheet.
    pub bytes: &'a [u8],
    syntax: Syntax,
    /// The number of an integer; else a hash that equal values share.
    key: u64,
}

impl<'a> Value<'a> {
    pub fn new(syntax: Syntax, bytes: &'a [u8]) -> Option<Self> {
        let key = match syntax {
            Syntax::Octets if planted(Fault::OctetsDropBlanks) && !bytes.is_empty() => {
                hash(without_blanks(bytes))
            }
            Syntax::Octets if fits_octets(bytes) => hash(bytes.iter().copied()),
            Syntax::Text if fits_text(bytes) => hash(normal(bytes)),
            Syntax::Integer => integer(bytes)? as u64,
            _ => return None,
        };
        Some(Value { bytes, syntax, key })
    }

    pub fn syntax(&self) -> Syntax {
        self.syntax
    }

    /// The ordering rule; octets have none.
    pub fn compare(&self, other: &Value) -> Option<Ordering> {
        match self.syntax {
            Syntax::Octets => planted(Fault::OctetsOrdered).then(|| self.bytes.cmp(other.bytes)),
            Syntax::Text if planted(Fault::TextOrderByCase) => {
                Some(without_blanks(self.bytes).cmp(without_blanks(other.bytes)))
            }
            Syntax::Text if planted(Fault::OrderCountsBlanks) => {
                Some(self.bytes.to_ascii_lowercase().cmp(&other.bytes.to_ascii_lowercase()))
            }
            Syntax::Text => Some(normal(self.bytes).cmp(normal(other.bytes))),
            Syntax::Integer if planted(Fault::IntegerOrderByBytes) => {
                Some(self.bytes.cmp(other.bytes))
            }
            Syntax::Integer => Some((self.key as i64).cmp(&(other.key as i64))),
        }
    }

    /// Equality; if the fault is planted, blanks in text count as in document 01.
    pub fn equals_under(&self, fault: Fault, other: &Value) -> bool {
        let counted = self.syntax == Syntax::Text && planted(fault);
        self == other && (!counted || self.bytes.eq_ignore_ascii_case(other.bytes))
    }
}

impl PartialEq for Value<'_> {
    fn eq(&self, other: &Self) -> bool {
        self.key == other.key
            && match self.syntax {
                Syntax::Octets if planted(Fault::OctetsDropBlanks) => true,
                Syntax::Octets => self.bytes == other.bytes,
                Syntax::Text => {
                    self.bytes == other.bytes || normal(self.bytes).eq(normal(other.bytes))
                }
                Syntax::Integer => true,
            }
    }
}

impl Eq for Value<'_> {}

fn fits_octets(bytes: &[u8]) -> bool {
    !bytes.is_empty() || planted(Fault::EmptyOctetsAccepted)
}

fn fits_text(bytes: &[u8]) -> bool {
    let highest = if planted(Fault::Text127Accepted) { 127 } else { 126 };
    let blank = planted(Fault::BlanksAloneUnfit) && bytes.trim_ascii().is_empty();
    !bytes.is_empty() && !blank && bytes.iter().all(|byte| (32..=highest).contains(byte))
}

/// FNV-1a.
fn hash(bytes: impl Iterator<Item = u8>) -> u64 {
    bytes.fold(0xcbf2_9ce4_8422_2325, |hash, byte| {
        (hash ^ u64::from(byte)).wrapping_mul(0x0000_0100_0000_01b3)
    })
}

/// Decimal, a minus sign where negative, no leading zero, no -0, within 64 bits.
fn integer(bytes: &[u8]) -> Option<i64> {
    let (negative, digits) = match bytes {
        [b'-', digits @ ..] => (true, digits),
        digits => (false, digits),
    };
    match digits {
        [] => return None,
        [b'0'] if negative => return planted(Fault::MinusZeroAccepted).then_some(0),
        [b'0', _, ..] if !planted(Fault::IntegerLeadingZeroAccepted) => return None,
        _ => {}
    }
    let mut number: i64 = 0;
    for &byte in digits {
        if !byte.is_ascii_digit() {
            return None;
        }
        let digit = i64::from(byte - b'0');
        // Gathered below zero, where the range reaches one further.
        number = match number.checked_mul(10).and_then(|tens| tens.checked_sub(digit)) {
            Some(number) => number,
            None if planted(Fault::IntegerSaturates) => i64::MIN,
            None => return None,
        };
    }
    match (negative, number.checked_neg()) {
        (true, None) if planted(Fault::LeastIntegerRefused) => None,
        (true, _) => Some(number),
        (false, None) if planted(Fault::IntegerSaturates) => Some(i64::MAX),
        (false, positive) => positive,
    }
}

#[derive(Clone, Copy, Debug, PartialEq, Eq)]
pub enum Place {
    Initial,
    Any,
    Final,
}

/// One piece of a substrings assertion.
#[derive(Clone, Debug)]
pub struct Piece {
    place: Place,
    /// In the form in which it is looked for.
    text: Vec<u8>,
}

impl Piece {
    pub fn new(place: Place, value: &Value) -> Self {
        Piece { place, text: text::piece(value.bytes) }
    }
}

/// The pieces appear in order without overlap, each placed leftmost.
pub fn substrings(value: &Value, pieces: &[Piece]) -> bool {
    let stored: Vec<u8> = if planted(Fault::StoredBlanksCount) {
        value.bytes.to_ascii_lowercase()
    } else {
        normal(value.bytes).collect()
    };
    let mut rest = &stored[..];
    for piece in pieces {
        let wanted = &piece.text[..];
        let place = match piece.place {
            Place::Initial if planted(Fault::InitialFloats) => Place::Any,
            Place::Final if planted(Fault::FinalFloats) => Place::Any,
            place => place,
        };
        let found = match place {
            Place::Initial => rest.starts_with(wanted).then_some(0),
            Place::Any => rest.windows(wanted.len().max(1)).position(|part| part == wanted),
            Place::Final => rest.ends_with(wanted).then(|| rest.len() - wanted.len()),
        };
        let taken = if planted(Fault::PiecesOverlap) { 1.min(wanted.len()) } else { wanted.len() };
        match found {
            Some(start) => rest = &rest[start + taken..],
            None => return false,
        }
    }
    true
}

#[cfg(test)]
mod tests {
    use super::*;

    #[test]
    fn integers_at_both_ends() {
        assert_eq!(integer(b"-9223372036854775808"), Some(i64::MIN));
        assert_eq!(integer(b"9223372036854775807"), Some(i64::MAX));
        assert_eq!(integer(b"0"), Some(0));
        for wrong in [
            &b"9223372036854775808"[..],
            b"-9223372036854775809",
            b"99999999999999999999999999",
            b"-0",
            b"00",
            b"01",
            b"-01",
            b"-",
            b"",
            b"+1",
            b"1 ",
            b" 1",
            b"--1",
        ] {
            assert_eq!(integer(wrong), None);
        }
    }

    #[test]
    fn text_is_ordered_without_case_and_a_prefix_comes_first() {
        let text = |bytes| Value::new(Syntax::Text, bytes).unwrap();
        assert_eq!(text(b"ANN").compare(&text(b"ann")), Some(Ordering::Equal));
        assert_eq!(text(b"ann").compare(&text(b"Anna")), Some(Ordering::Less));
        assert_eq!(text(b"_").compare(&text(b"A")), Some(Ordering::Less));
        assert_eq!(text(b"b").compare(&text(b"Anna")), Some(Ordering::Greater));
    }
}

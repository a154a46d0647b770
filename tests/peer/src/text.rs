//! Blanks and letters in text: the forms in which texts and pieces are compared.

use crate::fault::{planted, Fault};

/// Text as it is equal and ordered: without blanks at its ends, a run of them as one, in small
/// letters. Nothing but blanks is one blank.
pub fn normal(text: &[u8]) -> impl Iterator<Item = u8> + '_ {
    without_blanks(text).map(|byte| byte.to_ascii_lowercase())
}

/// As `normal`, with its letters kept.
pub fn without_blanks(text: &[u8]) -> impl Iterator<Item = u8> + '_ {
    let most = match () {
        _ if planted(Fault::BlankRunKept) => usize::MAX,
        _ if planted(Fault::BlankRunTakenAsTwo) => 2,
        _ if planted(Fault::BlankRunDropped) => 0,
        _ => 1,
    };
    shortened(trimmed(text), most)
}

/// A piece of a substrings assertion: its runs of blanks are shortened, its ends are kept.
pub fn piece(text: &[u8]) -> Vec<u8> {
    let text = if planted(Fault::PieceTrimmed) { trimmed(text) } else { text };
    let most = if planted(Fault::PieceRunKept) { usize::MAX } else { 1 };
    shortened(text, most).map(|byte| byte.to_ascii_lowercase()).collect()
}

/// The only white space that fits text is the blank.
fn trimmed(text: &[u8]) -> &[u8] {
    let words = match () {
        _ if planted(Fault::BlanksDroppedAtLeftOnly) => text.trim_ascii_start(),
        _ if planted(Fault::BlanksDroppedAtRightOnly) => text.trim_ascii_end(),
        _ => text.trim_ascii(),
    };
    if words.is_empty() && !planted(Fault::BlanksAloneEmpty) {
        &text[..text.len().min(1)]
    } else {
        words
    }
}

/// Of each run of blanks at most as many as given.
fn shortened(text: &[u8], most: usize) -> impl Iterator<Item = u8> + '_ {
    let mut run = 0;
    text.iter().copied().filter(move |&byte| {
        run = if byte == b' ' { run + 1 } else { 0 };
        run <= most
    })
}

#[cfg(test)]
mod tests {
    use super::*;

    fn form(text: &str) -> String {
        String::from_utf8(normal(text.as_bytes()).collect()).unwrap()
    }

    #[test]
    fn blanks_at_the_ends_and_in_runs_do_not_count() {
        for text in ["A b", " a b", "a b ", "a   B", "   a  b   "] {
            assert_eq!(form(text), "a b");
        }
        assert_eq!(form("ab"), "ab");
    }

    #[test]
    fn nothing_but_blanks_is_one_blank() {
        assert_eq!(form(" "), " ");
        assert_eq!(form("     "), " ");
    }

    #[test]
    fn a_piece_keeps_one_blank_at_each_end() {
        assert_eq!(piece(b"  A   b "), b" a b ");
        assert_eq!(piece(b"   "), b" ");
    }
}

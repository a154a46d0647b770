//! Values of the three syntaxes from small alphabets, and a plain notion of their equality.

use crate::random::Random;

pub const OCTETS: u32 = 0;
pub const TEXT: u32 = 1;
pub const INTEGER: u32 = 2;

const INTEGERS: [&str; 18] = [
    "-9223372036854775808",
    "-9223372036854775807",
    "-10",
    "-9",
    "-7",
    "-2",
    "-1",
    "0",
    "1",
    "2",
    "7",
    "9",
    "10",
    "12",
    "100",
    "65536",
    "9223372036854775806",
    "9223372036854775807",
];

const NO_INTEGERS: [&str; 14] = [
    "-0",
    "00",
    "07",
    "-01",
    "+1",
    "",
    "-",
    "1 ",
    " 1",
    "1a",
    "9223372036854775808",
    "-9223372036854775809",
    "10000000000000000000000",
    "18446744073709551617",
];

const WORDS: [&str; 18] = [
    "ana", "banana", "Ann", "ann", "ANNA", "Bob", "bo", "a b", " ", "~", "_", "anana", "  ",
    "Ann ", " bo", "a  b", "a   b", " a b ",
];

pub fn value(random: &mut Random, syntax: u32) -> Vec<u8> {
    match syntax {
        OCTETS => string(random, b"\0\n aA\xff"),
        TEXT if random.percent(30) => random.pick(&WORDS).as_bytes().to_vec(),
        TEXT => string(random, b"aAbB  ~"),
        _ => random.pick(&INTEGERS).as_bytes().to_vec(),
    }
}

/// Outside the syntax, or nearly.
pub fn unfit(random: &mut Random, syntax: u32) -> Vec<u8> {
    match syntax {
        OCTETS => Vec::new(),
        TEXT if random.once_in(5) => Vec::new(),
        TEXT => {
            let mut text = value(random, TEXT);
            let place = random.below(text.len());
            text[place] = *random.pick(&[0, 9, 10, 31, 127, 128, 255]);
            text
        }
        _ => random.pick(&NO_INTEGERS).as_bytes().to_vec(),
    }
}

fn string(random: &mut Random, alphabet: &[u8]) -> Vec<u8> {
    let length = match random.below(40) {
        0 => 64,
        1 => random.between(4, 63),
        _ => random.between(1, 3),
    };
    (0..length).map(|_| *random.pick(alphabet)).collect()
}

/// An equal value, for text often in other letters or with other blanks.
pub fn variant(random: &mut Random, syntax: u32, value: &[u8]) -> Vec<u8> {
    let mut value = value.to_vec();
    if syntax == TEXT && random.percent(60) {
        other_letters(random, &mut value);
    }
    if syntax == TEXT && random.percent(50) {
        other_blanks(random, &mut value);
    }
    value
}

pub fn other_letters(random: &mut Random, text: &mut [u8]) {
    for byte in text {
        if random.percent(50) {
            *byte = if byte.is_ascii_uppercase() {
                byte.to_ascii_lowercase()
            } else {
                byte.to_ascii_uppercase()
            };
        }
    }
}

/// One blank more at an end or in a run, or none that does not count.
fn other_blanks(random: &mut Random, text: &mut Vec<u8>) {
    let within = text.iter().position(|&byte| byte == b' ');
    match (random.below(4), within) {
        (3, _) => *text = spaced(text),
        _ if text.is_empty() || text.len() >= 64 => {}
        (0, Some(place)) => text.insert(place, b' '),
        (1, _) => text.push(b' '),
        _ => text.insert(0, b' '),
    }
}

/// The words of a text with one blank between them; one blank if there are none.
fn spaced(text: &[u8]) -> Vec<u8> {
    let spaced = words(text).join(&b' ');
    if spaced.is_empty() && !text.is_empty() {
        vec![b' ']
    } else {
        spaced
    }
}

fn words(text: &[u8]) -> Vec<&[u8]> {
    text.split(|&byte| byte == b' ').filter(|word| !word.is_empty()).collect()
}

/// Plain and slow, for checking: the text of document 01, "Values".
pub fn fits(syntax: u32, bytes: &[u8]) -> bool {
    if bytes.is_empty() || bytes.len() > 64 {
        return false;
    }
    match syntax {
        OCTETS => true,
        TEXT => bytes.iter().all(|&byte| (32..=126).contains(&byte)),
        _ => {
            let number = std::str::from_utf8(bytes).ok().and_then(|text| text.parse::<i64>().ok());
            number.is_some_and(|number| number.to_string().as_bytes() == bytes)
        }
    }
}

/// Equality of two values that fit: of texts by their words, which blanks alone have none of. An
/// integer has one way of writing it.
pub fn equal(syntax: u32, one: &[u8], other: &[u8]) -> bool {
    match syntax {
        TEXT => words(&one.to_ascii_lowercase()) == words(&other.to_ascii_lowercase()),
        _ => one == other,
    }
}

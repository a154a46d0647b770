//! As much of LDAP as a search needs: BER over a local socket.

use crate::world::attribute;
use crate::world::SUFFIX;
use peer::builder::FilterLines;
use std::io::{Error, ErrorKind, Read, Result, Write};
use std::os::unix::net::UnixStream;
use std::path::Path;
use std::time::Duration;

const SEQUENCE: u8 = 0x30;
const OCTETS: u8 = 0x04;
const SEARCH: u8 = 0x63;
const ENTRY: u8 = 0x64;
const DONE: u8 = 0x65;

fn element(tag: u8, content: &[u8]) -> Vec<u8> {
    let mut bytes = vec![tag];
    let length = content.len();
    if length < 128 {
        bytes.push(length as u8);
    } else {
        bytes.push(0x84);
        bytes.extend((length as u32).to_be_bytes());
    }
    bytes.extend_from_slice(content);
    bytes
}

/// A number of up to 31 bits.
fn number(tag: u8, value: u32) -> Vec<u8> {
    element(tag, &value.to_be_bytes())
}

pub fn filter(filter: &FilterLines) -> Vec<u8> {
    let parts = |tag, parts: &[FilterLines]| {
        element(tag, &parts.iter().flat_map(self::filter).collect::<Vec<u8>>())
    };
    let assertion = |tag, kind: u32, value: &[u8]| {
        let both = [element(OCTETS, attribute(kind).as_bytes()), element(OCTETS, value)];
        element(tag, &both.concat())
    };
    match filter {
        FilterLines::And(list) => parts(0xa0, list),
        FilterLines::Or(list) => parts(0xa1, list),
        FilterLines::Not(part) => element(0xa2, &self::filter(part)),
        FilterLines::Equality(kind, value) => assertion(0xa3, *kind, value),
        FilterLines::Substrings(kind, pieces) => {
            let pieces: Vec<u8> = pieces
                .iter()
                .flat_map(|(place, bytes)| element(0x80 + *place as u8, bytes))
                .collect();
            let kind = element(OCTETS, attribute(*kind).as_bytes());
            element(0xa4, &[kind, element(SEQUENCE, &pieces)].concat())
        }
        FilterLines::AtLeast(kind, value) => assertion(0xa5, *kind, value),
        FilterLines::AtMost(kind, value) => assertion(0xa6, *kind, value),
        FilterLines::Present(kind) => element(0x87, attribute(*kind).as_bytes()),
    }
}

pub struct Connection {
    stream: UnixStream,
    read: Vec<u8>,
    next: u32,
}

impl Connection {
    /// Waits some seconds for a server that is just starting.
    pub fn open(socket: &Path) -> Result<Self> {
        let mut attempts = 100;
        let stream = loop {
            match UnixStream::connect(socket) {
                Err(_) if attempts > 0 => std::thread::sleep(Duration::from_millis(100)),
                stream => break stream?,
            }
            attempts -= 1;
        };
        Ok(Connection { stream, read: Vec::new(), next: 1 })
    }

    /// The naming values of the entries that each filter selects, one level below the suffix.
    pub fn search(&mut self, filters: &[Vec<u8>]) -> Result<Vec<Vec<Vec<u8>>>> {
        let first = self.next;
        let mut sent = Vec::new();
        for filter in filters {
            let request = [
                element(OCTETS, SUFFIX.as_bytes()),
                number(0x0a, 1),
                number(0x0a, 0),
                number(0x02, 0),
                number(0x02, 0),
                element(0x01, &[0]),
                filter.clone(),
                element(SEQUENCE, &element(OCTETS, b"1.1")),
            ];
            let message = [number(0x02, self.next), element(SEARCH, &request.concat())];
            sent.extend(element(SEQUENCE, &message.concat()));
            self.next += 1;
        }
        self.stream.write_all(&sent)?;
        let mut selected = vec![Vec::new(); filters.len()];
        let mut open = filters.len();
        while open > 0 {
            let message = self.message()?;
            let mut rest = &message[..];
            let id = take(&mut rest)?.1.iter().fold(0, |id, &byte| id << 8 | u32::from(byte));
            let (tag, mut operation) = take(&mut rest)?;
            let place = id.checked_sub(first).map_or(usize::MAX, |place| place as usize);
            let Some(list) = selected.get_mut(place) else {
                return Err(wrong("an answer to no question"));
            };
            match tag {
                ENTRY => list.push(naming_value(take(&mut operation)?.1)?),
                DONE => {
                    if take(&mut operation)?.1 != [0] {
                        return Err(wrong("slapd did not search"));
                    }
                    open -= 1;
                }
                _ => return Err(wrong("an answer of unknown kind")),
            }
        }
        Ok(selected)
    }

    /// The content of the next whole message.
    fn message(&mut self) -> Result<Vec<u8>> {
        loop {
            let mut rest = &self.read[..];
            if let Ok((_, content)) = take(&mut rest) {
                let (content, left) = (content.to_vec(), rest.to_vec());
                self.read = left;
                return Ok(content);
            }
            let mut buffer = [0; 65_536];
            match self.stream.read(&mut buffer)? {
                0 => return Err(wrong("slapd closed the connection")),
                count => self.read.extend_from_slice(&buffer[..count]),
            }
        }
    }
}

fn wrong(what: &str) -> Error {
    Error::new(ErrorKind::InvalidData, what.to_string())
}

/// Takes one element off the front: its tag and content.
fn take<'a>(bytes: &mut &'a [u8]) -> Result<(u8, &'a [u8])> {
    let cut = || wrong("cut off");
    let (&[tag, short], mut rest) = bytes.split_first_chunk::<2>().ok_or_else(cut)?;
    let mut length = usize::from(short & 0x7f);
    if short & 0x80 != 0 {
        let (digits, after) = rest.split_at_checked(length).ok_or_else(cut)?;
        length = digits.iter().fold(0, |length, &byte| length << 8 | usize::from(byte));
        rest = after;
    }
    let (content, rest) = rest.split_at_checked(length).ok_or_else(cut)?;
    *bytes = rest;
    Ok((tag, content))
}

/// The value in `tag=value,SUFFIX`.
fn naming_value(name: &[u8]) -> Result<Vec<u8>> {
    let start = name.iter().position(|&byte| byte == b'=').ok_or_else(|| wrong("no name"))? + 1;
    let end = name.iter().position(|&byte| byte == b',').ok_or_else(|| wrong("no suffix"))?;
    Ok(name[start..end].to_vec())
}

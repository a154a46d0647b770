//! Reads the files dir, perm and request, or those that the arguments name, lends 65,536 bytes and prints the answer, or
//! "refused" and the number.

use std::ffi::OsString;
use std::io::{Result, Write};

const ROOM: usize = 65_536;

fn main() -> Result<()> {
    let mut names = std::env::args_os().skip(1);
    let mut read = |usual: &str| std::fs::read(names.next().unwrap_or(OsString::from(usual)));
    let answer = peer::serve(&read("dir")?, &read("perm")?, &read("request")?, ROOM);
    let printed = answer.unwrap_or_else(|refusal| format!("refused {refusal}\n").into_bytes());
    std::io::stdout().write_all(&printed)
}

//! A buffer lent to a server, filled with a pattern and guarded on both sides.

use crate::server::{Reply, Server};
use peer::caller::Call;
use peer::moves::Way;
use std::sync::OnceLock;

const GUARD: usize = 64;
/// The longest buffer a test lends.
pub const MAX_ROOM: usize = 1 << 21;

fn pattern() -> &'static [u8] {
    static PATTERN: OnceLock<Vec<u8>> = OnceLock::new();
    PATTERN.get_or_init(|| {
        let byte = |place: usize| (place as u8).wrapping_mul(167).wrapping_add(91);
        (0..MAX_ROOM + 2 * GUARD).map(byte).collect()
    })
}

/// What a server did with sheets and a lent buffer.
#[derive(PartialEq, Eq)]
pub struct Outcome {
    pub reply: Reply,
    /// The buffer between its guards.
    lent: Vec<u8>,
}

/// Asks as a calling program in a form, with a fresh buffer.
pub fn ask(
    server: &dyn Server,
    call: Call,
    dir: &[u8],
    perm: &[u8],
    req: &[u8],
    room: usize,
) -> Outcome {
    lend(room, |out| server.serve(call, dir, perm, req, out))
}

/// Has a directory sheet moved, with a fresh buffer.
pub fn ask_move(server: &dyn Server, way: Way, sheet: &[u8], room: usize) -> Outcome {
    lend(room, |out| server.moved(way, sheet, out))
}

fn lend(room: usize, serve: impl FnOnce(&mut [u8]) -> Reply) -> Outcome {
    let mut lent = pattern()[..room + 2 * GUARD].to_vec();
    let reply = serve(&mut lent[GUARD..GUARD + room]);
    Outcome { reply, lent }
}

impl Outcome {
    fn room(&self) -> usize {
        self.lent.len() - 2 * GUARD
    }

    /// The answer, or the refusal number.
    pub fn answer(&self) -> Result<&[u8], u64> {
        match self.reply.refusal {
            0 => Ok(&self.lent[GUARD..GUARD + self.room().min(self.reply.length as usize)]),
            refusal => Err(refusal),
        }
    }

    /// Refusals have length 0; an answer fits; bytes beyond it, all bytes of a refused buffer,
    /// and the guards are as before.
    pub fn is_sound(&self) -> bool {
        let written = self.reply.length as usize;
        if written > self.room() || (self.reply.refusal != 0 && written != 0) {
            return false;
        }
        let before = &pattern()[..self.lent.len()];
        let end = GUARD + written;
        self.lent[..GUARD] == before[..GUARD] && self.lent[end..] == before[end..]
    }

    pub fn describe(&self) -> String {
        match self.answer() {
            Ok(answer) => format!("{:?}\n{}", self.reply, String::from_utf8_lossy(answer)),
            Err(_) => format!("{:?}", self.reply),
        }
    }
}

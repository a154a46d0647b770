//! A second implementation of the hotel directory server, written from documents 01 and 02 alone.
//!
//! Each sheet is decoded once into vectors; the items of the permission sheet that can concern
//! the requester are kept in the order in which they decide, and those that cover an entry are
//! picked once per entry.

pub mod alias;
pub mod answer;
pub mod builder;
pub mod caller;
pub mod decide;
pub mod directory;
pub mod edition;
pub mod fault;
pub mod filter;
pub mod form;
pub mod kinds;
pub mod moves;
pub mod name;
pub mod operations;
pub mod order;
pub mod permissions;
pub mod request;
pub mod schema;
pub mod sheet;
pub mod text;
pub mod value;

#[cfg(test)]
mod examples;

use caller::{Call, Caller};
use directory::Directory;
use fault::{planted, Fault};
use form::Form;
use permissions::Permissions;
use request::Request;

/// Refusal of the requester: the type of K 16 is unknown or has no order.
pub const NO_ORDER: u32 = 24;

/// Refusal of the calling program: the answer is longer than the lent buffer.
pub const ANSWER_TOO_LONG: u32 = 31;

/// Refusal of a panel: its answer buffer is longer than it may be.
pub const BUFFER_TOO_LONG: u32 = 33;

/// Answers one request of the exchange in six columns, or gives the refusal number. `room` is the
/// length of the lent buffer.
pub fn serve(dir: &[u8], perm: &[u8], req: &[u8], room: usize) -> Result<Vec<u8>, u32> {
    serve_for(Call::new(Caller::Exchange, Form::Narrow), dir, perm, req, room)
}

/// As `serve`, for either calling program and in either form.
pub fn serve_for(
    call: Call,
    dir: &[u8],
    perm: &[u8],
    req: &[u8],
    room: usize,
) -> Result<Vec<u8>, u32> {
    let late = planted(Fault::PanelRoomJudgedLate);
    if !late && !call.may_lend(room) {
        return Err(BUFFER_TOO_LONG);
    }
    let form = call.form;
    let directory = Directory::decode(form, dir).map_err(|reason| reason as u32)?;
    if late && !call.may_lend(room) {
        return Err(BUFFER_TOO_LONG);
    }
    let narrowed = |fault| if planted(fault) { Form::Narrow } else { form };
    let permissions = Permissions::decode(narrowed(Fault::PermissionsStayNarrow), perm, &directory)
        .map_err(|reason| 10 + reason as u32)?;
    let request = Request::decode(narrowed(Fault::RequestStaysNarrow), req, &directory.schema)
        .map_err(|reason| 20 + reason as u32)?;
    if request.unordered && !planted(Fault::OrderJudgedAfterRoom) {
        return Err(NO_ORDER);
    }
    let most = call.caller.most_entries();
    let of_answer = match () {
        _ if planted(Fault::AnswerInOtherForm) => form.other(),
        _ => narrowed(Fault::AnswerStaysNarrow),
    };
    let answer = operations::answer(of_answer, &directory, &permissions, &request, most);
    let needed = match () {
        _ if planted(Fault::EqualLengthRefused) => answer.len() + 1,
        _ if planted(Fault::RoomJudgedByDirectory) => {
            answer.len().max(form.line() * directory.len())
        }
        _ if planted(Fault::AnswerCappedAt65536) && answer.len() > 65_536 => usize::MAX,
        _ => answer.len(),
    };
    if needed <= room {
        if request.unordered {
            return Err(NO_ORDER);
        }
        Ok(answer)
    } else {
        Err(ANSWER_TOO_LONG)
    }
}

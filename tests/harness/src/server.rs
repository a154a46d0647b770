//! Servers: the peer, with or without a planted fault, and the library.

use peer::caller::{Call, Caller};
use peer::fault::{planted, with_fault, Fault};
use peer::moves::{moved, Way};

#[repr(C)]
#[derive(Clone, Copy, Debug, PartialEq, Eq)]
pub struct Reply {
    pub refusal: u64,
    pub length: u64,
}

pub trait Server {
    fn serve(&self, call: Call, dir: &[u8], perm: &[u8], req: &[u8], out: &mut [u8]) -> Reply;

    /// Moves a directory sheet to the other form.
    fn moved(&self, way: Way, sheet: &[u8], out: &mut [u8]) -> Reply;
}

/// Every number a request may be refused with.
pub const REFUSALS: [u64; 16] = [1, 2, 3, 4, 5, 6, 11, 12, 13, 14, 21, 22, 23, 24, 31, 33];

/// Every number a move may be refused with.
pub const MOVE_REFUSALS: [u64; 8] = [1, 2, 3, 4, 5, 6, 35, 36];

#[derive(Clone, Copy, Default)]
pub struct Peer {
    pub fault: Option<Fault>,
}

impl Server for Peer {
    fn serve(&self, call: Call, dir: &[u8], perm: &[u8], req: &[u8], out: &mut [u8]) -> Reply {
        with_fault(self.fault, || {
            let cut = planted(Fault::AnswerCutToRoom) && call.caller == Caller::Exchange;
            let room = if cut { usize::MAX } else { out.len() };
            match peer::serve_for(call, dir, perm, req, room) {
                Ok(answer) => {
                    let length = answer.len().min(out.len());
                    out[..length].copy_from_slice(&answer[..length]);
                    if planted(Fault::AnswerWritesBeyond) && length < out.len() {
                        out[length] = 0;
                    }
                    Reply { refusal: 0, length: length as u64 }
                }
                Err(refusal) => {
                    if planted(Fault::RefusalChangesBuffer) && !out.is_empty() {
                        out[0] = 0;
                    }
                    let length = if planted(Fault::RefusalHasLength) { 1 } else { 0 };
                    Reply { refusal: refusal.into(), length }
                }
            }
        })
    }

    fn moved(&self, way: Way, sheet: &[u8], out: &mut [u8]) -> Reply {
        with_fault(self.fault, || match moved(way, sheet, out.len()) {
            Ok(moved) => {
                let length = moved.len().min(out.len());
                out[..length].copy_from_slice(&moved[..length]);
                if planted(Fault::MoveWritesBeyond) && length < out.len() {
                    out[length] = b'\n';
                }
                let off = planted(Fault::MovedLengthOff) && length > 0;
                Reply { refusal: 0, length: (length - usize::from(off)) as u64 }
            }
            Err(refusal) => {
                let written = if planted(Fault::MoveRefusalWrites) { out.len().min(9) } else { 0 };
                out[..written].fill(b' ');
                let length = u64::from(planted(Fault::MoveRefusalHasLength));
                Reply { refusal: refusal.into(), length }
            }
        })
    }
}

#[cfg(feature = "library")]
pub struct Library;

#[cfg(feature = "library")]
mod foreign {
    use super::Reply;

    extern "C" {
        pub fn dinghy_serve(
            dir: *const u8,
            dir_len: usize,
            perm: *const u8,
            perm_len: usize,
            req: *const u8,
            req_len: usize,
            out: *mut u8,
            out_len: usize,
        ) -> Reply;

        pub fn dinghy_serve_form(
            dir: *const u8,
            dir_len: usize,
            perm: *const u8,
            perm_len: usize,
            req: *const u8,
            req_len: usize,
            out: *mut u8,
            out_len: usize,
            wide: bool,
        ) -> Reply;

        pub fn dinghy_serve_panel(
            dir: *const u8,
            dir_len: usize,
            perm: *const u8,
            perm_len: usize,
            req: *const u8,
            req_len: usize,
            out: *mut u8,
            out_len: usize,
        ) -> Reply;

        pub fn dinghy_serve_panel_form(
            dir: *const u8,
            dir_len: usize,
            perm: *const u8,
            perm_len: usize,
            req: *const u8,
            req_len: usize,
            out: *mut u8,
            out_len: usize,
            wide: bool,
        ) -> Reply;

        pub fn dinghy_widen(
            sheet: *const u8,
            sheet_len: usize,
            out: *mut u8,
            out_len: usize,
        ) -> Reply;

        pub fn dinghy_narrow(
            sheet: *const u8,
            sheet_len: usize,
            out: *mut u8,
            out_len: usize,
        ) -> Reply;
    }
}

#[cfg(feature = "library")]
type Plain = unsafe extern "C" fn(
    *const u8,
    usize,
    *const u8,
    usize,
    *const u8,
    usize,
    *mut u8,
    usize,
) -> Reply;

#[cfg(feature = "library")]
type Formed = unsafe extern "C" fn(
    *const u8,
    usize,
    *const u8,
    usize,
    *const u8,
    usize,
    *mut u8,
    usize,
    bool,
) -> Reply;

#[cfg(feature = "library")]
impl Server for Library {
    fn serve(&self, call: Call, dir: &[u8], perm: &[u8], req: &[u8], out: &mut [u8]) -> Reply {
        let (plain, form) = match call.caller {
            Caller::Exchange => {
                (foreign::dinghy_serve as Plain, foreign::dinghy_serve_form as Formed)
            }
            Caller::Panel => {
                (foreign::dinghy_serve_panel as Plain, foreign::dinghy_serve_panel_form as Formed)
            }
        };
        let (d, p, q) = (dir.as_ptr(), perm.as_ptr(), req.as_ptr());
        let (dn, pn, qn) = (dir.len(), perm.len(), req.len());
        let (o, on) = (out.as_mut_ptr(), out.len());
        // Of the requests in six columns every other one names the form, by its length. The library
        // reads three sheets and writes at most out.len() bytes to out.
        unsafe {
            if call.form.is_wide() || qn % 2 == 1 {
                form(d, dn, p, pn, q, qn, o, on, call.form.is_wide())
            } else {
                plain(d, dn, p, pn, q, qn, o, on)
            }
        }
    }

    fn moved(&self, way: Way, sheet: &[u8], out: &mut [u8]) -> Reply {
        let entry = match way {
            Way::There => foreign::dinghy_widen,
            Way::Back => foreign::dinghy_narrow,
        };
        // The library reads a sheet and writes at most out.len() bytes to out.
        unsafe { entry(sheet.as_ptr(), sheet.len(), out.as_mut_ptr(), out.len()) }
    }
}

/// The server under test.
#[cfg(feature = "library")]
pub fn subject() -> Box<dyn Server> {
    println!("server: library");
    Box::new(Library)
}

/// The server under test.
#[cfg(not(feature = "library"))]
pub fn subject() -> Box<dyn Server> {
    println!("server: peer");
    Box::new(Peer::default())
}

//! The peer behind the library's C entries.

use peer::caller::{Call, Caller};
use peer::form::Form;
use peer::moves::{moved, Way};
use std::slice;

#[repr(C)]
pub struct Reply {
    refusal: u64,
    length: u64,
}

/// A sheet in memory of the calling program.
type Sheet = (*const u8, usize);

/// # Safety
/// Each pointer is valid for its length, `out` for writing; a pointer of length 0 may be null.
#[no_mangle]
pub unsafe extern "C" fn dinghy_serve_form(
    dir: *const u8,
    dir_len: usize,
    perm: *const u8,
    perm_len: usize,
    req: *const u8,
    req_len: usize,
    out: *mut u8,
    out_len: usize,
    wide: bool,
) -> Reply {
    let sheets = [(dir, dir_len), (perm, perm_len), (req, req_len)];
    serve(Call::new(Caller::Exchange, Form::of(wide)), sheets, out, out_len)
}

/// # Safety
/// As for `dinghy_serve_form`.
#[no_mangle]
pub unsafe extern "C" fn dinghy_serve_panel_form(
    dir: *const u8,
    dir_len: usize,
    perm: *const u8,
    perm_len: usize,
    req: *const u8,
    req_len: usize,
    out: *mut u8,
    out_len: usize,
    wide: bool,
) -> Reply {
    let sheets = [(dir, dir_len), (perm, perm_len), (req, req_len)];
    serve(Call::new(Caller::Panel, Form::of(wide)), sheets, out, out_len)
}

/// # Safety
/// As for `dinghy_serve_form`.
#[no_mangle]
pub unsafe extern "C" fn dinghy_serve(
    dir: *const u8,
    dir_len: usize,
    perm: *const u8,
    perm_len: usize,
    req: *const u8,
    req_len: usize,
    out: *mut u8,
    out_len: usize,
) -> Reply {
    dinghy_serve_form(dir, dir_len, perm, perm_len, req, req_len, out, out_len, false)
}

/// # Safety
/// As for `dinghy_serve_form`.
#[no_mangle]
pub unsafe extern "C" fn dinghy_serve_panel(
    dir: *const u8,
    dir_len: usize,
    perm: *const u8,
    perm_len: usize,
    req: *const u8,
    req_len: usize,
    out: *mut u8,
    out_len: usize,
) -> Reply {
    dinghy_serve_panel_form(dir, dir_len, perm, perm_len, req, req_len, out, out_len, false)
}

/// # Safety
/// As for `dinghy_serve_form`.
#[no_mangle]
pub unsafe extern "C" fn dinghy_widen(
    sheet: *const u8,
    sheet_len: usize,
    out: *mut u8,
    out_len: usize,
) -> Reply {
    reply(moved(Way::There, bytes((sheet, sheet_len)), out_len), out)
}

/// # Safety
/// As for `dinghy_serve_form`.
#[no_mangle]
pub unsafe extern "C" fn dinghy_narrow(
    sheet: *const u8,
    sheet_len: usize,
    out: *mut u8,
    out_len: usize,
) -> Reply {
    reply(moved(Way::Back, bytes((sheet, sheet_len)), out_len), out)
}

unsafe fn serve(call: Call, sheets: [Sheet; 3], out: *mut u8, out_len: usize) -> Reply {
    let [dir, perm, req] = [bytes(sheets[0]), bytes(sheets[1]), bytes(sheets[2])];
    reply(peer::serve_for(call, dir, perm, req, out_len), out)
}

unsafe fn bytes<'a>((start, length): Sheet) -> &'a [u8] {
    match length {
        0 => &[],
        _ => slice::from_raw_parts(start, length),
    }
}

/// Writes what there is to write, which fits.
unsafe fn reply(written: Result<Vec<u8>, u32>, out: *mut u8) -> Reply {
    match written {
        Ok(written) if written.is_empty() => Reply { refusal: 0, length: 0 },
        Ok(written) => {
            out.copy_from_nonoverlapping(written.as_ptr(), written.len());
            Reply { refusal: 0, length: written.len() as u64 }
        }
        Err(refusal) => Reply { refusal: refusal.into(), length: 0 },
    }
}

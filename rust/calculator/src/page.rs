//! The page's calls, as a WebAssembly module with addresses of 32 bits.
//!
//! `rust/erase` writes `proved/` from the proved sources. Only this file, `sheet.rs` and `host.rs` are written by hand.
mod host;
mod proved;
mod sheet;

use std::slice;

#[link(wasm_import_module = "page")]
extern "C" {
    /// The page takes these bytes.
    #[link_name = "take"]
    fn take_bytes(bytes: *const u8, length: usize);
}

fn take(bytes: &[u8]) {
    unsafe { take_bytes(bytes.as_ptr(), bytes.len()) }
}

/// Gives the page the row of each line of `input`, as soon as it is known, with so many places of the decimals.
///
/// # Safety
///
/// `input` must point to `length` bytes.
#[no_mangle]
pub unsafe extern "C" fn ratio_sheet_rows(input: *const u8, length: usize, places: u32) {
    sheet::rows(slice::from_raw_parts(input, length), places, take)
}

/// Gives the page the quotients of the continued fraction of `input`.
///
/// # Safety
///
/// `input` must point to `length` bytes.
#[no_mangle]
pub unsafe extern "C" fn ratio_sheet_quotients(input: *const u8, length: usize) {
    take(&sheet::quotients(slice::from_raw_parts(input, length)))
}

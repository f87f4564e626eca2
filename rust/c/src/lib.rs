//! The calls for C, as a static library. `include/ratio.h` of the repository declares them.
//!
//! `rust/erase` writes `proved/` from the proved sources, with each call that they export. Only this file is written by hand.
#![no_std]

pub mod proved;

extern "C" {
    fn abort() -> !;
}

/// The items that a caller hands over. Where there are none, the pointer may be null, or anything else.
///
/// # Safety
/// If the count is not 0, so many items are at the pointer.
unsafe fn items<'a, T>(start: *const T, count: usize) -> &'a [T] {
    if count == 0 {
        return &[];
    }
    core::slice::from_raw_parts(start, count)
}

/// The same for items that the call writes.
///
/// # Safety
/// As for `items`. No other array has any of them.
unsafe fn items_mut<'a, T>(start: *mut T, count: usize) -> &'a mut [T] {
    if count == 0 {
        return &mut [];
    }
    core::slice::from_raw_parts_mut(start, count)
}

/// No call panics, as the proofs show. If one did, the program would end here.
#[panic_handler]
fn panic(_: &core::panic::PanicInfo) -> ! {
    // SAFETY: C's `abort` takes nothing, and does not return.
    unsafe { abort() }
}

/// The compiled `core` names this function, which unwinding would call. Nothing here unwinds.
#[no_mangle]
extern "C" fn rust_eh_personality() {}

//! The jobs by GMP's mpq and FLINT's fmpq, in C.
use super::Way;
use std::ffi::{CStr, CString};
use std::fmt::{self, Display, Formatter};
use std::os::raw::{c_char, c_int};

extern "C" {
    fn peers_do(job: *const c_char, is_gmp: c_int);
    fn peers_result(is_gmp: c_int) -> *const c_char;
}

#[derive(Clone, Copy)]
pub enum Peer {
    Gmp,
    Flint,
}

/// The result of the last job that the peer did.
struct Last(Peer);

impl Display for Last {
    fn fmt(&self, f: &mut Formatter<'_>) -> fmt::Result {
        // SAFETY: the text ends with a 0, and stays until the next call, which this program's one thread makes later.
        let text = unsafe { CStr::from_ptr(peers_result(matches!(self.0, Peer::Gmp).into())) };
        text.to_str().map_err(|_| fmt::Error)?.fmt(f)
    }
}

impl Way for Peer {
    fn has(&self, job: &str) -> bool {
        !matches!(job, "orders" | "reading" | "printing")
    }

    fn once(&self, job: &str) -> Box<dyn Display> {
        let job = CString::new(job).expect("a name without a 0");
        // SAFETY: the name ends with a 0, and the program has one thread.
        unsafe { peers_do(job.as_ptr(), matches!(self, Peer::Gmp).into()) };
        Box::new(Last(*self))
    }
}

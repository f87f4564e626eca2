// Erased from the Rattle toolchain's itoa/src/digits.rt (MIT or Apache-2.0) by rust/erase: not to be edited.
static PAIRS: [u8; 200] =
    *b"00010203040506070809101112131415161718192021222324252627282930313233343536373839404142434445464748495051525354555657585960616263646566676869707172737475767778798081828384858687888990919293949596979899";

#[inline(always)]
fn write_pair(pair: u64, buf: &mut [u8], at: usize) {
    let from = pair as usize * 2;
    let (tens, ones) = (PAIRS[from], PAIRS[from + 1]);
    buf[at] = tens;
    buf[at + 1] = ones;
}

// Writes the digits so that they end at `end`, and returns where they start.
/// # Conditions
///
/// The proof requires of the caller:
///
/// - `(length (decimal n) ≤ end) × (end ≤ length buf.old)`
#[inline]
pub fn write_digits(n: u64, buf: &mut [u8], end: usize) -> usize {
    let mut left = n;
    let mut at = end;
    while left >= 10_000 {
        let four = left % 10_000;
        left /= 10_000;
        write_pair(four % 100, buf, at - 2);
        write_pair(four / 100, buf, at - 4);
        at -= 4;
    }
    write_short(left, buf, at)
}

#[inline(always)]
fn write_short(n: u64, buf: &mut [u8], end: usize) -> usize {
    if n < 100 {
        return write_first(n, buf, end);
    }
    write_pair(n % 100, buf, end - 2);
    write_first(n / 100, buf, end - 2)
}

#[inline(always)]
fn write_first(n: u64, buf: &mut [u8], end: usize) -> usize {
    if n < 10 {
        buf[end - 1] = b'0' + n as u8;
        return end - 1;
    }
    write_pair(n, buf, end - 2);
    end - 2
}

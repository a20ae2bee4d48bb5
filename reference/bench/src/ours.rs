//! Our side: the entries of include/keybasket.h, each as a safe call.

use crate::answers::{Numbers, Refused};

/// An entry's answer from here on is this plus a refusal number.
const REFUSED: usize = 100_000;

/// The type code of u64.
const U64: u64 = 4;

// The archive is linked by the wrapper crate; the calls are made without its types. The same as in include/keybasket.h.
use keybasket as _;

extern "C" {
    fn keybasket_read(entry: u64, text: *const u8, text_len: usize, answer: *mut u64);
    fn keybasket_read_keyed(text: *const u8, text_len: usize, answer: *mut u64);
    fn keybasket_value(ty: u64, text: *const u8, text_len: usize, value: *mut u64) -> usize;
    fn keybasket_decode(entry: u64, text: *const u8, text_len: usize, out: *mut u8, out_len: usize) -> usize;
    fn keybasket_settle(text: *const u8, text_len: usize, out: *mut u8, out_len: usize) -> usize;
}

// SAFETY, of all five: pointers and lengths are those of slices or locals, whose bytes all have values and which are not null; what
// is written is lent to the call alone.

/// Writes the eight numbers of the reading by entry 0.
pub fn read(text: &[u8], answer: &mut Numbers) {
    unsafe { keybasket_read(0, text.as_ptr(), text.len(), answer.as_mut_ptr()) };
}

/// Writes the eight numbers of the reading by the keyed entry.
pub fn read_keyed(text: &[u8], answer: &mut Numbers) {
    unsafe { keybasket_read_keyed(text.as_ptr(), text.len(), answer.as_mut_ptr()) };
}

/// The value of an integer as u64.
pub fn value(text: &[u8]) -> Result<u64, Refused> {
    let mut number = 0;
    let answer = unsafe { keybasket_value(U64, text.as_ptr(), text.len(), &mut number) };
    length(answer).map(|_| number)
}

/// Writes the decoded bytes by entry 5, 7 or 8 to the front of `out`: how many there are.
pub fn decode(entry: u8, text: &[u8], out: &mut [u8]) -> Result<usize, Refused> {
    length(unsafe { keybasket_decode(entry.into(), text.as_ptr(), text.len(), out.as_mut_ptr(), out.len()) })
}

/// Writes the settled form to the front of `out`: its length.
pub fn settle(text: &[u8], out: &mut [u8]) -> Result<usize, Refused> {
    length(unsafe { keybasket_settle(text.as_ptr(), text.len(), out.as_mut_ptr(), out.len()) })
}

/// An entry's answer, taken apart.
fn length(answer: usize) -> Result<usize, Refused> {
    if answer < REFUSED {
        Ok(answer)
    } else {
        Err((answer - REFUSED) as Refused)
    }
}

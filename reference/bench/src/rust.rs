//! The Rust's side of each call, from a checked text on. Reading by entry 0 is `Literal::parse` itself.

use crate::common::answer::{self, Refusal};
use crate::common::settle;
use litrs::{ByteStringLit, CStringLit, IntegerLit, Literal, ParseError, StringLit};

/// How many digits a number may have by the keyed entry.
const MOST_DIGITS: usize = 40;

/// Whether an accepted integer, or an accepted float's integer part and fractional part together, has too many digits. The reading is taken
/// by reference: moving the literal on into another result takes longer.
pub fn too_many_digits(reading: &Result<Literal<&str>, ParseError>) -> bool {
    let count = match reading {
        Ok(Literal::Integer(l)) => digits(l.raw_main_part()),
        Ok(Literal::Float(l)) => digits(l.integer_part()) + l.fractional_part().map_or(0, digits),
        _ => 0,
    };
    count > MOST_DIGITS
}

/// How many digits a part of a number has. litrs leaves no other bytes in it than these and `_`.
fn digits(part: &str) -> usize {
    part.bytes().filter(|&b| b != b'_').count()
}

/// The value of an integer as u64, `None` where it is too large.
pub fn value(text: &str) -> Result<Option<u64>, ParseError> {
    Ok(IntegerLit::parse(text)?.value::<u64>())
}

/// The decoded bytes by entry 5, 7 or 8, owned: what litrs decoded is handed out as it is, and where nothing was to be decoded the
/// part of the text is copied.
pub fn decode_owned(entry: u8, text: &str) -> Result<Vec<u8>, ParseError> {
    Ok(match entry {
        5 => StringLit::parse(text)?.into_value().into_owned().into_bytes(),
        7 => ByteStringLit::parse(text)?.into_value().into_owned(),
        8 => CStringLit::parse(text)?.into_value().into_bytes(),
        _ => unreachable!("entries 5, 7 and 8 have decoded bytes"),
    })
}

/// The decoded bytes by entry 5, 7 or 8, copied from litrs's value to the front of a lent buffer: how many there are.
pub fn decode_lent(entry: u8, text: &str, out: &mut [u8]) -> Result<usize, Refusal> {
    match entry {
        5 => answer::write_front(StringLit::parse(text)?.value().as_bytes(), out),
        7 => answer::write_front(ByteStringLit::parse(text)?.value(), out),
        8 => answer::write_front(CStringLit::parse(text)?.value().to_bytes(), out),
        _ => unreachable!("entries 5, 7 and 8 have decoded bytes"),
    }
}

/// The reference's own settling, which collects the form into a `Vec`: kind and form.
pub fn settle_collected(text: &str) -> Result<(u8, Vec<u8>), Refusal> {
    settle::form_of(text.as_bytes(), answer::read_checked(0, text)?)
}

//! The keyed entry, which litrs does not have: written from document 02, the change requests, alone
//! (its request d, "Long numbers at the keyboard"). Comments in quotes are its sentences. The digits
//! are counted in the parts that litrs's reading has.

use super::answer::{self, Reading, Refusal, Value};

pub const TOO_MANY_DIGITS: u8 = 53;

/// "over 40 digits"
const MOST_DIGITS: usize = 40;

/// "A keyed entry beside entry 0 uses them and reads as entry 0 does otherwise." With the reading
/// come its counts of digits.
pub fn read(text: &[u8]) -> Result<(Reading, Vec<usize>), Refusal> {
    let reading = answer::read(0, text)?;
    let counts = digit_counts(text, &reading);
    if too_many(&counts) {
        return Err(Refusal::plain(TOO_MANY_DIGITS));
    }
    Ok((reading, counts))
}

/// "an accepted integer with over 40 digits, or an accepted float with over 40 in whole and
/// fractional part together": an integer has one count, and a float's third, the exponent's, is left
/// out.
fn too_many(counts: &[usize]) -> bool {
    counts.iter().take(2).sum::<usize>() > MOST_DIGITS
}

/// How many digits an integer has; or how many a float has in whole part, fraction and exponent, 0
/// for a missing part. Other kinds have no counts.
pub fn digit_counts(text: &[u8], reading: &Reading) -> Vec<usize> {
    match reading.value {
        Value::Integer { base, start, end } => vec![digits(base, &text[start..end])],
        Value::Float { end_integer, end_fractional, end_number } => vec![
            digits(10, &text[..end_integer]),
            digits(10, &text[end_integer..end_fractional]),
            digits(10, &text[end_fractional..end_number]),
        ],
        _ => Vec::new(),
    }
}

/// How many bytes are digits of the base. `_`, the period, a sign and a float's `e` are none.
fn digits(base: u8, part: &[u8]) -> usize {
    part.iter().filter(|&&b| (b as char).is_digit(base.into())).count()
}

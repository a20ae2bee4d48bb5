//! Settling, which litrs does not have: written from document 01, the scope, alone (its part "The
//! settled form"). Comments in quotes are its sentences. Nothing is rounded: integers are summed in
//! 128 bits and left at the first sum above 2^64 - 1, floats are worked on digit by digit.

use super::answer::{self, Reading, Refusal, Value};

/// "its form would be longer than 65,536 bytes"
const FORM_LIMIT: usize = 65_536;

/// "It is 46 exactly when k is beyond 1,000,000 either way."
const POWER_LIMIT: i64 = 1_000_000;

/// Settles `text` into the front of `out`: kind and length of the form. A refusal writes nothing.
pub fn settle(text: &[u8], out: &mut [u8]) -> Result<(u8, usize), Refusal> {
    let (kind, form) = settled_form(text)?;
    Ok((kind, answer::write_front(&form, out)?))
}

/// Kind and settled form. "Order: [..] litrs's own in its order, then 45 or 46, 47, 48."
pub fn settled_form(text: &[u8]) -> Result<(u8, Vec<u8>), Refusal> {
    // "It is made from entry 0's reading."
    form_of(text, answer::read(0, text)?)
}

/// Kind and settled form of a text with this reading by entry 0.
pub fn form_of(text: &[u8], reading: Reading) -> Result<(u8, Vec<u8>), Refusal> {
    let mut form = literal(text, &reading)?;
    // "The suffix follows unchanged."
    form.extend_from_slice(&text[reading.suffix..]);
    if form.len() > FORM_LIMIT {
        return Err(Refusal::plain(answer::FORM_TOO_LONG));
    }
    Ok((reading.kind, form))
}

/// The form without the suffix.
fn literal(text: &[u8], reading: &Reading) -> Result<Vec<u8>, Refusal> {
    let suffix = &text[reading.suffix..];
    match &reading.value {
        Value::Bool(true) => Ok(b"true".to_vec()),
        Value::Bool(false) => Ok(b"false".to_vec()),
        Value::Integer { base, start, end } => integer(*base, &text[*start..*end], suffix),
        Value::Float { end_integer, end_fractional, end_number } => float(
            &text[..*end_integer],
            &text[*end_integer..*end_fractional],
            &text[*end_fractional..*end_number],
        ),
        Value::Char(c) => Ok(quoted(4, c.encode_utf8(&mut [0; 4]).as_bytes())),
        Value::Byte(b) => Ok(quoted(6, &[*b])),
        Value::Quoted { bytes, .. } => Ok(quoted(reading.kind, bytes)),
    }
}

/// "decimal without leading zero or `_`; zero is `0`, but `00` before a suffix starting with b, o
/// or x. Above 2^64 - 1 it is 45."
fn integer(base: u8, digits: &[u8], suffix: &[u8]) -> Result<Vec<u8>, Refusal> {
    let mut number: u128 = 0;
    for &d in digits.iter().filter(|&&d| d != b'_') {
        number = number * base as u128 + digit_value(d) as u128;
        if number >= 1 << 64 {
            return Err(Refusal::plain(answer::NO_VALUE));
        }
    }
    let looks_like_prefix = matches!(suffix.first(), Some(b'b' | b'o' | b'x'));
    if number == 0 && looks_like_prefix {
        return Ok(b"00".to_vec());
    }
    Ok(number.to_string().into_bytes())
}

fn digit_value(d: u8) -> u8 {
    match d {
        b'0'..=b'9' => d - b'0',
        b'a'..=b'f' => d - b'a' + 10,
        b'A'..=b'F' => d - b'A' + 10,
        _ => unreachable!("a reading's digits are hex digits and `_`"),
    }
}

/// "the number is m times 10^k, two whole numbers, m not ending in 0; for zero both are 0. [..]
/// Written m, `e`, k (minus sign if negative). Zero is `0e0`."
///
/// `fraction` starts with its period and `exponent` with its e, or they are empty.
fn float(whole: &[u8], fraction: &[u8], exponent: &[u8]) -> Result<Vec<u8>, Refusal> {
    // The number is `all`, taken as a whole number, times 10^(exponent - digits behind the period).
    let mut all = decimal_digits(whole);
    let behind_period = decimal_digits(fraction);
    all.extend_from_slice(&behind_period);

    let leading = all.iter().take_while(|&&d| d == b'0').count();
    if leading == all.len() {
        return Ok(b"0e0".to_vec());
    }
    let trailing = all.iter().rev().take_while(|&&d| d == b'0').count();
    let m = &all[leading..all.len() - trailing];
    let k = exponent_value(exponent) - behind_period.len() as i64 + trailing as i64;
    if k.abs() > POWER_LIMIT {
        return Err(Refusal::plain(answer::POWER_TOO_FAR));
    }
    let mut form = m.to_vec();
    form.extend_from_slice(format!("e{k}").as_bytes());
    Ok(form)
}

fn decimal_digits(part: &[u8]) -> Vec<u8> {
    part.iter().copied().filter(u8::is_ascii_digit).collect()
}

/// The written exponent, 0 where there is none. Past 10^15 it is given as 10^15 or -10^15: a text
/// has at most 65,536 digits to move k by, so k is beyond the limit either way, on the same side.
fn exponent_value(exponent: &[u8]) -> i64 {
    const FAR: i64 = 1_000_000_000_000_000;
    let mut size: i64 = 0;
    for d in decimal_digits(exponent) {
        size = (size * 10 + (d - b'0') as i64).min(FAR);
    }
    if exponent.contains(&b'-') {
        -size
    } else {
        size
    }
}

/// "never raw": opening, each byte of the value as written in this kind, closing quote.
fn quoted(kind: u8, value: &[u8]) -> Vec<u8> {
    let (opening, quote): (&[u8], u8) = match kind {
        4 => (b"'", b'\''),
        5 => (b"\"", b'"'),
        6 => (b"b'", b'\''),
        7 => (b"b\"", b'"'),
        8 => (b"c\"", b'"'),
        _ => unreachable!("kinds 4 to 8 are quoted"),
    };
    let mut form = opening.to_vec();
    for &b in value {
        push_byte(&mut form, b, quote, kind >= 6);
    }
    form.push(quote);
    form
}

/// "Escaped are `\\`, `\n`, `\r`, `\t`, `\0`, and `'` in kinds 4 and 6 or `"` in 5, 7, 8; other
/// bytes below 32 and byte 127 are `\x` and two lower-case hex digits, as are all bytes above 127 in
/// kinds 6, 7, 8. Other characters stand as themselves."
fn push_byte(form: &mut Vec<u8>, b: u8, quote: u8, bytes_above_ascii: bool) {
    match b {
        b'\\' => form.extend_from_slice(b"\\\\"),
        b'\n' => form.extend_from_slice(b"\\n"),
        b'\r' => form.extend_from_slice(b"\\r"),
        b'\t' => form.extend_from_slice(b"\\t"),
        0 => form.extend_from_slice(b"\\0"),
        _ if b == quote => form.extend_from_slice(&[b'\\', quote]),
        1..=31 | 127 => push_hex(form, b),
        128..=255 if bytes_above_ascii => push_hex(form, b),
        _ => form.push(b),
    }
}

fn push_hex(form: &mut Vec<u8>, b: u8) {
    form.extend_from_slice(format!("\\x{b:02x}").as_bytes());
}

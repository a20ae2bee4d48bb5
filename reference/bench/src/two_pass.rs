//! A plain Rust settling in two passes, as ours is: the form of litrs's literal is measured, and then written to the front of a lent
//! buffer. Beside what litrs itself allocates nothing is. The forms are those of document 01, as in the reference's settle.rs.

use crate::answers::Refused;
use crate::common::answer::{FORM_TOO_LONG, NO_VALUE, OUT_TOO_SMALL, POWER_TOO_FAR};
use litrs::{FloatLit, IntegerLit, Literal};
use std::iter;

const LONGEST: usize = 65_536;
const FARTHEST: i64 = 1_000_000;

/// A form without its suffix, not yet written.
enum Form<'a> {
    Word(&'a str),
    /// An optional `0` in front, and a number.
    Integer {
        zero: bool,
        number: u64,
    },
    Float(Scaled<'a>),
    Quoted {
        style: Style,
        value: &'a [u8],
    },
}

/// A float: the digits of both parts, of which some at the front and at the end are left out, and the power of ten.
struct Scaled<'a> {
    whole: &'a str,
    fraction: &'a str,
    skipped: usize,
    kept: usize,
    power: i64,
}

#[derive(Clone, Copy)]
struct Style {
    opening: &'static [u8],
    quote: u8,
    /// Whether bytes above 127 are escaped.
    ascii: bool,
}

const fn style(opening: &'static [u8], quote: u8, ascii: bool) -> Style {
    Style { opening, quote, ascii }
}

/// Settles a text into the front of `out`: the form's length. A refusal writes nothing.
pub fn settle(text: &str, out: &mut [u8]) -> Result<usize, Refused> {
    let literal = Literal::parse(text).map_err(|e| e.kind_number())?;
    let (mut utf8, mut byte) = ([0; 4], [0; 1]);
    let form = match &literal {
        Literal::Bool(l) => Form::Word(l.as_str()),
        Literal::Integer(l) => integer(l)?,
        Literal::Float(l) => float(l)?,
        Literal::Char(l) => quoted(style(b"'", b'\'', false), l.value().encode_utf8(&mut utf8).as_bytes()),
        Literal::Byte(l) => {
            byte[0] = l.value();
            quoted(style(b"b'", b'\'', true), &byte)
        }
        Literal::String(l) => quoted(style(b"\"", b'"', false), l.value().as_bytes()),
        Literal::ByteString(l) => quoted(style(b"b\"", b'"', true), l.value()),
        Literal::CString(l) => quoted(style(b"c\"", b'"', true), l.value().to_bytes()),
        _ => unreachable!("litrs has eight kinds"),
    };
    write_form(&form, literal.suffix().as_bytes(), out)
}

fn write_form(form: &Form, suffix: &[u8], out: &mut [u8]) -> Result<usize, Refused> {
    let length = form.len();
    let whole = length + suffix.len();
    if whole > LONGEST {
        return Err(FORM_TOO_LONG);
    }
    if whole > out.len() {
        return Err(OUT_TOO_SMALL);
    }
    form.write(&mut out[..length]);
    out[length..whole].copy_from_slice(suffix);
    Ok(whole)
}

fn integer<'a>(l: &IntegerLit<&str>) -> Result<Form<'a>, Refused> {
    let number = l.value::<u64>().ok_or(NO_VALUE)?;
    let looks_like_prefix = matches!(l.suffix().as_bytes().first(), Some(b'b' | b'o' | b'x'));
    Ok(Form::Integer { zero: number == 0 && looks_like_prefix, number })
}

fn float<'a>(l: &'a FloatLit<&str>) -> Result<Form<'a>, Refused> {
    let (whole, fraction) = (l.integer_part(), l.fractional_part().unwrap_or(""));
    let all = digits(whole).count() + digits(fraction).count();
    let skipped = both(whole, fraction).take_while(|&d| d == b'0').count();
    if skipped == all {
        return Ok(Form::Word("0e0"));
    }
    let ending = both(whole, fraction).rev().take_while(|&d| d == b'0').count();
    let power = exponent(l.exponent_part()) - digits(fraction).count() as i64 + ending as i64;
    if power.abs() > FARTHEST {
        return Err(POWER_TOO_FAR);
    }
    Ok(Form::Float(Scaled { whole, fraction, skipped, kept: all - skipped - ending, power }))
}

fn digits(part: &str) -> impl DoubleEndedIterator<Item = u8> + '_ {
    part.bytes().filter(u8::is_ascii_digit)
}

fn both<'a>(whole: &'a str, fraction: &'a str) -> impl DoubleEndedIterator<Item = u8> + 'a {
    digits(whole).chain(digits(fraction))
}

/// The written exponent, or 10^15 either way where it is farther.
fn exponent(part: &str) -> i64 {
    let size = digits(part).fold(0, |sum: i64, d| (sum * 10 + i64::from(d - b'0')).min(1_000_000_000_000_000));
    if part.contains('-') {
        -size
    } else {
        size
    }
}

fn quoted(style: Style, value: &[u8]) -> Form<'_> {
    Form::Quoted { style, value }
}

impl Form<'_> {
    fn len(&self) -> usize {
        match self {
            Form::Word(word) => word.len(),
            Form::Integer { zero, number } => usize::from(*zero) + decimal_len(*number),
            Form::Float(f) => f.kept + 1 + usize::from(f.power < 0) + decimal_len(f.power.unsigned_abs()),
            Form::Quoted { style, value } => {
                style.opening.len() + value.iter().map(|&b| byte_len(b, *style)).sum::<usize>() + 1
            }
        }
    }

    /// Writes the form to a slice of exactly its length.
    fn write(&self, out: &mut [u8]) {
        match self {
            Form::Word(word) => out.copy_from_slice(word.as_bytes()),
            Form::Integer { zero, number } => {
                let front = usize::from(*zero);
                out[..front].fill(b'0');
                write_decimal(*number, &mut out[front..]);
            }
            Form::Float(f) => f.write(out),
            Form::Quoted { style, value } => write_quoted(*style, value, out),
        }
    }
}

impl Scaled<'_> {
    fn write(&self, out: &mut [u8]) {
        let (number, power) = out.split_at_mut(self.kept);
        for (place, digit) in iter::zip(number, both(self.whole, self.fraction).skip(self.skipped)) {
            *place = digit;
        }
        let sign: &[u8] = if self.power < 0 { b"e-" } else { b"e" };
        let (front, size) = power.split_at_mut(sign.len());
        front.copy_from_slice(sign);
        write_decimal(self.power.unsigned_abs(), size);
    }
}

fn decimal_len(number: u64) -> usize {
    number.checked_ilog10().unwrap_or(0) as usize + 1
}

/// Writes a number to a slice of exactly its length.
fn write_decimal(mut number: u64, out: &mut [u8]) {
    for place in out.iter_mut().rev() {
        *place = b'0' + (number % 10) as u8;
        number /= 10;
    }
}

/// How long a byte's form is.
fn byte_len(b: u8, style: Style) -> usize {
    match b {
        b'\\' | b'\n' | b'\r' | b'\t' | 0 => 2,
        _ if b == style.quote => 2,
        1..=31 | 127 => 4,
        128.. if style.ascii => 4,
        _ => 1,
    }
}

fn write_quoted(style: Style, value: &[u8], out: &mut [u8]) {
    let mut at = style.opening.len();
    out[..at].copy_from_slice(style.opening);
    for &b in value {
        at += write_byte(b, style, &mut out[at..]);
    }
    out[at] = style.quote;
}

/// Writes a byte's form to the front of `out`: its length.
fn write_byte(b: u8, style: Style, out: &mut [u8]) -> usize {
    let letter = match b {
        b'\\' => b'\\',
        b'\n' => b'n',
        b'\r' => b'r',
        b'\t' => b't',
        0 => b'0',
        _ if b == style.quote => b,
        1..=31 | 127 => return write_hex(b, out),
        128.. if style.ascii => return write_hex(b, out),
        _ => {
            out[0] = b;
            return 1;
        }
    };
    out[..2].copy_from_slice(&[b'\\', letter]);
    2
}

fn write_hex(b: u8, out: &mut [u8]) -> usize {
    const DIGITS: &[u8; 16] = b"0123456789abcdef";
    let (high, low) = (DIGITS[usize::from(b >> 4)], DIGITS[usize::from(b & 15)]);
    out[..4].copy_from_slice(&[b'\\', b'x', high, low]);
    4
}

//! Keybasket for Rust: the reading of a Rust literal, an integer's value, a string's decoded bytes, the settled form, and the type that
//! a suffix names.
//!
//! Every text is taken, of any bytes and any length: no call panics, allocates, or keeps anything for the next one. What a call
//! returns is what docs/01-scope.md says, and docs/02-change-requests.md of counts of digits and of [`read_keyed`]. That is proved of the C
//! calls that this crate makes; the crate itself only puts their numbers into types. It links libkeybasket.a, for x86-64 Linux; build.rs says
//! how the archive is found.
//!
//! ```
//! use keybasket::{decode, read, settle, value, Entry, IntegerType, Literal, Quoted};
//!
//! let text = b"0x_1Fu8";
//! let found = read(Entry::Any, text)?;
//! assert_eq!(found.literal, Literal::Integer { base: 16, digits: 2..5, digit_count: 2 });
//! assert_eq!(found.start_suffix, 5);
//! assert_eq!(IntegerType::from_suffix(&text[found.start_suffix..]), Some(IntegerType::U8));
//! assert_eq!(value(IntegerType::U8, text)?, 31);
//!
//! let mut out = [0; 16];
//! assert_eq!(decode(Quoted::String, br#""a\n""#, &mut out)?, b"a\n");
//! assert_eq!(settle(b"1.50e1", &mut out)?, b"15e0");
//!
//! let refusal = read(Entry::Any, b"'''").unwrap_err();
//! assert_eq!((refusal.number, refusal.name()), (26, "UnescapedSingleQuote"));
//! assert_eq!(refusal.span, Some(1..2));
//! # Ok::<(), keybasket::Refusal>(())
//! ```
#![deny(missing_docs, clippy::undocumented_unsafe_blocks)]

use std::error::Error;
use std::fmt;
use std::ops::Range;

#[cfg(not(all(
    target_arch = "x86_64",
    target_os = "linux",
    target_pointer_width = "64"
)))]
compile_error!("keybasket: libkeybasket.a is for x86-64 Linux");

/// No text is read that is longer, and no form or decoded value is longer: a buffer of this many bytes has room for each.
pub const LONGEST: usize = 65536;

/// What a call returns from here on is this plus a refusal number.
const REFUSED: usize = 100000;

/// How many numbers a reading has; build.rs checks that the library's readings have as many.
const NUMBERS: usize = 8;

/// The numbers of refusals, in order, and their names, as build.rs takes them from keybasket.h.
const NAMES: &[(u64, &str)] = include!(concat!(env!("OUT_DIR"), "/names.rs"));

// The same as in include/keybasket.h.
extern "C" {
    fn keybasket_read(entry: u64, text: *const u8, text_len: usize, numbers: *mut u64);
    fn keybasket_read_keyed(text: *const u8, text_len: usize, numbers: *mut u64);
    fn keybasket_value(ty: u64, text: *const u8, text_len: usize, value: *mut u64) -> usize;
    fn keybasket_decode(
        entry: u64,
        text: *const u8,
        text_len: usize,
        out: *mut u8,
        out_len: usize,
    ) -> usize;
    fn keybasket_settle(text: *const u8, text_len: usize, out: *mut u8, out_len: usize) -> usize;
    fn keybasket_integer_from_suffix(name: *const u8, name_len: usize) -> u64;
    fn keybasket_float_from_suffix(name: *const u8, name_len: usize) -> u64;
}

/// What a text is read as: any literal, or one of a kind.
#[derive(Clone, Copy, Debug, PartialEq, Eq, Hash)]
#[allow(missing_docs)]
pub enum Entry {
    Any = 0,
    Bool = 1,
    Integer = 2,
    Float = 3,
    Char = 4,
    String = 5,
    Byte = 6,
    ByteString = 7,
    CString = 8,
}

/// An integer type that a suffix can name. `U128`, `Usize`, `I128` and `Isize` have no values here: [`value`] refuses them with 42.
#[derive(Clone, Copy, Debug, PartialEq, Eq, Hash)]
#[allow(missing_docs)]
pub enum IntegerType {
    U8 = 1,
    U16 = 2,
    U32 = 3,
    U64 = 4,
    U128 = 5,
    Usize = 6,
    I8 = 7,
    I16 = 8,
    I32 = 9,
    I64 = 10,
    I128 = 11,
    Isize = 12,
}

impl IntegerType {
    /// All of them, by type code.
    pub const ALL: [IntegerType; 12] = [
        IntegerType::U8,
        IntegerType::U16,
        IntegerType::U32,
        IntegerType::U64,
        IntegerType::U128,
        IntegerType::Usize,
        IntegerType::I8,
        IntegerType::I16,
        IntegerType::I32,
        IntegerType::I64,
        IntegerType::I128,
        IntegerType::Isize,
    ];

    /// The integer type that a name stands for, as `u8`; none for every other name, of any bytes and any length.
    pub fn from_suffix(name: &[u8]) -> Option<IntegerType> {
        // SAFETY: the name's pointer and length are those of a slice, which is readable, and not null even where it is empty.
        let code = unsafe { keybasket_integer_from_suffix(name.as_ptr(), name.len()) };
        Self::ALL.into_iter().find(|&ty| ty as u64 == code)
    }
}

/// A float type that a suffix can name.
#[derive(Clone, Copy, Debug, PartialEq, Eq, Hash)]
#[allow(missing_docs)]
pub enum FloatType {
    F32 = 13,
    F64 = 14,
}

impl FloatType {
    /// The float type that a name stands for, `f32` or `f64`; none for every other name, of any bytes and any length.
    pub fn from_suffix(name: &[u8]) -> Option<FloatType> {
        // SAFETY: the name's pointer and length are those of a slice, as in `IntegerType::from_suffix`.
        let code = unsafe { keybasket_float_from_suffix(name.as_ptr(), name.len()) };
        [FloatType::F32, FloatType::F64]
            .into_iter()
            .find(|&ty| ty as u64 == code)
    }
}

/// A kind of literal that has decoded bytes.
#[derive(Clone, Copy, Debug, PartialEq, Eq, Hash)]
#[allow(missing_docs)]
pub enum Quoted {
    String,
    ByteString,
    CString,
}

impl Quoted {
    fn entry(self) -> Entry {
        match self {
            Quoted::String => Entry::String,
            Quoted::ByteString => Entry::ByteString,
            Quoted::CString => Entry::CString,
        }
    }
}

/// Why and where a text is refused.
#[derive(Clone, Debug, PartialEq, Eq, Hash)]
pub struct Refusal {
    /// The number of docs/01-scope.md's table, 1 to 48; or 53, which only [`read_keyed`] returns.
    pub number: u64,
    /// The bytes of the text that are at fault, where the table has a span. 53 has none.
    pub span: Option<Range<usize>>,
}

impl Refusal {
    /// The number's name, `Empty` for 1 to `OutTooSmall` for 48 as in docs/01-scope.md's table, `TooManyDigits` for 53; `?` for a number that
    /// has none.
    pub fn name(&self) -> &'static str {
        let at = NAMES.binary_search_by_key(&self.number, |&(number, _)| number);
        at.map_or("?", |at| NAMES[at].1)
    }
}

impl fmt::Display for Refusal {
    fn fmt(&self, f: &mut fmt::Formatter<'_>) -> fmt::Result {
        write!(f, "refused: {} ({})", self.name(), self.number)?;
        match &self.span {
            Some(span) => write!(f, " at {}-{}", span.start, span.end),
            None => Ok(()),
        }
    }
}

impl Error for Refusal {}

/// What a text was read as. All offsets are in bytes.
#[derive(Clone, Debug, PartialEq, Eq, Hash)]
pub struct Reading {
    /// The literal's kind and values.
    pub literal: Literal,
    /// Where the suffix starts, which ends with the text.
    pub start_suffix: usize,
}

/// A literal's kind and values.
///
/// The digits that count are the bytes that are digits of the base. Leading zeros count. `_` does not, nor does the base's prefix, the period, or
/// the `e` and the sign of an exponent.
#[derive(Clone, Debug, PartialEq, Eq, Hash)]
pub enum Literal {
    /// `true` or `false`.
    Bool(bool),
    /// An integer.
    Integer {
        /// 2, 8, 10 or 16.
        base: u64,
        /// Where its digits stand, without the base's prefix; there may be `_` among them.
        digits: Range<usize>,
        /// How many digits there are among these bytes.
        digit_count: usize,
    },
    /// A float. A part that is missing ends where the part before it ends, and has no digits.
    Float {
        /// Where the integer part ends.
        end_integer_part: usize,
        /// Where the fractional part ends.
        end_fractional_part: usize,
        /// Where the exponent ends.
        end_number_part: usize,
        /// How many digits the integer part has.
        integer_digits: usize,
        /// How many digits the fractional part has.
        fractional_digits: usize,
        /// How many digits the exponent has.
        exponent_digits: usize,
    },
    /// A char.
    Char(char),
    /// A string.
    String(Body),
    /// A byte.
    Byte(u8),
    /// A byte string.
    ByteString(Body),
    /// A C string.
    CString(Body),
}

/// A quoted literal's hashes and length.
#[derive(Clone, Copy, Debug, PartialEq, Eq, Hash)]
pub struct Body {
    /// How many hashes it has, where it is raw.
    pub hashes: Option<u8>,
    /// How many bytes its decoded value has; a C string's has no closing zero byte.
    pub value_len: usize,
}

/// Reads a text as any literal or as one of a kind.
pub fn read(entry: Entry, text: &[u8]) -> Result<Reading, Refusal> {
    let mut numbers = [0; NUMBERS];
    // SAFETY: the text's pointer and length are those of a slice, which is readable, and not null even where it is empty; numbers is a
    // local with room for all that the call writes, which nothing else refers to.
    unsafe {
        keybasket_read(
            entry as u64,
            text.as_ptr(),
            text.len(),
            numbers.as_mut_ptr(),
        )
    };
    reading(numbers)
}

/// Reads a text that was typed in: as [`read`] does by [`Entry::Any`], but an integer with over 40 digits, or a float with over 40 in its
/// integer part and fractional part together, is refused with 53.
///
/// The digits are those that a [`Literal`] counts, so `_` never makes a number too long, and leading zeros can. A float's exponent may have any
/// number of them. A text that [`read`] refuses is refused as there.
///
/// ```
/// use keybasket::{read, read_keyed, Entry};
///
/// assert_eq!(read_keyed(b"2143.5"), read(Entry::Any, b"2143.5"));
///
/// let held_down = [b'5'; 41];
/// assert!(read(Entry::Any, &held_down).is_ok());
/// let refusal = read_keyed(&held_down).unwrap_err();
/// assert_eq!((refusal.number, refusal.name(), refusal.span), (53, "TooManyDigits", None));
/// ```
pub fn read_keyed(text: &[u8]) -> Result<Reading, Refusal> {
    let mut numbers = [0; NUMBERS];
    // SAFETY: the text's pointer and length are those of a slice, and numbers is a local with room for all that is written, as in `read`.
    unsafe { keybasket_read_keyed(text.as_ptr(), text.len(), numbers.as_mut_ptr()) };
    reading(numbers)
}

/// What the numbers of a reading say.
fn reading([kind, second, values @ ..]: [u64; NUMBERS]) -> Result<Reading, Refusal> {
    if kind == 0 {
        let [spanned, start, end, ..] = values;
        return Err(Refusal {
            number: second,
            span: (spanned == 1).then_some(start as usize..end as usize),
        });
    }
    Ok(Reading {
        literal: literal(kind, values),
        start_suffix: second as usize,
    })
}

/// The literal of a kind, by the six numbers of its values. The last three count digits.
fn literal(kind: u64, [a, b, c, d, e, f]: [u64; NUMBERS - 2]) -> Literal {
    let body = Body {
        hashes: (a == 1).then_some(b as u8),
        value_len: c as usize,
    };
    match kind {
        1 => Literal::Bool(a == 1),
        2 => Literal::Integer {
            base: a,
            digits: b as usize..c as usize,
            digit_count: d as usize,
        },
        3 => Literal::Float {
            end_integer_part: a as usize,
            end_fractional_part: b as usize,
            end_number_part: c as usize,
            integer_digits: d as usize,
            fractional_digits: e as usize,
            exponent_digits: f as usize,
        },
        4 => Literal::Char(char::from_u32(a as u32).expect("a char's value is a scalar value")),
        5 => Literal::String(body),
        6 => Literal::Byte(a as u8),
        7 => Literal::ByteString(body),
        8 => Literal::CString(body),
        _ => unreachable!("there is no kind {kind}"),
    }
}

/// The number of an integer, where it is at most the type's largest. The text's suffix is read, but names no type here. A type without
/// values is refused with 42.
pub fn value(ty: IntegerType, text: &[u8]) -> Result<u64, Refusal> {
    let mut number = 0;
    // SAFETY: the text's pointer and length are those of a slice, as in `read`; number is a local that nothing else refers to.
    let result = unsafe { keybasket_value(ty as u64, text.as_ptr(), text.len(), &mut number) };
    if result >= REFUSED {
        return Err(refusal(result, Entry::Integer, text));
    }
    Ok(number)
}

/// Writes the decoded bytes of a string, a byte string or a C string to the front of `out`, and returns them. The bytes after them keep
/// what they held; where the text is refused, all of them do.
pub fn decode<'a>(kind: Quoted, text: &[u8], out: &'a mut [u8]) -> Result<&'a [u8], Refusal> {
    let entry = kind.entry();
    // SAFETY: both pointers and lengths are those of slices, as in `read`; out is lent to this call alone, so that it does not overlap
    // text, and a slice's bytes all have values.
    let result = unsafe {
        keybasket_decode(
            entry as u64,
            text.as_ptr(),
            text.len(),
            out.as_mut_ptr(),
            out.len(),
        )
    };
    if result >= REFUSED {
        return Err(refusal(result, entry, text));
    }
    Ok(&out[..result])
}

/// Writes the settled form of any literal to the front of `out`, and returns it. The bytes after it keep what they held; where the text is
/// refused, all of them do.
///
/// Two texts that both have forms are the same in kind, exact value and suffix exactly when the forms are equal. Of a text without one this says
/// nothing.
pub fn settle<'a>(text: &[u8], out: &'a mut [u8]) -> Result<&'a [u8], Refusal> {
    // SAFETY: both pointers and lengths are those of slices, as in `decode`, and out is lent to this call alone.
    let result =
        unsafe { keybasket_settle(text.as_ptr(), text.len(), out.as_mut_ptr(), out.len()) };
    if result >= REFUSED {
        return Err(refusal(result, Entry::Any, text));
    }
    Ok(&out[..result])
}

/// The refusal that a returned number stands for. Only reading gives a span, so the text is read once more for it, by the entry that the
/// call reads by. Where that reading is not refused with the same number, the call has refused by 42 or by 45 to 48, which have no span.
fn refusal(result: usize, entry: Entry, text: &[u8]) -> Refusal {
    let number = (result - REFUSED) as u64;
    let same = read(entry, text)
        .err()
        .filter(|refusal| refusal.number == number);
    same.unwrap_or(Refusal { number, span: None })
}

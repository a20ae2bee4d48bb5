//! The calls that litrs answers: readings, integer values, decoded bytes and both `from_suffix`.
//! Around them stand the input checks, codes and refusal numbers of document 01, the scope.
//! A reading's fields are litrs's own, taken from the lengths of the parts that it hands out.

use litrs::{
    BoolLit, ByteLit, ByteStringLit, CStringLit, CharLit, FloatLit, FloatType, IntegerLit,
    IntegerType, Literal, ParseError, StringLit,
};

/// The longest text that is looked at, in bytes.
pub const TEXT_LIMIT: usize = 65_536;

pub const BAD_CODE: u8 = 42;
pub const TEXT_TOO_LONG: u8 = 43;
pub const NOT_UTF8: u8 = 44;
pub const NO_VALUE: u8 = 45;
pub const POWER_TOO_FAR: u8 = 46;
pub const FORM_TOO_LONG: u8 = 47;
pub const OUT_TOO_SMALL: u8 = 48;

/// A refusal: its number, and its span where it has one (the second offset is excluded).
#[derive(Debug)]
pub struct Refusal {
    pub number: u8,
    pub span: Option<(usize, usize)>,
}

impl Refusal {
    /// A refusal without a span, as all that 01 and 02 add to litrs's own.
    pub fn plain(number: u8) -> Self {
        Refusal { number, span: None }
    }
}

impl From<ParseError> for Refusal {
    fn from(e: ParseError) -> Self {
        let span = e.span().map(|s| (s.start, s.end));
        Refusal { number: e.kind_number(), span }
    }
}

/// What a reading holds beside kind and start of suffix.
pub enum Value {
    Bool(bool),
    Integer { base: u8, start: usize, end: usize },
    Float { end_integer: usize, end_fractional: usize, end_number: usize },
    Char(char),
    Byte(u8),
    /// Kinds 5, 7 and 8: the hashes of a raw one, and the decoded bytes.
    Quoted { hashes: Option<usize>, bytes: Vec<u8> },
}

pub struct Reading {
    pub kind: u8,
    pub suffix: usize,
    pub value: Value,
}

/// The reading of `text` by an entry code.
pub fn read(code: u8, text: &[u8]) -> Result<Reading, Refusal> {
    if code > 8 {
        return Err(Refusal::plain(BAD_CODE));
    }
    read_checked(code, checked(text)?)
}

/// The reading by an entry code of 0 to 8 of a text that has passed the input checks.
pub fn read_checked(code: u8, text: &str) -> Result<Reading, Refusal> {
    Ok(match code {
        0 => any(Literal::parse(text)?),
        1 => bool_reading(BoolLit::parse(text)?),
        2 => integer_reading(IntegerLit::parse(text)?),
        3 => float_reading(FloatLit::parse(text)?),
        4 => char_reading(CharLit::parse(text)?),
        5 => string_reading(StringLit::parse(text)?),
        6 => byte_reading(ByteLit::parse(text)?),
        7 => byte_string_reading(ByteStringLit::parse(text)?),
        _ => c_string_reading(CStringLit::parse(text)?),
    })
}

/// The input checks, in 01's order: 43, then 44.
fn checked(text: &[u8]) -> Result<&str, Refusal> {
    if text.len() > TEXT_LIMIT {
        return Err(Refusal::plain(TEXT_TOO_LONG));
    }
    std::str::from_utf8(text).map_err(|_| Refusal::plain(NOT_UTF8))
}

fn any(lit: Literal<&str>) -> Reading {
    match lit {
        Literal::Bool(l) => bool_reading(l),
        Literal::Integer(l) => integer_reading(l),
        Literal::Float(l) => float_reading(l),
        Literal::Char(l) => char_reading(l),
        Literal::String(l) => string_reading(l),
        Literal::Byte(l) => byte_reading(l),
        Literal::ByteString(l) => byte_string_reading(l),
        Literal::CString(l) => c_string_reading(l),
        _ => unreachable!("litrs has eight kinds"),
    }
}

/// 01: "The start of suffix is the text's end."
fn bool_reading(l: BoolLit) -> Reading {
    Reading { kind: 1, suffix: l.as_str().len(), value: Value::Bool(l.value()) }
}

fn integer_reading(l: IntegerLit<&str>) -> Reading {
    let start = l.base().prefix().len();
    let end = start + l.raw_main_part().len();
    let value = Value::Integer { base: l.base().value(), start, end };
    Reading { kind: 2, suffix: start_of_suffix(l.raw_input(), l.suffix()), value }
}

fn float_reading(l: FloatLit<&str>) -> Reading {
    let end_integer = l.integer_part().len();
    let end_fractional = match l.fractional_part() {
        Some(digits) => end_integer + 1 + digits.len(),
        None => end_integer,
    };
    let value = Value::Float { end_integer, end_fractional, end_number: l.number_part().len() };
    Reading { kind: 3, suffix: start_of_suffix(l.raw_input(), l.suffix()), value }
}

fn char_reading(l: CharLit<&str>) -> Reading {
    Reading {
        kind: 4,
        suffix: start_of_suffix(l.raw_input(), l.suffix()),
        value: Value::Char(l.value()),
    }
}

fn byte_reading(l: ByteLit<&str>) -> Reading {
    Reading {
        kind: 6,
        suffix: start_of_suffix(l.raw_input(), l.suffix()),
        value: Value::Byte(l.value()),
    }
}

fn string_reading(l: StringLit<&str>) -> Reading {
    let hashes = l.is_raw_string().then(|| hashes_after(l.raw_input(), "r"));
    let value = Value::Quoted { hashes, bytes: l.value().as_bytes().to_vec() };
    Reading { kind: 5, suffix: start_of_suffix(l.raw_input(), l.suffix()), value }
}

fn byte_string_reading(l: ByteStringLit<&str>) -> Reading {
    let hashes = l.is_raw_byte_string().then(|| hashes_after(l.raw_input(), "br"));
    let value = Value::Quoted { hashes, bytes: l.value().to_vec() };
    Reading { kind: 7, suffix: start_of_suffix(l.raw_input(), l.suffix()), value }
}

/// 01: "A C value has no closing zero byte."
fn c_string_reading(l: CStringLit<&str>) -> Reading {
    let hashes = l.is_raw_c_string().then(|| hashes_after(l.raw_input(), "cr"));
    let value = Value::Quoted { hashes, bytes: l.value().to_bytes().to_vec() };
    Reading { kind: 8, suffix: start_of_suffix(l.raw_input(), l.suffix()), value }
}

fn start_of_suffix(raw: &str, suffix: &str) -> usize {
    raw.len() - suffix.len()
}

fn hashes_after(raw: &str, prefix: &str) -> usize {
    raw[prefix.len()..].bytes().take_while(|&b| b == b'#').count()
}

/// The value, at a type code, of entry 2's reading. All eight types' values fit a u64.
pub fn integer_value(code: u8, text: &[u8]) -> Result<u64, Refusal> {
    if !matches!(code, 1..=4 | 7..=10) {
        return Err(Refusal::plain(BAD_CODE));
    }
    let l = IntegerLit::parse(checked(text)?)?;
    let value = match code {
        1 => l.value::<u8>().map(u64::from),
        2 => l.value::<u16>().map(u64::from),
        3 => l.value::<u32>().map(u64::from),
        4 => l.value::<u64>(),
        7 => l.value::<i8>().map(|v| v as u64),
        8 => l.value::<i16>().map(|v| v as u64),
        9 => l.value::<i32>().map(|v| v as u64),
        _ => l.value::<i64>().map(|v| v as u64),
    };
    value.ok_or(Refusal::plain(NO_VALUE))
}

/// The decoded bytes of entry 5, 7 or 8, written to the front of `out`; answers their count.
pub fn decode(code: u8, text: &[u8], out: &mut [u8]) -> Result<usize, Refusal> {
    if !matches!(code, 5 | 7 | 8) {
        return Err(Refusal::plain(BAD_CODE));
    }
    match read(code, text)?.value {
        Value::Quoted { bytes, .. } => write_front(&bytes, out),
        _ => unreachable!("entries 5, 7 and 8 read quoted kinds"),
    }
}

/// Writes `piece` to the front of `out`; 48 exactly when `out` is shorter.
pub fn write_front(piece: &[u8], out: &mut [u8]) -> Result<usize, Refusal> {
    if out.len() < piece.len() {
        return Err(Refusal::plain(OUT_TOO_SMALL));
    }
    out[..piece.len()].copy_from_slice(piece);
    Ok(piece.len())
}

/// The type code of an integer type's name, 0 for any other bytes.
pub fn integer_from_suffix(name: &[u8]) -> u8 {
    match std::str::from_utf8(name).ok().and_then(IntegerType::from_suffix) {
        Some(IntegerType::U8) => 1,
        Some(IntegerType::U16) => 2,
        Some(IntegerType::U32) => 3,
        Some(IntegerType::U64) => 4,
        Some(IntegerType::U128) => 5,
        Some(IntegerType::Usize) => 6,
        Some(IntegerType::I8) => 7,
        Some(IntegerType::I16) => 8,
        Some(IntegerType::I32) => 9,
        Some(IntegerType::I64) => 10,
        Some(IntegerType::I128) => 11,
        Some(IntegerType::Isize) => 12,
        _ => 0,
    }
}

/// The type code of a float type's name, 0 for any other bytes.
pub fn float_from_suffix(name: &[u8]) -> u8 {
    match std::str::from_utf8(name).ok().and_then(FloatType::from_suffix) {
        Some(FloatType::F32) => 13,
        Some(FloatType::F64) => 14,
        _ => 0,
    }
}

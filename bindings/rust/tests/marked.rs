//! The marked texts of docs/01-scope.md, some other rows of its table, and the names that suffixes have, by the calls.
use keybasket::{
    decode, read, settle, value, Body, Entry, FloatType, IntegerType, Literal, Quoted, Refusal,
    LONGEST,
};
use std::ops::Range;

const BEFORE: u8 = 0xa5;

fn refused<T>(number: u64, span: Option<Range<usize>>) -> Result<T, Refusal> {
    Err(Refusal { number, span })
}

/// Settles a text into a buffer of some length; the bytes after the form, or all of them, are as they were.
fn settled(text: &[u8], room: usize) -> Result<Vec<u8>, Refusal> {
    let mut out = vec![BEFORE; room];
    let form = settle(text, &mut out).map(<[u8]>::to_vec);
    let written = form.as_ref().map_or(0, Vec::len);
    assert!(out[written..].iter().all(|&b| b == BEFORE));
    form
}

/// Decodes likewise.
fn decoded(kind: Quoted, text: &[u8], room: usize) -> Result<Vec<u8>, Refusal> {
    let mut out = vec![BEFORE; room];
    let value = decode(kind, text, &mut out).map(<[u8]>::to_vec);
    let written = value.as_ref().map_or(0, Vec::len);
    assert!(out[written..].iter().all(|&b| b == BEFORE));
    value
}

fn literal(entry: Entry, text: &str) -> (Literal, usize) {
    let found = read(entry, text.as_bytes()).unwrap();
    (found.literal, found.start_suffix)
}

#[test]
fn marked_refusals() {
    let marked: [(&[u8], u64, Range<usize>); 6] = [
        (b"0x", 6, 2..2),
        (br#""\""#, 9, 1..2),
        (b"'''", 26, 1..2),
        (b"0b1e", 41, 1..2),
        (br#""\x4""#, 9, 1..4),
        (br#""\x4"u"#, 10, 1..5),
    ];
    for (text, number, span) in marked {
        assert_eq!(read(Entry::Any, text), refused(number, Some(span.clone())));
        assert_eq!(settled(text, LONGEST), refused(number, Some(span)));
    }
}

#[test]
fn marked_forms() {
    let marked = [
        ("0b0x3", "00x3"),
        ("00b1", "00b1"),
        ("1.50e1", "15e0"),
        ("0e1000001", "0e0"),
        ("0.1e1000001", "1e1000000"),
        ("c\"é\"", r#"c"\xc3\xa9""#),
        ("0x_1F", "31"),
    ];
    for (text, form) in marked {
        assert_eq!(settled(text.as_bytes(), LONGEST), Ok(form.into()));
        assert_eq!(settled(text.as_bytes(), form.len()), Ok(form.into()));
        assert_eq!(settled(text.as_bytes(), form.len() - 1), refused(48, None));
    }
    assert_eq!(settled(b"10e1000000", LONGEST), refused(46, None));
}

#[test]
fn readings() {
    let body = |hashes, value_len| Body { hashes, value_len };
    assert_eq!(literal(Entry::Any, "true"), (Literal::Bool(true), 4));
    assert_eq!(literal(Entry::Bool, "false"), (Literal::Bool(false), 5));
    assert_eq!(
        literal(Entry::Any, "0x_1Fu8"),
        (
            Literal::Integer {
                base: 16,
                digits: 2..5,
                digit_count: 2
            },
            5
        )
    );
    assert_eq!(
        literal(Entry::Integer, "0b0x3"),
        (
            Literal::Integer {
                base: 2,
                digits: 2..3,
                digit_count: 1
            },
            3
        )
    );
    let float = Literal::Float {
        end_integer_part: 1,
        end_fractional_part: 4,
        end_number_part: 6,
        integer_digits: 1,
        fractional_digits: 2,
        exponent_digits: 1,
    };
    assert_eq!(literal(Entry::Any, "1.50e1f32"), (float, 6));
    assert_eq!(literal(Entry::Char, "'é'x"), (Literal::Char('é'), 4));
    assert_eq!(
        literal(Entry::Any, r"'\u{10ffff}'"),
        (Literal::Char('\u{10ffff}'), 12)
    );
    assert_eq!(
        literal(Entry::Any, r#""a\n""#),
        (Literal::String(body(None, 2)), 5)
    );
    assert_eq!(
        literal(Entry::String, r###"r##"a"#b"##x"###),
        (Literal::String(body(Some(2), 4)), 11)
    );
    assert_eq!(literal(Entry::Byte, r"b'\xff'"), (Literal::Byte(255), 7));
    assert_eq!(
        literal(Entry::ByteString, r#"br"\""#),
        (Literal::ByteString(body(Some(0), 1)), 5)
    );
    assert_eq!(
        literal(Entry::CString, "c\"é\""),
        (Literal::CString(body(None, 2)), 5)
    );
}

#[test]
fn refused_readings() {
    assert_eq!(read(Entry::Any, b""), refused(1, None));
    assert_eq!(read(Entry::Bool, b""), refused(3, None));
    assert_eq!(read(Entry::Integer, b"z"), refused(4, Some(0..1)));
    assert_eq!(read(Entry::Char, b"a"), refused(28, Some(0..1)));
    assert_eq!(read(Entry::Float, b"1"), refused(40, None));
    assert_eq!(read(Entry::Any, b"c\"\0\""), refused(36, Some(2..3)));
    assert_eq!(read(Entry::Any, &[b'0'; LONGEST + 1]), refused(43, None));
    assert_eq!(read(Entry::Any, b"\xff"), refused(44, None));
    assert_eq!(
        read(Entry::Any, b"0b1e").unwrap_err().to_string(),
        "refused: IntegerSuffixStartingWithE (41) at 1-2"
    );
    assert_eq!(
        read(Entry::Any, b"").unwrap_err().to_string(),
        "refused: Empty (1)"
    );
}

#[test]
fn values() {
    assert_eq!(value(IntegerType::U8, b"0x_1F"), Ok(31));
    assert_eq!(value(IntegerType::U8, b"255"), Ok(255));
    assert_eq!(value(IntegerType::U8, b"256"), refused(45, None));
    assert_eq!(
        value(IntegerType::U64, b"18446744073709551615u8"),
        Ok(u64::MAX)
    );
    assert_eq!(
        value(IntegerType::U64, b"18446744073709551616"),
        refused(45, None)
    );
    let largest = [
        (IntegerType::U16, 65535),
        (IntegerType::U32, 4294967295),
        (IntegerType::I8, 127),
        (IntegerType::I16, 32767),
        (IntegerType::I32, 2147483647),
        (IntegerType::I64, 9223372036854775807),
    ];
    for (ty, most) in largest {
        assert_eq!(value(ty, most.to_string().as_bytes()), Ok(most));
        assert_eq!(
            value(ty, (most + 1).to_string().as_bytes()),
            refused(45, None)
        );
    }
    assert_eq!(value(IntegerType::U64, b"0x"), refused(6, Some(2..2)));
    assert_eq!(value(IntegerType::U64, b""), refused(1, None));
    // no values at all, whatever the text: 42 comes first, and without a span
    for ty in [
        IntegerType::U128,
        IntegerType::Usize,
        IntegerType::I128,
        IntegerType::Isize,
    ] {
        assert_eq!(value(ty, b"1"), refused(42, None));
        assert_eq!(value(ty, b"0x"), refused(42, None));
    }
}

#[test]
fn decoded_bytes() {
    assert_eq!(decoded(Quoted::String, br#""a\n""#, 3), Ok(b"a\n".into()));
    assert_eq!(decoded(Quoted::String, br#""a\n""#, 2), Ok(b"a\n".into()));
    assert_eq!(decoded(Quoted::String, br#""a\n""#, 1), refused(48, None));
    assert_eq!(decoded(Quoted::String, br#""""#, 0), Ok(vec![]));
    assert_eq!(decoded(Quoted::ByteString, br#"b"\xff""#, 1), Ok(vec![255]));
    assert_eq!(
        decoded(Quoted::CString, "c\"é\"".as_bytes(), 4),
        Ok("é".into())
    );
    assert_eq!(
        decoded(Quoted::CString, br#"c"\0""#, 4),
        refused(35, Some(2..4))
    );
    assert_eq!(decoded(Quoted::String, b"a", 4), refused(31, Some(0..1)));
}

#[test]
fn suffixes() {
    for ty in IntegerType::ALL {
        let name = format!("{ty:?}").to_lowercase();
        assert_eq!(IntegerType::from_suffix(name.as_bytes()), Some(ty));
        assert_eq!(FloatType::from_suffix(name.as_bytes()), None);
    }
    for (ty, name) in [(FloatType::F32, b"f32"), (FloatType::F64, b"f64")] {
        assert_eq!(FloatType::from_suffix(name), Some(ty));
        assert_eq!(IntegerType::from_suffix(name), None);
    }
    let others: [&[u8]; 7] = [b"", b"u", b"U8", b"u88", b"f3", b"F32", b"\xff"];
    for name in others {
        assert_eq!(IntegerType::from_suffix(name), None);
        assert_eq!(FloatType::from_suffix(name), None);
    }
    assert_eq!(IntegerType::from_suffix(&[b'u'; LONGEST + 1]), None);
    assert_eq!(FloatType::from_suffix(&[b'f'; LONGEST + 1]), None);
}

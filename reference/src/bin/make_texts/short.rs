//! Every text of up to three characters over a telling alphabet, every text of up to two inside
//! frames that lead deeper into each kind, every byte where a byte decides, and wrong codes.

use crate::records::{Records, DECODED_KINDS};
use std::io;

/// Characters that some rule of the literals tells from others, two to four bytes long among them.
const ALPHABET: [&str; 34] = [
    "'", "\"", "\\", "0", "1", "8", "9", "_", "e", "E", "x", "o", "b", "u", "r", "c", "n", "f", "t",
    "z", "#", "{", "}", ".", "+", "-", "\n", "\r", "\t", "\0", " ", "é", "€", "🦊",
];

/// What stands before and behind the short texts.
const FRAMES: [(&str, &str); 44] = [
    ("'", "'"),
    ("b'", "'"),
    ("\"", "\""),
    ("b\"", "\""),
    ("c\"", "\""),
    ("r\"", "\""),
    ("br\"", "\""),
    ("cr\"", "\""),
    ("r#\"", "\"#"),
    ("br#\"a\"", "\"#"),
    ("cr#\"\"", "\"#"),
    ("r##\"\"#", "\"##z"),
    ("'\\", "'"),
    ("b'\\", "'"),
    ("\"\\", "\""),
    ("b\"\\", "\""),
    ("c\"\\", "\""),
    ("\"\\", ""),
    ("c\"a\\x4", ""),
    ("'\\x", "'"),
    ("b'\\x", "'"),
    ("\"\\x", "\""),
    ("\"\\x", "\"u"),
    ("b\"\\x", "\""),
    ("c\"\\x", "\"é"),
    ("'\\u", "1}'"),
    ("\"\\u{", "}\""),
    ("c\"\\u{1", "}\""),
    ("'\\u{", "'"),
    ("\"\\\n", "\""),
    ("b\"a\\\n \t", "b\""),
    ("c\"\\\n", ""),
    ("0b", ""),
    ("0o", ""),
    ("0x", ""),
    ("0b1", "e"),
    ("1.", ""),
    ("1.5", ""),
    ("1e", ""),
    ("10.0E+", "1"),
    ("1e1", ""),
    ("'a'", ""),
    ("\"a\"", "_"),
    ("c\"\"z", ""),
];

pub fn write(records: &mut Records) -> io::Result<()> {
    all_up_to_three(records)?;
    framed(records)?;
    every_byte(records)?;
    codes(records)
}

/// Calls `each` with every text of up to `length` characters of the alphabet.
fn texts(length: usize, each: &mut impl FnMut(&str) -> io::Result<()>) -> io::Result<()> {
    fn extend(
        text: &mut String,
        left: usize,
        each: &mut impl FnMut(&str) -> io::Result<()>,
    ) -> io::Result<()> {
        each(text)?;
        if left == 0 {
            return Ok(());
        }
        for c in ALPHABET {
            text.push_str(c);
            extend(text, left - 1, each)?;
            text.truncate(text.len() - c.len());
        }
        Ok(())
    }
    extend(&mut String::new(), length, each)
}

fn all_up_to_three(records: &mut Records) -> io::Result<()> {
    texts(3, &mut |t| {
        let text = t.as_bytes();
        if t.chars().count() <= 1 {
            records.value_by_all(text)?;
            DECODED_KINDS.iter().try_for_each(|&code| records.decode_around(code, text))?;
        }
        if t.chars().count() <= 2 {
            records.read_by_all(text)?;
            return records.settle_around(text);
        }
        records.few_calls(text)?;
        for &code in own_entries(text[0]) {
            records.read(code, text)?;
        }
        if own_entries(text[0]).is_empty() && records.turn() % 4 == 0 {
            let other = 1 + (records.turn() / 4 % 8) as u8;
            records.read(other, text)?;
        }
        Ok(())
    })
}

/// The entries that read on behind this first byte.
fn own_entries(first: u8) -> &'static [u8] {
    match first {
        b'0'..=b'9' => &[2, 3],
        b'\'' => &[4],
        b'"' | b'r' => &[5],
        b'b' => &[6, 7],
        b'c' => &[8],
        _ => &[],
    }
}

fn framed(records: &mut Records) -> io::Result<()> {
    for (before, behind) in FRAMES {
        texts(2, &mut |t| {
            let text = format!("{before}{t}{behind}").into_bytes();
            records.few_calls(&text)?;
            for &code in own_entries(text[0]) {
                if records.turn() % 3 == 0 {
                    records.read(code, &text)?;
                }
            }
            Ok(())
        })?;
    }
    Ok(())
}

/// Places where one byte decides: alone, in each body, behind a backslash, in a suffix.
const BYTE_PLACES: [(&[u8], &[u8]); 34] = [
    (b"'", b"'"),
    (b"b'", b"'"),
    (b"\"", b"\""),
    (b"b\"", b"\""),
    (b"c\"", b"\""),
    (b"r\"", b"\""),
    (b"br\"", b"\""),
    (b"cr\"", b"\""),
    (b"'\\", b"'"),
    (b"b'\\", b"'"),
    (b"\"\\", b"\""),
    (b"b\"\\", b"\""),
    (b"c\"\\", b"\""),
    (b"'\\x1", b"'"),
    (b"b\"\\x", b"1\""),
    (b"'\\u{", b"}'"),
    (b"\"\\u{4", b"1}\""),
    (b"\"a\\\n", b" b\""),
    (b"'a'", b""),
    (b"'a'z", b""),
    (b"b'a'z", b""),
    (b"\"a\"", b"z"),
    (b"r#\"a\"#", b""),
    (b"1", b""),
    (b"1z", b""),
    (b"0b1", b""),
    (b"0o7", b""),
    (b"0xf", b""),
    (b"0", b"1"),
    (b"1.5", b""),
    (b"1.5z", b""),
    (b"1.", b"5"),
    (b"1e", b"1"),
    (b"r", b"\"a\""),
];

fn every_byte(records: &mut Records) -> io::Result<()> {
    for b in 0..=255u8 {
        records.read_by_all(&[b])?;
        for (before, behind) in BYTE_PLACES {
            // Most bytes above 127 are not UTF-8 here: a few of them say so.
            if b < 128 || b % 16 == 9 {
                records.few_calls(&[before, &[b], behind].concat())?;
            }
        }
        for (before, behind) in [("'", "'"), ("\"", "\"x"), ("b'", "'"), ("b\"", "\""), ("c\"", "\"")] {
            records.few_calls(format!("{before}\\x{b:02x}{behind}").as_bytes())?;
            records.few_calls(format!("{before}\\x{b:02X}{behind}").as_bytes())?;
        }
    }
    Ok(())
}

/// Every code of the calls that take one; code 42 comes before the checks of the text.
fn codes(records: &mut Records) -> io::Result<()> {
    let long = vec![b'1'; 65_537];
    for code in 0..=255 {
        records.read(code, b"1")?;
        records.read(code, b"\xff")?;
        records.value(code, b"1")?;
        records.value(code, b"'\xff")?;
        for text in [&b"\"ab\""[..], b"b\"ab\"", b"c\"ab\"", b"\xff"] {
            records.decode(code, 2, text)?;
        }
        if code % 37 == 5 || code == 42 {
            records.read(code, &long)?;
            records.value(code, &long)?;
            records.decode(code, 1, &long)?;
        }
    }
    Ok(())
}

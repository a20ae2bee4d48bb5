//! Random texts of each kind, mostly well formed, and damaged copies of them.

use crate::{
    common::settle,
    prng::Prng,
    records::{decoded_length, form_length, Records, DECODED_KINDS, LENGTH_LIMIT, VALUE_TYPES},
};
use std::io;

/// Writes random records until there are `count` in all.
pub fn write(records: &mut Records, rng: &mut Prng, count: u64) -> io::Result<()> {
    while records.made() < count {
        let kind = 1 + rng.below(8) as u8;
        let text = text(rng, kind);
        calls(records, rng, kind, &text)?;
        if rng.chance(60) {
            let copy = damaged(rng, &text);
            calls(records, rng, kind, &copy)?;
        }
        if rng.chance(3) {
            let text = bytes(rng);
            calls(records, rng, kind, &text)?;
        }
        if rng.chance(1) {
            let name = damaged(rng, b"usize");
            records.integer_name(&name)?;
            records.float_name(&name)?;
        }
    }
    Ok(())
}

/// Entry 0 and the keyed entry, the kind's own entry or another, and one or two of the other calls.
fn calls(records: &mut Records, rng: &mut Prng, kind: u8, text: &[u8]) -> io::Result<()> {
    records.read(0, text)?;
    if rng.chance(50) {
        records.read(kind, text)?;
    }
    if rng.chance(5) {
        records.read(rng.below(10) as u8, text)?;
    }
    if kind == 2 && rng.chance(10) {
        records.value_by_all(text)?;
    } else if kind == 2 || rng.chance(1) {
        records.value(VALUE_TYPES[rng.below(8)], text)?;
    }
    if DECODED_KINDS.contains(&kind) {
        let buffer = buffer(rng, decoded_length(kind, text));
        records.decode(kind, buffer, text)?;
    }
    // A form is a text too.
    if let Ok((_, form)) = settle::settled_form(text) {
        if rng.chance(10) {
            records.calls(kind, &form)?;
        }
    }
    if rng.chance(10) {
        records.settle_around(text)
    } else {
        let buffer = buffer(rng, form_length(text));
        records.settle(buffer, text)
    }
}

/// A lent buffer's length: around the exact length, or anything.
fn buffer(rng: &mut Prng, exact: Option<usize>) -> usize {
    let exact = exact.unwrap_or(rng.below(20));
    let length = match rng.below(8) {
        0 => exact.saturating_sub(1),
        1 | 2 => exact,
        3 => exact + 1,
        4 => rng.below(exact + 1),
        5 => 0,
        _ => exact + rng.below(100),
    };
    length.min(LENGTH_LIMIT)
}

fn text(rng: &mut Prng, kind: u8) -> Vec<u8> {
    // One text in 2,000 is long.
    let size = if rng.below(2_000) == 0 { 1 + rng.below(6_000) } else { 1 + rng.below(7) };
    let mut t = match kind {
        1 => return boolean(rng),
        2 if rng.chance(10) => keyed_integer(rng),
        2 => integer(rng, size),
        3 if rng.chance(10) => keyed_float(rng),
        3 => float(rng, size),
        4 | 6 => single(rng, kind),
        _ if rng.chance(35) => raw(rng, kind, size),
        _ => quoted(rng, kind, size),
    };
    t.push_str(&suffix(rng));
    t.into_bytes()
}

fn boolean(rng: &mut Prng) -> Vec<u8> {
    let texts = ["true", "false", "True", "FALSE", "tru", "falsee", "true_", "falseu8", "t", "f", "true\n", " false"];
    rng.pick(&texts).as_bytes().to_vec()
}

fn suffix(rng: &mut Prng) -> String {
    const TYPES: [&str; 14] = [
        "u8", "u16", "u32", "u64", "u128", "usize", "i8", "i16", "i32", "i64", "i128", "isize", "f32", "f64",
    ];
    const ODD: [&str; 20] = [
        "_", "__", "_a", "b", "o", "x", "b1", "o7", "x_F", "e", "E5", "e_", "é", "🦊x", "z-", "z z", "1", "\0", "#", "z\u{7f}",
    ];
    match rng.below(10) {
        0..=4 => String::new(),
        5 | 6 => rng.pick(&TYPES).to_string(),
        7 => rng.pick(&ODD).to_string(),
        _ => {
            let count = 1 + rng.below(6);
            (0..count).map(|_| rng.pick(&["a", "g", "k", "z", "Q", "_", "0", "9", "é", "x", "b", "o", "r"])).collect()
        }
    }
}

/// `count` digits from `digits`, with `_` among them now and then.
fn digits(rng: &mut Prng, digits: &str, count: usize) -> String {
    let mut s = String::new();
    let zeros = if rng.chance(30) { rng.below(4) } else { 0 };
    s.push_str(&"0".repeat(zeros));
    for _ in 0..count {
        s.push(digits.as_bytes()[rng.below(digits.len())] as char);
        while rng.chance(8) {
            s.push('_');
        }
    }
    s
}

/// A base: its prefix, its digits, and how many of them a number of 64 bits and a little more has.
fn base(rng: &mut Prng) -> (&'static str, &'static str, usize) {
    match rng.below(5) {
        0 => ("0b", "01", 66),
        1 => ("0o", "01234567", 23),
        2 => ("0x", "0123456789abcdefABCDEF", 17),
        _ => ("", "0123456789", 21),
    }
}

fn integer(rng: &mut Prng, size: usize) -> String {
    let (prefix, set, most) = base(rng);
    let count = if size > 7 {
        size
    } else if rng.chance(30) {
        most - rng.below(3)
    } else {
        1 + rng.below(most)
    };
    let mut s = prefix.to_string();
    if !prefix.is_empty() && rng.chance(10) {
        s.push('_');
    }
    // A small number is told from a large one by its leading zeros only.
    if rng.chance(10) {
        s.push_str(&"0".repeat(count));
    }
    let count = if rng.chance(97) { count } else { 0 };
    s.push_str(&digits(rng, set, count));
    if rng.chance(3) {
        s.push_str(rng.pick(&["2", "8", "9", "a", "F", "g"]));
    }
    s
}

/// About as many digits as the keyed entry takes.
fn keyed_count(rng: &mut Prng) -> usize {
    36 + rng.below(9)
}

fn keyed_integer(rng: &mut Prng) -> String {
    let (prefix, set, _) = base(rng);
    let count = keyed_count(rng);
    let mut s = format!("{prefix}{}", digits(rng, set, count));
    if rng.chance(5) {
        s.push_str(rng.pick(&["2", "8", "9", "a", "F", "g"]));
    }
    s
}

const DECIMAL: &str = "00000123456789";

/// A float whose digits of whole part and fraction are counted together. The exponent's are not.
fn keyed_float(rng: &mut Prng) -> String {
    let count = keyed_count(rng);
    let whole = 1 + rng.below(count);
    let mut s = digits(rng, DECIMAL, whole);
    let period = whole < count || rng.chance(30);
    if period {
        s.push('.');
        s.push_str(&digits(rng, DECIMAL, count - whole));
    }
    if !period || rng.chance(50) {
        s.push_str(&signed_exponent(rng));
    }
    s
}

fn float(rng: &mut Prng, size: usize) -> String {
    let count = 1 + rng.below(size + 2);
    let mut s = digits(rng, DECIMAL, count);
    if s.starts_with('_') || s.is_empty() {
        s.insert(0, '0');
    }
    let period = rng.chance(65);
    if period {
        s.push('.');
        let count = rng.below(size + 4);
        s.push_str(&digits(rng, DECIMAL, count));
    }
    if rng.chance(if period { 50 } else { 90 }) {
        s.push_str(&signed_exponent(rng));
    }
    s
}

fn signed_exponent(rng: &mut Prng) -> String {
    let (e, sign) = (rng.pick(&["e", "E"]), rng.pick(&["", "", "+", "-", "-"]));
    format!("{e}{sign}{}", exponent(rng))
}

fn exponent(rng: &mut Prng) -> String {
    match rng.below(12) {
        0..=4 => rng.below(20).to_string(),
        5 | 6 => (1_000_000 + rng.below(20) - 10).to_string(),
        7 => format!("0_{:07}", 1_000_000 + rng.below(8) - 4),
        8 => {
            let count = 1 + rng.below(8);
            digits(rng, "0123456789", count)
        }
        9 => {
            let count = 10 + rng.below(40);
            digits(rng, "0123456789", count)
        }
        10 => format!("_{}", rng.below(300)),
        _ => rng.pick(&["", "_", "0", "00", "000000000000000000000000000007"]).to_string(),
    }
}

/// A char or byte literal: mostly one piece between its quotes.
fn single(rng: &mut Prng, kind: u8) -> String {
    let pieces = match rng.below(20) {
        0 => 0,
        1 => 2,
        _ => 1,
    };
    let mut s = if kind == 4 { "'" } else { "b'" }.to_string();
    for _ in 0..pieces {
        s.push_str(&piece(rng, kind));
    }
    if rng.chance(97) {
        s.push('\'');
    }
    s
}

fn quoted(rng: &mut Prng, kind: u8, size: usize) -> String {
    let mut s = match kind {
        5 => "\"",
        7 => "b\"",
        _ => "c\"",
    }
    .to_string();
    // Only short texts have odd pieces, so that most long ones are accepted.
    for _ in 0..rng.below(size + 1) {
        let p = if size > 7 { good_piece(rng, kind) } else { piece(rng, kind) };
        s.push_str(&p);
    }
    if rng.chance(97) {
        s.push('"');
    }
    s
}

/// One piece of a body: mostly one that the kind allows.
fn piece(rng: &mut Prng, kind: u8) -> String {
    const ODD: [&str; 30] = [
        "\r", "\n", "\t", "\0", "'", "\"", "é", "🦊", "\\0", "\\x00", "\\x80", "\\xff", "\\xg1", "\\x1", "\\x", "\\q", "\\",
        "\\u", "\\u{", "\\u{}", "\\u{_1}", "\\u{1z}", "\\u{1234567}", "\\u{0}", "\\u{d800}", "\\u{110000}", "\\u{41", "\\\n",
        "\\\r\n", "\\é",
    ];
    if rng.chance(10) {
        rng.pick(&ODD).to_string()
    } else {
        good_piece(rng, kind)
    }
}

fn good_piece(rng: &mut Prng, kind: u8) -> String {
    let unicode = matches!(kind, 4 | 5 | 8);
    let string = matches!(kind, 5 | 7 | 8);
    match rng.below(12) {
        0 => rng.pick(&["\\n", "\\r", "\\t", "\\\\", "\\'", "\\\""]).to_string(),
        1 => hex_escape(rng, kind),
        2 | 3 if unicode => unicode_escape(rng),
        4 if string => format!("\\\n{}", rng.pick(&["", " ", "\t\n", "  \n\n\t ", "\\\n"])),
        5 | 6 if unicode => rng.pick(&["é", "ß", "€", "\u{85}", "\u{202e}", "\u{feff}", "🦊", "\u{10ffff}"]).to_string(),
        7 => rng.pick(&["\u{1}", "\u{b}", "\u{1f}", "\u{7f}", " ", "#", "{", "}", "~"]).to_string(),
        8 if string => rng.pick(&["'", "\n", "\t", "''"]).to_string(),
        9 if kind == 4 || kind == 6 => "\"".to_string(),
        _ => rng.pick(&["a", "b", "K", "z", "0", "7", "x", "u", "r", "_"]).to_string(),
    }
}

fn hex_escape(rng: &mut Prng, kind: u8) -> String {
    let most = if matches!(kind, 4 | 5) { 128 } else { 256 };
    let low = if kind == 8 { 1 } else { 0 };
    let b = low + rng.below(most - low);
    if rng.chance(50) {
        format!("\\x{b:02x}")
    } else {
        format!("\\x{b:02X}")
    }
}

fn unicode_escape(rng: &mut Prng) -> String {
    let most = [0x7f, 0xff, 0x7ff, 0xd7ff, 0x10ffff][rng.below(5)];
    let scalar = 1 + rng.below(most);
    let scalar = if (0xd800..0xe000).contains(&scalar) { 0xe000 } else { scalar };
    let width = 1 + rng.below(6);
    let mut digits = format!("{scalar:0width$x}");
    if rng.chance(50) {
        digits.make_ascii_uppercase();
    }
    while rng.chance(15) {
        let at = 1 + rng.below(digits.len());
        digits.insert(at, '_');
    }
    format!("\\u{{{digits}}}")
}

fn raw(rng: &mut Prng, kind: u8, size: usize) -> String {
    let prefix = match kind {
        5 => "r",
        7 => "br",
        _ => "cr",
    };
    let hashes = "#".repeat(rng.below(4));
    let mut s = format!("{prefix}{hashes}\"");
    for _ in 0..rng.below(size + 1) {
        s.push_str(rng.pick(&["a", "\\", "\\n", "'", "\n", "\t", "\u{1}", "\u{7f}", "#", " ", "\\x41"]));
        if !hashes.is_empty() && rng.chance(15) {
            s.push('"');
            s.push_str(&"#".repeat(rng.below(hashes.len())));
            s.push('.');
        }
        if kind != 7 && rng.chance(10) {
            s.push_str(rng.pick(&["é", "€", "🦊"]));
        }
        if size <= 7 && rng.chance(2) {
            s.push_str(rng.pick(&["\r", "\0", "é", "\""]));
        }
    }
    if rng.chance(96) {
        s.push('"');
    }
    if rng.chance(96) {
        s.push_str(&hashes);
    }
    s
}

/// A copy with one to three faults: mostly by whole characters, else by bytes.
fn damaged(rng: &mut Prng, text: &[u8]) -> Vec<u8> {
    const PIECES: [&str; 40] = [
        "'", "\"", "\\", "0", "1", "7", "9", "a", "F", "_", "e", "E", "x", "o", "b", "u", "r", "c", "n", "z", "#", "{", "}",
        ".", "+", "-", "\n", "\r", "\t", "\0", " ", "é", "€", "🦊", "\\x", "\\u{", "\\\n", "br\"", "\"#", "\u{7f}",
    ];
    let mut t = text.to_vec();
    for _ in 0..1 + rng.below(3) {
        let by_bytes = rng.chance(10);
        let at = place(rng, &t, by_bytes);
        let next = if by_bytes { (at + 1).min(t.len()) } else { end_of_char(&t, at) };
        match rng.below(7) {
            0 => {
                t.drain(at..next);
            }
            1 if by_bytes => t.insert(at, rng.next() as u8),
            1 | 2 => {
                let piece = rng.pick(&PIECES).bytes();
                t.splice(at..at, piece);
            }
            3 | 4 => {
                let piece = rng.pick(&PIECES).bytes();
                t.splice(at..next, piece);
            }
            5 => {
                let to = place(rng, &t, by_bytes);
                let part = t[at.min(to)..at.max(to)].to_vec();
                t.splice(at..at, part);
            }
            _ => t.truncate(at),
        }
    }
    t.truncate(LENGTH_LIMIT);
    t
}

/// An offset from 0 to the length, at a character's start unless `by_bytes`.
fn place(rng: &mut Prng, t: &[u8], by_bytes: bool) -> usize {
    let mut at = rng.below(t.len() + 1);
    while !by_bytes && at > 0 && at < t.len() && t[at] & 0xc0 == 0x80 {
        at -= 1;
    }
    at
}

fn end_of_char(t: &[u8], at: usize) -> usize {
    let mut end = (at + 1).min(t.len());
    while end < t.len() && t[end] & 0xc0 == 0x80 {
        end += 1;
    }
    end
}

/// Bytes that are mostly no UTF-8, some of them inside quotes.
fn bytes(rng: &mut Prng) -> Vec<u8> {
    let inner: Vec<u8> = (0..rng.below(6)).map(|_| rng.next() as u8 | 0x80).collect();
    match rng.below(4) {
        0 => inner,
        1 => [b"\"", &inner[..], b"\""].concat(),
        2 => [b"c\"\xc3\xa9", &inner[..], b"\"z"].concat(),
        _ => [b"7z", &inner[..]].concat(),
    }
}

//! Texts at every limit of document 01, the scope: lengths of texts and forms, hashes, digits in
//! `\u`, scalars, the types' largest values, powers of ten, and UTF-8's own edges. And at the limit of
//! document 02, the change requests: the digits of a keyed number.

use crate::records::{form_length, Records, DECODED_KINDS, VALUE_TYPES};
use std::io;

const LIMIT: usize = 65_536;

pub fn write(records: &mut Records) -> io::Result<()> {
    text_lengths(records)?;
    form_lengths(records)?;
    buffers(records)?;
    hashes(records)?;
    unicode_escapes(records)?;
    scalars(records)?;
    integers(records)?;
    powers(records)?;
    exponents(records)?;
    keyed_integers(records)?;
    keyed_floats(records)?;
    utf8(records)
}

/// `before`, `filler` as often as needed, `behind`: exactly `length` bytes.
fn filled(before: &str, filler: &str, behind: &str, length: usize) -> Vec<u8> {
    let room = length - before.len() - behind.len();
    let mut text = before.to_string();
    // Where the filler does not fit evenly, a digit takes up the rest.
    text.push_str(&"1".repeat(room % filler.len()));
    text.push_str(&filler.repeat(room / filler.len()));
    text.push_str(behind);
    assert_eq!(text.len(), length);
    text.into_bytes()
}

/// Entry code, what stands before the filling, the filling, and what stands behind it.
const LONG: [(u8, &str, &str, &str); 58] = [
    (1, "", "true", ""),
    (1, "true", "_", ""),
    (2, "", "1", ""),
    (2, "", "0", "7"),
    (2, "", "0", ""),
    (2, "1", "_", "u8"),
    (2, "0x", "0", "fF"),
    (2, "0b", "01_", ""),
    (2, "0o", "_", "17"),
    (2, "0o", "_", ""),
    (2, "0b1", "0", "2"),
    (2, "42u", "z", ""),
    (2, "0b0x", "é", ""),
    (2, "00b", "_", ""),
    (2, "0x_1F", "🦊", "-"),
    (3, "", "1", "."),
    (3, "", "1", ".5"),
    (3, "0.", "0", "1"),
    (3, "1.", "0", ""),
    (3, "0.", "0", "e9"),
    (3, "1", "0", "e5"),
    (3, "1", "0", "e-70000"),
    (3, "1e", "0", "7"),
    (3, "1e-", "_", "7"),
    (3, "1e", "9", ""),
    (3, "0e", "9", ""),
    (3, "1e+", "_", ""),
    (3, "1.5f", "_", ""),
    (3, "1.5", "é", ""),
    (4, "'", "a", "'"),
    (4, "'", "a", ""),
    (4, "'a'", "z", ""),
    (4, "'\u{1}'z", "z", ""),
    (4, "'\\u{4", "_", "1}'"),
    (4, "'\\u{", "0", "}'"),
    (4, "'\\u{41", "_", "'"),
    (5, "\"", "a", "\""),
    (5, "\"", "a", ""),
    (5, "\"", "é", "\""),
    (5, "\"", "\\n", "\""),
    (5, "\"", "\\u{1F98A}", "\""),
    (5, "\"\\\n", " ", "x\""),
    (5, "\"\\\n", " ", ""),
    (5, "\"", "\\\n\t", "\""),
    (5, "\"\"z", "🦊", ""),
    (5, "\"\\x41", "\u{1}", "\\x4\""),
    (5, "r\"", "\\", "\""),
    (5, "r#\"", "\"", "\"#"),
    (5, "r", "#", ""),
    (6, "b'", "a", "'"),
    (6, "b'\\xff'", "z", ""),
    (7, "b\"", "a", "\""),
    (7, "b\"", "\\x7f", "\""),
    (7, "br##\"", "\"#", "\"##"),
    (7, "br", "#", "\""),
    (8, "c\"", "a", "\""),
    (8, "c\"", "\\u{e9}", "\""),
    (8, "cr#\"", "é", "\"#"),
];

fn text_lengths(records: &mut Records) -> io::Result<()> {
    for (own, before, filler, behind) in LONG {
        for length in [LIMIT - 1, LIMIT, LIMIT + 1] {
            let text = filled(before, filler, behind, length);
            records.calls(own, &text)?;
            if own == 2 {
                for code in [1, 4, 10] {
                    records.value(code, &text)?;
                }
            }
        }
    }
    for length in [LIMIT - 1, LIMIT, LIMIT + 1, 65_600] {
        for b in [b'1', 0, 0xff] {
            let text = vec![b; length];
            records.read_by_all(&text)?;
            records.value(4, &text)?;
            records.decode(5, 9, &text)?;
            records.settle(9, &text)?;
        }
    }
    Ok(())
}

/// What stands before the filling, the filling, how long it is in the form, and what stands behind.
const LONG_FORMS: [(&str, &str, usize, &str); 20] = [
    ("0xFFFFFFFFFFFFFFFFu", "z", 1, ""),
    ("0b0x", "_", 1, ""),
    ("0b0u", "é", 2, ""),
    ("", "1", 1, "."),
    ("", "3", 1, ".5e-999999"),
    ("1.5u", "z", 1, ""),
    ("0e9f", "z", 1, ""),
    ("'\u{1}'", "z", 1, ""),
    ("'\\u{10FFFF}'z", "é", 2, ""),
    ("'é'", "é", 2, ""),
    ("b'\u{7f}'", "z", 1, ""),
    ("\"", "\u{1}", 4, "\""),
    ("\"", "\"", 2, "\""),
    ("r#\"", "\"", 2, "\"#"),
    ("\"a\n\t\\\"\u{7f}", "é", 2, "\"é"),
    ("b\"", "\u{7f}", 4, "\"u8"),
    ("b\"", "\\", 2, "\""),
    ("c\"", "é", 8, "\""),
    ("c\"€", "€", 12, "\"c"),
    ("cr\"", "\\", 2, "\""),
];

/// Forms of 65,535, 65,536 and 65,537 bytes and some beside them.
fn form_lengths(records: &mut Records) -> io::Result<()> {
    for (before, filler, growth, behind) in LONG_FORMS {
        // Quotes and backslashes cannot stand alone in a quoted text: they come escaped.
        let piece = match (before.contains('r'), filler) {
            (false, "\"") => "\\\"",
            (false, "\\") => "\\\\",
            _ => filler,
        };
        let Some(one) = form_length(format!("{before}{piece}{behind}").as_bytes()) else {
            unreachable!("{before}{piece}{behind} has a form");
        };
        for length in LIMIT - 1..=LIMIT + 2 {
            let room = length - one;
            // An `a` of one byte takes up what the filling leaves over.
            let rest = "a".repeat(room % growth);
            let text = format!("{before}{piece}{}{rest}{behind}", piece.repeat(room / growth));
            let text = text.as_bytes();
            records.read(0, text)?;
            records.settle_around(text)?;
            records.settle(length - 1, text)?;
            records.settle(65_600, text)?;
            records.settle(0, text)?;
        }
    }
    // The table's own example: a form of 160,003 bytes.
    let text = format!("c\"{}\"", "é".repeat(20_000));
    for buffer in [0, LIMIT, 65_600] {
        records.settle(buffer, text.as_bytes())?;
    }
    Ok(())
}

/// Every buffer from none to more than enough.
fn buffers(records: &mut Records) -> io::Result<()> {
    for text in [
        "true", "false", "0x_1F", "00x3", "0b0b1", "1.50e1", "0e1000001", "10e1000000", "'\\''", "'é'z",
        "\"\"", "\"a\\nb\"", "b'\\xff'", "b\"\\0\\x01\"", "br#\"\"\"#x", "c\"é\"", "cr\"\\\"", "18446744073709551616",
    ] {
        for buffer in 0..16 {
            records.settle(buffer, text.as_bytes())?;
            for code in DECODED_KINDS {
                records.decode(code, buffer, text.as_bytes())?;
            }
        }
    }
    Ok(())
}

fn hashes(records: &mut Records) -> io::Result<()> {
    for (own, prefix) in [(5, "r"), (7, "br"), (8, "cr")] {
        for n in [0, 1, 2, 253, 254, 255, 256, 257, 511, 512, 65_000] {
            let h = "#".repeat(n);
            let more = "#".repeat(n + 1);
            let fewer = "#".repeat(n.saturating_sub(1));
            let mut texts = vec![
                format!("{prefix}{h}"),
                format!("{prefix}{h}a"),
                format!("{prefix}{h}\""),
                format!("{prefix}{h}\"a"),
            ];
            if n < 1_000 {
                texts.extend([
                    format!("{prefix}{h}\"\"{h}"),
                    format!("{prefix}{h}\"a\"{h}z"),
                    format!("{prefix}{h}\"a\"{fewer}"),
                    format!("{prefix}{h}\"a\"{more}"),
                    format!("{prefix}{h}\"a\"{fewer}\"{h}"),
                    format!("{prefix}{h}\"\"{fewer}\r\"{h}"),
                    format!("{prefix}{h}\"\0é\"{h}"),
                ]);
            }
            for text in texts {
                records.calls(own, text.as_bytes())?;
            }
        }
    }
    Ok(())
}

/// Opening and closing of the kinds that may have escapes, with the entry code.
const QUOTES: [(u8, &str, &str); 5] =
    [(4, "'", "'"), (5, "\"", "\""), (6, "b'", "'"), (7, "b\"", "\""), (8, "c\"", "\"")];

fn unicode_escapes(records: &mut Records) -> io::Result<()> {
    const INNER: [&str; 38] = [
        "", "_", "__", "0", "00", "000000", "0000000", "0_0", "0_0_0_0_0_0", "0_0_0_0_0_0_0", "000041",
        "0000041", "41", "4_1_", "41______", "_41", "7f", "80", "7FF", "800", "d7ff", "D7FF", "d800",
        "dfff", "00dfff", "e000", "ffff", "FFFF_", "10000", "10ffff", "10FFFF", "110000", "ffffff",
        "fffffff", "00000g", "000000g", "4é", "1F98A",
    ];
    for (own, open, close) in QUOTES {
        for inner in INNER {
            for text in [
                format!("{open}\\u{{{inner}}}{close}"),
                format!("{open}\\u{{{inner}{close}"),
                format!("{open}\\u{inner}}}{close}"),
                format!("{open}\\u{{{inner}}}"),
                format!("{open}\\u{{{inner}"),
                format!("{open}\\u{{{inner}}}{close}é"),
            ] {
                records.calls(own, text.as_bytes())?;
            }
        }
    }
    Ok(())
}

/// Scalars at the edges, as themselves and escaped.
fn scalars(records: &mut Records) -> io::Result<()> {
    for scalar in [
        0, 1, 8, 9, 10, 13, 31, 32, 34, 39, 92, 126, 127, 128, 0x9f, 0xa0, 0xff, 0x7ff, 0x800, 0xfff, 0x1000,
        0x200b, 0x202e, 0xcfff, 0xd000, 0xd7ff, 0xe000, 0xfeff, 0xfffd, 0xffff, 0x10000, 0x3ffff, 0x40000,
        0xfffff, 0x100000, 0x10ffff,
    ] {
        let c = char::from_u32(scalar).unwrap();
        for (own, open, close) in QUOTES {
            for text in [
                format!("{open}{c}{close}"),
                format!("{open}\\u{{{scalar:x}}}{close}"),
                format!("{open}a{c}"),
                format!("{open}\\{c}{close}"),
                format!("{open}\\{c}"),
                format!("{open}\\x{c}"),
                format!("{open}\\x4{c}"),
                format!("{open}\\x4{c}{close}"),
                format!("{open}a{close}{c}"),
                format!("{open}a{close}z{c}"),
            ] {
                records.few_calls(text.as_bytes())?;
                records.read(own, text.as_bytes())?;
            }
        }
    }
    Ok(())
}

/// Each type's largest value and its neighbours, and numbers around 2^64, in every base.
fn integers(records: &mut Records) -> io::Result<()> {
    let mut numbers: Vec<u128> = vec![0, 1, 10_000_000_000_000_000_000, 100_000_000_000_000_000_000];
    for bits in [7, 8, 15, 16, 31, 32, 63, 64, 65, 68, 100] {
        let power = 1u128 << bits;
        numbers.extend([power - 2, power - 1, power, power + 1]);
        numbers.extend([power / 16 * 17, power * 10, power * 16]);
    }
    numbers.extend([u128::MAX - 1, u128::MAX]);
    for n in numbers {
        for digits in [format!("{n}"), format!("0x{n:x}"), format!("0x{n:X}"), format!("0o{n:o}"), format!("0b{n:b}")] {
            spelled(records, &digits)?;
        }
    }
    for long in ["9".repeat(40), format!("1{}", "0".repeat(400)), format!("0x{}", "f".repeat(100))] {
        spelled(records, &long)?;
    }
    Ok(())
}

/// One number with leading zeros, `_` and suffixes, at every type.
fn spelled(records: &mut Records, digits: &str) -> io::Result<()> {
    let prefix = if digits.len() > 2 && !digits.as_bytes()[1].is_ascii_digit() { 2 } else { 0 };
    let (before, main) = digits.split_at(prefix);
    let zeros = format!("{before}{}_0{main}", if prefix == 0 { "00" } else { "_00" });
    let split = format!("{before}{}_{}", &main[..main.len() / 2], &main[main.len() / 2..]);
    let split = if split.starts_with('_') { format!("0{split}") } else { split };
    for text in [digits.to_string(), zeros, split] {
        records.read(2, text.as_bytes())?;
        records.value_by_all(text.as_bytes())?;
        records.settle_around(text.as_bytes())?;
        for suffix in ["u8", "x1", "o", "é"] {
            let text = format!("{text}{suffix}");
            let code = VALUE_TYPES[(records.turn() % 8) as usize];
            records.value(code, text.as_bytes())?;
            records.settle(records.turn() as usize % 32, text.as_bytes())?;
        }
    }
    Ok(())
}

/// The number m times 10^k, spelled with `behind` digits behind the period and `zeros` zeros more
/// at m's end.
fn power_text(m: &str, k: i64, behind: usize, zeros: usize) -> String {
    let digits = format!("{m}{}", "0".repeat(zeros));
    let exponent = k - zeros as i64 + behind as i64;
    if behind == 0 {
        return format!("{digits}e{exponent}");
    }
    let padded = format!("{}{digits}", "0".repeat((behind + 1).saturating_sub(digits.len())));
    let (whole, fraction) = padded.split_at(padded.len() - behind);
    format!("{whole}.{fraction}e{exponent}")
}

/// Reduced powers of ten at 1,000,000 and one beside, either way, in many spellings.
fn powers(records: &mut Records) -> io::Result<()> {
    for k in [999_999, 1_000_000, 1_000_001, -999_999, -1_000_000, -1_000_001] {
        for m in ["1", "7", "15", "9007199254740993", "100000000000000000000000001"] {
            for (behind, zeros) in [(0, 0), (1, 0), (2, 0), (30, 0), (0, 1), (0, 2), (1, 1), (3, 5), (40, 7), (5, 40)] {
                let text = power_text(m, k, behind, zeros);
                records.settle_around(text.as_bytes())?;
                let respelled = text.replace('e', "_E").replace("E1", "E+0_1").replace("E-", "E-_0");
                records.settle_around(respelled.as_bytes())?;
                records.settle_around(format!("00{text}f64").as_bytes())?;
            }
        }
        for (behind, zeros) in [(0, 65_000), (65_000, 0), (30_000, 30_000), (65_000, 10)] {
            let text = power_text("1", k, behind, zeros);
            records.read(0, text.as_bytes())?;
            records.settle_around(text.as_bytes())?;
        }
    }
    Ok(())
}

/// Exponents of many digits and zeros of any exponent.
fn exponents(records: &mut Records) -> io::Result<()> {
    let zeros = "0".repeat(3_000);
    let nines = "9".repeat(30);
    let many = "9".repeat(5_000);
    for m in ["0", "1", "10", "0.0", "0.10", "000.000", "12.5", "1_0.0_"] {
        for sign in ["", "+", "-"] {
            for e in [
                "0", "7", "00", "_7_", "1000000", "1000001", "9223372036854775807", "9223372036854775808",
                "18446744073709551615", "18446744073709551616", "18446744073709551623", "4294967296", "4294967303",
                "340282366920938463463374607431768211463", &format!("{zeros}7"), &format!("{zeros}1000000"),
                &format!("{zeros}1000001"), &zeros, &nines, &many, &format!("_{nines}_"),
            ] {
                let text = format!("{m}e{sign}{e}");
                records.read(0, text.as_bytes())?;
                records.settle_around(text.as_bytes())?;
                records.settle(40, format!("{text}f32").as_bytes())?;
            }
        }
    }
    Ok(())
}

/// Counts of digits around the 40 that the keyed entry takes.
const KEYED_COUNTS: std::ops::RangeInclusive<usize> = 36..=44;

/// `count` digits: those of `set`, again and again.
fn cycled(set: &str, count: usize) -> String {
    set.chars().cycle().take(count).collect()
}

/// Each digit, and a `_` after it.
fn split_by_underscores(digits: &str) -> String {
    digits.chars().flat_map(|d| [d, '_']).collect()
}

/// Integers of 36 to 44 digits in every base, with what may follow them and what may not.
fn keyed_integers(records: &mut Records) -> io::Result<()> {
    const BASES: [(&str, &str); 4] =
        [("", "9876543210"), ("0b", "10"), ("0o", "76543210"), ("0x", "fedcbaFEDCBA9876543210")];
    const ENDS: [&str; 14] = ["", "_", "___", "u128", "f64", "a", "g1", "é1", "e", "E+", "-", "z-", "2", "8"];
    for (prefix, set) in BASES {
        for count in KEYED_COUNTS {
            let digits = cycled(set, count);
            for main in [split_by_underscores(&digits), "0".repeat(count), digits] {
                for end in ENDS {
                    records.calls(2, format!("{prefix}{main}{end}").as_bytes())?;
                }
            }
        }
    }
    Ok(())
}

/// Floats of 36 to 44 digits in whole part and fraction together, by every split, with short and long
/// exponents; a whole part alone has a period or none.
fn keyed_floats(records: &mut Records) -> io::Result<()> {
    const DECIMAL: &str = "1234567890";
    let long = cycled("9876543210", 41);
    let ends = ["", "f64", "e7", "_E-0_7", "e+", "z-", &format!("e{long}"), &format!("e-_{long}_f32")];
    for count in KEYED_COUNTS {
        for whole in 1..=count {
            let (before, after) = (cycled(DECIMAL, whole), cycled(DECIMAL, count - whole));
            let split = split_by_underscores(&after);
            for end in ends {
                records.few_calls(format!("{before}.{after}{end}").as_bytes())?;
                if whole % 8 == 0 {
                    records.few_calls(format!("{before}_.{split}{end}").as_bytes())?;
                }
            }
        }
        for end in ends {
            records.calls(3, format!("{}{end}", cycled(DECIMAL, count)).as_bytes())?;
        }
    }
    Ok(())
}

/// Byte sequences at the edges of RFC 3629's table, alone and inside texts.
fn utf8(records: &mut Records) -> io::Result<()> {
    let mut sequences: Vec<Vec<u8>> = Vec::new();
    const SECOND: [u8; 8] = [0x7f, 0x80, 0x8f, 0x90, 0x9f, 0xa0, 0xbf, 0xc0];
    const LATER: [u8; 4] = [0x7f, 0x80, 0xbf, 0xc0];
    for first in 0x80..=0xffu8 {
        sequences.push(vec![first]);
        for second in SECOND {
            sequences.push(vec![first, second]);
            for third in LATER {
                if first >= 0xe0 {
                    sequences.push(vec![first, second, third]);
                }
                for fourth in LATER {
                    if first >= 0xf0 {
                        sequences.push(vec![first, second, third, fourth]);
                    }
                }
            }
        }
    }
    for (i, s) in sequences.iter().enumerate() {
        records.read(5, &[b"\"", &s[..], b"\""].concat())?;
        match i % 4 {
            0 => records.read(4, &[b"'", &s[..], b"'"].concat())?,
            1 => records.settle(20, &[b"c\"", &s[..], b"\""].concat())?,
            2 => records.read((i % 9) as u8, s)?,
            _ => records.settle(20, &[b"1z", &s[..]].concat())?,
        }
    }
    Ok(())
}

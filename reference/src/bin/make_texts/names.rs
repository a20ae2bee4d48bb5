//! Names for both `from_suffix`: all fourteen, every near miss of one byte, and bytes that are no
//! name at all.

use crate::records::{Records, LENGTH_LIMIT};
use std::io;

const NAMES: [&str; 14] = [
    "u8", "u16", "u32", "u64", "u128", "usize", "i8", "i16", "i32", "i64", "i128", "isize", "f32",
    "f64",
];

/// Bytes that a near miss has instead of, or beside, a name's own.
const OTHERS: &[u8] = b"uif123468szeUF_ \0\x80\xff";

pub fn write(records: &mut Records) -> io::Result<()> {
    for name in NAMES {
        both(records, name.as_bytes())?;
        both(records, name.to_uppercase().as_bytes())?;
        both(records, format!("{name}{name}").as_bytes())?;
        near_misses(records, name.as_bytes())?;
    }
    for text in ["", "f16", "f128", "u256", "i4", "char", "bool", "str", "é", "u８", "_u8", "u8\n"] {
        both(records, text.as_bytes())?;
    }
    for length in [65_535, 65_536, 65_537, LENGTH_LIMIT] {
        both(records, &vec![b'u'; length])?;
        let mut text = b"f32".to_vec();
        text.resize(length, 0xff);
        both(records, &text)?;
    }
    Ok(())
}

fn both(records: &mut Records, text: &[u8]) -> io::Result<()> {
    records.integer_name(text)?;
    records.float_name(text)
}

fn near_misses(records: &mut Records, name: &[u8]) -> io::Result<()> {
    for at in 0..=name.len() {
        let (before, behind) = name.split_at(at);
        both(records, before)?;
        both(records, behind)?;
        for &b in OTHERS {
            both(records, &[before, &[b], behind].concat())?;
            if at < name.len() {
                both(records, &[before, &[b], &behind[1..]].concat())?;
            }
        }
        if at < name.len() {
            both(records, &[before, &behind[1..]].concat())?;
        }
    }
    Ok(())
}

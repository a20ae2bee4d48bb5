//! Writes batch records (docs/BATCH.md) made for comparing: `make_texts SEED COUNT`. The same two
//! numbers give the same bytes. The fixed part (short texts, limits, codes, names) always comes
//! whole; random texts follow until there are COUNT records.
#![warn(dead_code)]

mod limits;
mod names;
mod prng;
mod random;
mod records;
mod short;

#[path = "../common/mod.rs"]
#[allow(dead_code)]
mod common;

use prng::Prng;
use records::Records;
use std::io;

fn main() -> io::Result<()> {
    let numbers: Vec<u64> = std::env::args().skip(1).filter_map(|a| a.parse().ok()).collect();
    let [seed, count] = numbers[..] else {
        eprintln!("usage: make_texts SEED COUNT");
        std::process::exit(2);
    };
    let mut records = Records::new();
    short::write(&mut records)?;
    limits::write(&mut records)?;
    names::write(&mut records)?;
    random::write(&mut records, &mut Prng::new(seed), count)?;
    records.flush()
}

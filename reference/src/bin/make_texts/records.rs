//! Writes records, and knows the exact lengths of decoded values and settled forms, so that lent
//! buffers stand around them.

use crate::common::{
    answer::{self, Value},
    settle,
};
use std::io::{self, BufWriter, Stdout, Write};

/// The largest length of a record's text and of its lent buffer.
pub const LENGTH_LIMIT: usize = 65_600;

/// Type codes that have a value, and kinds that have decoded bytes.
pub const VALUE_TYPES: [u8; 8] = [1, 2, 3, 4, 7, 8, 9, 10];
pub const DECODED_KINDS: [u8; 3] = [5, 7, 8];

pub struct Records {
    out: BufWriter<Stdout>,
    made: u64,
    keyed: u64,
}

impl Records {
    pub fn new() -> Self {
        Records { out: BufWriter::with_capacity(1 << 16, io::stdout()), made: 0, keyed: 0 }
    }

    /// How many records were written.
    pub fn made(&self) -> u64 {
        self.made
    }

    /// What decides by turns: how many records were written, those of the keyed entry left out, since
    /// they come in pairs with those of entry 0.
    pub fn turn(&self) -> u64 {
        self.made - self.keyed
    }

    pub fn flush(&mut self) -> io::Result<()> {
        self.out.flush()
    }

    fn record(&mut self, operation: u8, code: u8, buffer: usize, text: &[u8]) -> io::Result<()> {
        assert!(buffer <= LENGTH_LIMIT && text.len() <= LENGTH_LIMIT);
        self.made += 1;
        self.out.write_all(&[operation, code])?;
        self.out.write_all(&(buffer as u32).to_le_bytes())?;
        self.out.write_all(&(text.len() as u32).to_le_bytes())?;
        self.out.write_all(text)
    }

    /// Reading by an entry code. After entry 0 comes the keyed entry, which reads as it does.
    pub fn read(&mut self, code: u8, text: &[u8]) -> io::Result<()> {
        self.record(b'R', code, 0, text)?;
        if code == 0 {
            self.keyed(text)?;
        }
        Ok(())
    }

    fn keyed(&mut self, text: &[u8]) -> io::Result<()> {
        self.keyed += 1;
        self.record(b'K', 0, 0, text)
    }

    pub fn value(&mut self, code: u8, text: &[u8]) -> io::Result<()> {
        self.record(b'V', code, 0, text)
    }

    pub fn decode(&mut self, code: u8, buffer: usize, text: &[u8]) -> io::Result<()> {
        self.record(b'D', code, buffer, text)
    }

    pub fn settle(&mut self, buffer: usize, text: &[u8]) -> io::Result<()> {
        self.record(b'S', 0, buffer, text)
    }

    pub fn integer_name(&mut self, text: &[u8]) -> io::Result<()> {
        self.record(b'I', 0, 0, text)
    }

    pub fn float_name(&mut self, text: &[u8]) -> io::Result<()> {
        self.record(b'F', 0, 0, text)
    }

    pub fn read_by_all(&mut self, text: &[u8]) -> io::Result<()> {
        (0..=8).try_for_each(|code| self.read(code, text))
    }

    pub fn value_by_all(&mut self, text: &[u8]) -> io::Result<()> {
        VALUE_TYPES.iter().try_for_each(|&code| self.value(code, text))
    }

    /// Decoding into a buffer one short, exact and one long.
    pub fn decode_around(&mut self, code: u8, text: &[u8]) -> io::Result<()> {
        let exact = decoded_length(code, text).unwrap_or(3);
        around(exact).try_for_each(|buffer| self.decode(code, buffer, text))
    }

    /// Settling into a buffer one short, exact and one long.
    pub fn settle_around(&mut self, text: &[u8]) -> io::Result<()> {
        let exact = form_length(text).unwrap_or(3);
        around(exact).try_for_each(|buffer| self.settle(buffer, text))
    }

    /// Entry 0, the keyed entry, the text's own entry, and every call that writes, with buffers around
    /// the length.
    pub fn calls(&mut self, own: u8, text: &[u8]) -> io::Result<()> {
        self.read(0, text)?;
        self.read(own, text)?;
        if DECODED_KINDS.contains(&own) {
            self.decode_around(own, text)?;
        }
        self.settle_around(text)
    }

    /// As `calls`, with one lent buffer for each call: one short, exact and one long by turns.
    pub fn few_calls(&mut self, text: &[u8]) -> io::Result<()> {
        self.read(0, text)?;
        let turn = (self.turn() % 3) as usize;
        let Ok(reading) = answer::read(0, text) else {
            // A refused text is settled now and then: the refusal is the reading's.
            return if self.turn() % 8 == 0 { self.settle(turn, text) } else { Ok(()) };
        };
        if DECODED_KINDS.contains(&reading.kind) {
            let exact = decoded_length(reading.kind, text).unwrap_or(1);
            self.decode(reading.kind, (exact + turn).saturating_sub(1), text)?;
        }
        let exact = form_length(text).unwrap_or(1);
        self.settle((exact + turn).saturating_sub(1), text)
    }
}

fn around(exact: usize) -> impl Iterator<Item = usize> {
    (exact.saturating_sub(1)..=exact + 1).filter(|&n| n <= LENGTH_LIMIT)
}

pub fn decoded_length(code: u8, text: &[u8]) -> Option<usize> {
    match answer::read(code, text).ok()?.value {
        Value::Quoted { bytes, .. } => Some(bytes.len()),
        _ => None,
    }
}

pub fn form_length(text: &[u8]) -> Option<usize> {
    settle::settled_form(text).ok().map(|(_, form)| form.len())
}

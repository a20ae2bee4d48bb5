//! Answers the batch format (docs/BATCH.md) with litrs: records from standard input, one line for
//! each to standard output.
#![warn(dead_code)]

mod common;

use common::{
    answer::{self, Reading, Refusal, Value},
    keyed, settle,
};
use std::io::{self, BufReader, BufWriter, Read, Write};

/// The largest length of a record's text and of its lent buffer.
const LENGTH_LIMIT: usize = 65_600;

/// What the lent buffer is filled with before each call.
const FILL: u8 = 165;

struct Record {
    operation: u8,
    code: u8,
    buffer: usize,
    text: Vec<u8>,
}

enum Next {
    Record(Record),
    Bad,
    End,
}

fn main() -> io::Result<()> {
    let mut input = BufReader::with_capacity(1 << 16, io::stdin().lock());
    let mut output = BufWriter::with_capacity(1 << 16, io::stdout().lock());
    loop {
        match next_record(&mut input)? {
            Next::Record(record) => writeln!(output, "{}", line(&record))?,
            Next::Bad => {
                writeln!(output, "bad record")?;
                break;
            }
            Next::End => break,
        }
    }
    output.flush()
}

fn next_record(input: &mut impl Read) -> io::Result<Next> {
    let mut head = [0; 10];
    match read_up_to(input, &mut head)? {
        0 => return Ok(Next::End),
        10 => {}
        _ => return Ok(Next::Bad),
    }
    let buffer = u32::from_le_bytes([head[2], head[3], head[4], head[5]]) as usize;
    let length = u32::from_le_bytes([head[6], head[7], head[8], head[9]]) as usize;
    if buffer > LENGTH_LIMIT || length > LENGTH_LIMIT {
        return Ok(Next::Bad);
    }
    let mut text = vec![0; length];
    if read_up_to(input, &mut text)? < length {
        return Ok(Next::Bad);
    }
    Ok(Next::Record(Record { operation: head[0], code: head[1], buffer, text }))
}

/// Fills `to` as far as the input goes and answers how far.
fn read_up_to(input: &mut impl Read, to: &mut [u8]) -> io::Result<usize> {
    let mut at = 0;
    while at < to.len() {
        match input.read(&mut to[at..]) {
            Ok(0) => break,
            Ok(n) => at += n,
            Err(e) if e.kind() == io::ErrorKind::Interrupted => {}
            Err(e) => return Err(e),
        }
    }
    Ok(at)
}

fn line(r: &Record) -> String {
    match r.operation {
        b'R' => answer::read(r.code, &r.text).map_or_else(refusal, |reading| values(&reading)),
        b'V' => answer::integer_value(r.code, &r.text).map_or_else(refusal, |v| format!("ok {v}")),
        b'D' => decode_line(r),
        b'S' => settle_line(r),
        b'K' => keyed_line(r),
        b'I' => format!("ok {}", answer::integer_from_suffix(&r.text)),
        b'F' => format!("ok {}", answer::float_from_suffix(&r.text)),
        _ => "bad operation".to_string(),
    }
}

fn refusal(r: Refusal) -> String {
    match r.span {
        Some((start, end)) => format!("no {} {start} {end}", r.number),
        None => format!("no {} - -", r.number),
    }
}

fn values(r: &Reading) -> String {
    let Reading { kind, suffix, value } = r;
    match value {
        Value::Bool(truth) => format!("ok {kind} {suffix} {}", *truth as u8),
        Value::Integer { base, start, end } => format!("ok {kind} {suffix} {base} {start} {end}"),
        Value::Float { end_integer, end_fractional, end_number } => {
            format!("ok {kind} {suffix} {end_integer} {end_fractional} {end_number}")
        }
        Value::Char(c) => format!("ok {kind} {suffix} {}", *c as u32),
        Value::Byte(b) => format!("ok {kind} {suffix} {b}"),
        Value::Quoted { hashes: Some(n), bytes } => format!("ok {kind} {suffix} {n} {}", bytes.len()),
        Value::Quoted { hashes: None, bytes } => format!("ok {kind} {suffix} - {}", bytes.len()),
    }
}

fn decode_line(r: &Record) -> String {
    let mut out = vec![FILL; r.buffer];
    match answer::decode(r.code, &r.text, &mut out) {
        Ok(n) => format!("ok {n} {} {}", hex(&out[..n]), state(&out[n..])),
        Err(e) => format!("{} {}", refusal(e), state(&out)),
    }
}

fn settle_line(r: &Record) -> String {
    let mut out = vec![FILL; r.buffer];
    match settle::settle(&r.text, &mut out) {
        Ok((kind, n)) => format!("ok {kind} {n} {} {}", hex(&out[..n]), state(&out[n..])),
        Err(e) => format!("{} {}", refusal(e), state(&out)),
    }
}

/// The line of `R` by entry 0, and then the counts of digits.
fn keyed_line(r: &Record) -> String {
    match keyed::read(&r.text) {
        Ok((reading, counts)) => counts.iter().fold(values(&reading), |line, n| format!("{line} {n}")),
        Err(e) => refusal(e),
    }
}

/// Whether the bytes behind the written ones still are what they were.
fn state(rest: &[u8]) -> &'static str {
    if rest.iter().all(|&b| b == FILL) {
        "kept"
    } else {
        "changed"
    }
}

fn hex(bytes: &[u8]) -> String {
    const DIGITS: &[u8; 16] = b"0123456789abcdef";
    if bytes.is_empty() {
        return "-".to_string();
    }
    let mut s = String::with_capacity(2 * bytes.len());
    for b in bytes {
        s.push(DIGITS[(b / 16) as usize] as char);
        s.push(DIGITS[(b % 16) as usize] as char);
    }
    s
}

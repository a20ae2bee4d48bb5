//! What both sides answer to a text, in one shape, so that a row is timed only where they agree.

use crate::common::answer::{self, Reading, Refusal, Value};
use crate::common::keyed;
use crate::rows::{Call, Row};
use crate::{ours, rust, two_pass};
use litrs::Literal;
use std::str::from_utf8;

/// A reading as include/keybasket.h sets it out: kind, start of suffix, values and counts of digits; or 0, the refusal number and the span.
pub type Numbers = [u64; 8];

/// A refusal number.
pub type Refused = u8;

/// More than the longest value or form.
pub const BUFFER: usize = 65_600;

#[derive(Debug, PartialEq)]
enum Answer {
    Reading(Numbers),
    Value(u64),
    Bytes(Vec<u8>),
    Refused(Refused),
}

impl Answer {
    fn accepted(&self) -> bool {
        !matches!(self, Answer::Refused(_) | Answer::Reading([0, ..]))
    }
}

/// Whether both sides answer each text of a row alike, and accept or refuse it as the row says; else what is wrong.
pub fn agree(row: &Row) -> Result<(), String> {
    for text in &row.texts {
        let (ours, theirs) = (our_answer(row.call, text), rust_answer(row.call, text));
        let fault = if ours != theirs {
            "the answers differ"
        } else if ours.accepted() != row.accepted {
            "not the answer that was meant"
        } else {
            continue;
        };
        return Err(format!(
            "{}: {fault}\n  text {}\n  ours {}\n  Rust {}",
            row.name,
            cut(&String::from_utf8_lossy(text)),
            cut(&format!("{ours:?}")),
            cut(&format!("{theirs:?}"))
        ));
    }
    Ok(())
}

/// The front of a long text.
fn cut(text: &str) -> String {
    text.chars().take(200).collect()
}

fn our_answer(call: Call, text: &[u8]) -> Answer {
    let mut out = vec![165; BUFFER];
    match call {
        Call::Read | Call::ReadKeyed => {
            let mut numbers = [165; 8];
            match call {
                Call::Read => ours::read(text, &mut numbers),
                _ => ours::read_keyed(text, &mut numbers),
            }
            Answer::Reading(numbers)
        }
        Call::Value => ours::value(text).map_or_else(Answer::Refused, Answer::Value),
        Call::DecodeOwned(entry) | Call::DecodeLent(entry) => written(ours::decode(entry, text, &mut out), out),
        Call::SettleTwoPass | Call::SettleCollected => written(ours::settle(text, &mut out), out),
    }
}

/// The Rust's answer, by the calls that are timed. A reading's numbers are taken from it by the reference's own checks.
fn rust_answer(call: Call, text: &[u8]) -> Answer {
    let Ok(text) = from_utf8(text) else {
        return match call {
            Call::Read | Call::ReadKeyed => Answer::Reading(numbers("", Err(Refusal::plain(answer::NOT_UTF8)))),
            _ => Answer::Refused(answer::NOT_UTF8),
        };
    };
    let mut out = vec![90; BUFFER];
    match call {
        Call::Read => Answer::Reading(numbers(text, answer::read_checked(0, text))),
        Call::ReadKeyed if rust::too_many_digits(&Literal::parse(text)) => {
            Answer::Reading(numbers(text, Err(Refusal::plain(keyed::TOO_MANY_DIGITS))))
        }
        Call::ReadKeyed => Answer::Reading(numbers(text, answer::read_checked(0, text))),
        Call::Value => match rust::value(text) {
            Ok(Some(number)) => Answer::Value(number),
            Ok(None) => Answer::Refused(answer::NO_VALUE),
            Err(e) => Answer::Refused(e.kind_number()),
        },
        Call::DecodeOwned(entry) => match rust::decode_owned(entry, text) {
            Ok(bytes) => Answer::Bytes(bytes),
            Err(e) => Answer::Refused(e.kind_number()),
        },
        Call::DecodeLent(entry) => written(rust::decode_lent(entry, text, &mut out).map_err(|e| e.number), out),
        Call::SettleTwoPass => written(two_pass::settle(text, &mut out), out),
        Call::SettleCollected => match rust::settle_collected(text) {
            Ok((_, form)) => Answer::Bytes(form),
            Err(e) => Answer::Refused(e.number),
        },
    }
}

/// What stands at the front of a buffer after a call.
fn written(answer: Result<usize, Refused>, mut out: Vec<u8>) -> Answer {
    match answer {
        Ok(length) => {
            out.truncate(length);
            Answer::Bytes(out)
        }
        Err(number) => Answer::Refused(number),
    }
}

/// The numbers of a reading of the reference.
fn numbers(text: &str, found: Result<Reading, Refusal>) -> Numbers {
    let found = match found {
        Ok(found) => found,
        Err(Refusal { number, span: None }) => return [0, number.into(), 0, 0, 0, 0, 0, 0],
        Err(Refusal { number, span: Some((start, end)) }) => {
            return [0, number.into(), 1, start as u64, end as u64, 0, 0, 0]
        }
    };
    let mut counts = keyed::digit_counts(text.as_bytes(), &found).into_iter().map(|n| n as u64);
    let mut count = || counts.next().unwrap_or(0);
    let [a, b, c] = match found.value {
        Value::Bool(truth) => [truth.into(), 0, 0],
        Value::Integer { base, start, end } => [base.into(), start as u64, end as u64],
        Value::Float { end_integer, end_fractional, end_number } => {
            [end_integer as u64, end_fractional as u64, end_number as u64]
        }
        Value::Char(c) => [c.into(), 0, 0],
        Value::Byte(b) => [b.into(), 0, 0],
        Value::Quoted { hashes, bytes } => [hashes.is_some().into(), hashes.unwrap_or(0) as u64, bytes.len() as u64],
    };
    [found.kind.into(), found.suffix as u64, a, b, c, count(), count(), count()]
}

//! Times our entries for C (include/keybasket.h) beside the Rust, litrs 1.0.1, on the same texts in one run: bench [WORD] [--rounds N]
//!
//! A row has three sides: ours, which starts from bytes; the Rust that starts from bytes too (`core::str::from_utf8`, then litrs); and
//! the Rust that starts from a checked `&str`. Each round times the three right after one another, for every row in turn, each over as
//! many repetitions as take about a millisecond; the best of all rounds stands in the table. With WORD, only the rows whose name has it.
//! Before that, each row's answers are compared, and the run ends where they differ.

mod answers;
#[allow(dead_code)]
#[path = "../../src/bin/common/mod.rs"]
mod common;
mod ours;
mod rows;
mod rust;
mod two_pass;

use litrs::Literal;
use rows::{Call, Row};
use std::hint::black_box;
use std::process::ExitCode;
use std::str::from_utf8;
use std::time::{Duration, Instant};

/// How long one measurement takes.
const MEASURE: Duration = Duration::from_millis(1);
const ROUNDS: usize = 80;

#[derive(Clone, Copy)]
enum Side {
    Ours,
    RustFromBytes,
    RustFromStr,
}

const SIDES: [Side; 3] = [Side::Ours, Side::RustFromBytes, Side::RustFromStr];

fn main() -> ExitCode {
    match run() {
        Ok(()) => ExitCode::SUCCESS,
        Err(message) => {
            eprintln!("bench: {message}");
            ExitCode::FAILURE
        }
    }
}

fn run() -> Result<(), String> {
    let (word, rounds) = arguments()?;
    let rows: Vec<Row> = rows::all().into_iter().filter(|row| row.name.contains(&word)).collect();
    if rows.is_empty() {
        return Err(format!("no row has `{word}` in its name"));
    }
    rows.iter().try_for_each(answers::agree)?;
    let mut lent = Lent { ours: vec![165; answers::BUFFER], theirs: vec![165; answers::BUFFER], numbers: [0; 8] };
    let mut timed: Vec<Timed> = rows.iter().map(Timed::new).collect();
    for row in &mut timed {
        row.calibrate(&mut lent);
    }
    for round in 0..rounds {
        for row in &mut timed {
            row.measure(round, &mut lent);
        }
    }
    print_table(&timed, rounds);
    Ok(())
}

fn arguments() -> Result<(String, usize), String> {
    let usage = "usage: bench [WORD] [--rounds N]";
    let (mut words, mut rounds) = (Vec::new(), ROUNDS);
    let mut given = std::env::args().skip(1);
    while let Some(argument) = given.next() {
        if argument == "--rounds" {
            let number = given.next().and_then(|n| n.parse().ok()).filter(|&n| n > 0);
            rounds = number.ok_or(usage)?;
        } else if argument.starts_with("--") {
            return Err(usage.into());
        } else {
            words.push(argument);
        }
    }
    Ok((words.join(" "), rounds))
}

// ---- timing ------------------------------------------------------------------------------------------------------------

/// The buffer that is lent to each side, and what our readings are written to. They are filled once, and are not cleared between the calls.
struct Lent {
    ours: Vec<u8>,
    theirs: Vec<u8>,
    numbers: answers::Numbers,
}

/// A row with the best time of a call, in nanoseconds, for each side that it has.
struct Timed<'a> {
    row: &'a Row,
    bytes: Vec<&'a [u8]>,
    /// The same, checked; none where a text is not UTF-8, and then the row has no Rust that starts from a checked text.
    strs: Vec<&'a str>,
    repetitions: [u32; 3],
    best: [f64; 3],
}

impl<'a> Timed<'a> {
    fn new(row: &'a Row) -> Self {
        Timed {
            row,
            bytes: row.texts.iter().map(Vec::as_slice).collect(),
            strs: row.texts.iter().map(|text| from_utf8(text)).collect::<Result<_, _>>().unwrap_or_default(),
            repetitions: [1; 3],
            best: [f64::INFINITY; 3],
        }
    }

    fn sides(&self) -> &'static [Side] {
        if self.strs.is_empty() {
            &SIDES[..2]
        } else {
            &SIDES
        }
    }

    /// Finds for each side how many repetitions take about a millisecond.
    fn calibrate(&mut self, lent: &mut Lent) {
        for &side in self.sides() {
            let mut repetitions = 1;
            // Best of three: no other program that takes the processor for a while makes it too few.
            let mut taken = |n| (0..3).map(|_| self.time(side, n, lent)).min().expect("three");
            while taken(repetitions) < MEASURE / 2 {
                repetitions *= 2;
            }
            self.repetitions[side as usize] = repetitions;
        }
    }

    /// Times each side once, every other round in the other order.
    fn measure(&mut self, round: usize, lent: &mut Lent) {
        let mut sides = self.sides().to_vec();
        if round % 2 == 1 {
            sides.reverse();
        }
        for side in sides {
            let repetitions = self.repetitions[side as usize];
            let taken = deeper(round % 32, &mut || self.time(side, repetitions, lent)).as_secs_f64() * 1e9;
            let call = taken / f64::from(repetitions) / self.bytes.len() as f64;
            let best = &mut self.best[side as usize];
            *best = best.min(call);
        }
    }

    /// The time that a side takes for all texts, so many times over.
    fn time(&self, side: Side, repetitions: u32, lent: &mut Lent) -> Duration {
        let Lent { ours, theirs, numbers } = lent;
        let times = Times { row: self, side, repetitions };
        match self.row.call {
            Call::Read => times.of(|text| ours::read(text, black_box(numbers)), |text| kept(Literal::parse(text))),
            Call::ReadKeyed => times.of(
                |text| ours::read_keyed(text, black_box(numbers)),
                |text| {
                    let reading = Literal::parse(text);
                    kept(rust::too_many_digits(&reading));
                    kept(reading);
                },
            ),
            Call::Value => times.of(|text| kept(ours::value(text)), |text| kept(rust::value(text))),
            Call::DecodeOwned(entry) => times.of(
                |text| kept(ours::decode(entry, text, black_box(ours))),
                |text| kept(rust::decode_owned(entry, text)),
            ),
            Call::DecodeLent(entry) => times.of(
                |text| kept(ours::decode(entry, text, black_box(ours))),
                |text| kept(rust::decode_lent(entry, text, black_box(theirs))),
            ),
            Call::SettleTwoPass => times.of(
                |text| kept(ours::settle(text, black_box(ours))),
                |text| kept(two_pass::settle(text, black_box(theirs))),
            ),
            Call::SettleCollected => {
                times.of(|text| kept(ours::settle(text, black_box(ours))), |text| kept(rust::settle_collected(text)))
            }
        }
    }

    /// Our time over that of a Rust side, where the row has that side.
    fn ratio(&self, side: Side) -> Option<f64> {
        let theirs = self.best[side as usize];
        theirs.is_finite().then(|| self.best[Side::Ours as usize] / theirs)
    }
}

/// What is to be timed of a row.
struct Times<'a> {
    row: &'a Timed<'a>,
    side: Side,
    repetitions: u32,
}

impl Times<'_> {
    /// The time of one side, given our call and the Rust's.
    fn of(&self, ours: impl FnMut(&[u8]), mut theirs: impl FnMut(&str)) -> Duration {
        match self.side {
            Side::Ours => self.repeat(&self.row.bytes, ours),
            Side::RustFromBytes => self.repeat(&self.row.bytes, |text| match from_utf8(text) {
                Ok(text) => theirs(text),
                Err(fault) => kept(fault),
            }),
            Side::RustFromStr => self.repeat(&self.row.strs, theirs),
        }
    }

    fn repeat<T: ?Sized>(&self, texts: &[&T], mut call: impl FnMut(&T)) -> Duration {
        let start = Instant::now();
        for _ in 0..self.repetitions {
            for text in black_box(texts) {
                call(text);
            }
        }
        start.elapsed()
    }
}

/// Times at another place of the stack: how it lies to the texts and buffers, some bytes more or less, makes a short call faster or slower.
#[inline(never)]
fn deeper(frames: usize, timed: &mut dyn FnMut() -> Duration) -> Duration {
    let frame = black_box([0_u8; 160]);
    let taken = if frames == 0 { timed() } else { deeper(frames - 1, timed) };
    black_box(&frame);
    taken
}

/// Has an answer made and dropped, though nobody looks at it.
#[inline(always)]
fn kept<T>(answer: T) {
    black_box(&answer);
}

// ---- the table ---------------------------------------------------------------------------------------------------------

fn print_table(timed: &[Timed], rounds: usize) {
    println!(
        "nanoseconds of a call, best of {rounds} rounds, and our time over the Rust's; `!` marks a ratio over its goal"
    );
    println!("{:<58}{:>11}{:>15}{:>9} {:>15}{:>9}", "", "ours", "Rust, bytes", "ratio", "Rust, &str", "ratio");
    for row in timed {
        let columns = [Side::RustFromBytes, Side::RustFromStr].map(|side| column(row, side));
        println!("{:<58}{:>11.1}{}", row.row.name, row.best[Side::Ours as usize], columns.concat());
    }
    print_largest(timed, Side::RustFromBytes, "the Rust that starts from bytes");
    print_largest(timed, Side::RustFromStr, "the Rust that starts from a checked &str");
}

fn column(row: &Timed, side: Side) -> String {
    match row.ratio(side) {
        Some(ratio) => {
            let mark = if misses(ratio, row.row, side) { '!' } else { ' ' };
            format!("{:>15.1}{ratio:>9.2}{mark}", row.best[side as usize])
        }
        None => format!("{:>15}{:>9} ", "-", "-"),
    }
}

/// Whether a ratio is over the row's goal. Only the Rust that starts from bytes, as our library does, has one.
fn misses(ratio: f64, row: &Row, side: Side) -> bool {
    matches!(side, Side::RustFromBytes) && ratio > row.goal
}

fn print_largest(timed: &[Timed], side: Side, against: &str) {
    let ratios: Vec<(f64, &Row)> = timed.iter().filter_map(|row| Some((row.ratio(side)?, row.row))).collect();
    let Some((largest, row)) = ratios.iter().max_by(|one, two| one.0.total_cmp(&two.0)) else {
        return;
    };
    let over = ratios.iter().filter(|(ratio, _)| *ratio > 1.0).count();
    println!("against {against}: largest ratio {largest:.2} ({}); of {} rows {over} over 1.0", row.name, ratios.len());
    if matches!(side, Side::RustFromBytes) {
        let missed = ratios.iter().filter(|(ratio, row)| misses(*ratio, row, side)).count();
        println!("  {missed} over their goals");
    }
}

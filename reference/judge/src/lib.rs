//! `judge!()` parses each text of the file JUDGE_TEXTS as a literal while it is expanded, and writes one verdict for each to the
//! file JUDGE_VERDICTS: `y` parsed, `n` not, `p` panicked. A text is its length (4 bytes, little-endian) and its bytes.
//!
//! The lexer gives a literal for some bad texts too, and reports an error beside it. So a line `@N` stands on standard error
//! before text N: the errors between it and the next such line are that text's.

use proc_macro::{Literal, TokenStream};
use std::{env, fs, panic};

#[proc_macro]
pub fn judge(_: TokenStream) -> TokenStream {
    let given = fs::read(path("JUDGE_TEXTS")).expect("the texts can be read");
    let hook = panic::take_hook();
    panic::set_hook(Box::new(|_| {}));
    let verdicts: Vec<u8> = texts(&given).enumerate().map(|(number, text)| {
        eprintln!("\n@{number}");
        verdict(text)
    }).collect();
    eprintln!("\n@{}", verdicts.len());
    panic::set_hook(hook);
    fs::write(path("JUDGE_VERDICTS"), verdicts).expect("the verdicts can be written");
    TokenStream::new()
}

fn path(name: &str) -> String {
    env::var(name).unwrap_or_else(|_| panic!("{name} is not set"))
}

fn texts(mut rest: &[u8]) -> impl Iterator<Item = &str> {
    std::iter::from_fn(move || {
        let (length, behind) = rest.split_first_chunk::<4>()?;
        let (text, after) = behind.split_at(u32::from_le_bytes(*length) as usize);
        rest = after;
        Some(std::str::from_utf8(text).expect("the texts are UTF-8"))
    })
}

fn verdict(text: &str) -> u8 {
    match panic::catch_unwind(|| text.parse::<Literal>().is_ok()) {
        Ok(true) => b'y',
        Ok(false) => b'n',
        Err(_) => b'p',
    }
}

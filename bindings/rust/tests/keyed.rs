//! How many digits a number has, and the keyed entry, which refuses a number of over 40 (docs/02-change-requests.md, d).
use keybasket::{read, read_keyed, Entry, Literal, Refusal, LONGEST};

/// The digits of an accepted text: of an integer, or of a float's three parts.
fn counts(entry: Entry, text: &str) -> Vec<usize> {
    match read(entry, text.as_bytes()).unwrap().literal {
        Literal::Integer { digit_count, .. } => vec![digit_count],
        Literal::Float {
            integer_digits,
            fractional_digits,
            exponent_digits,
            ..
        } => vec![integer_digits, fractional_digits, exponent_digits],
        other => panic!("{text} is read as {other:?}"),
    }
}

fn ones(count: usize) -> String {
    "1".repeat(count)
}

/// Is read by the keyed entry as by entry 0, which accepts it.
fn is_taken(text: &str) {
    let reading = read(Entry::Any, text.as_bytes());
    assert!(reading.is_ok(), "{text}");
    assert_eq!(read_keyed(text.as_bytes()), reading, "{text}");
}

/// Is accepted by entry 0, and refused by the keyed entry with 53.
fn is_too_long(text: &str) {
    assert!(read(Entry::Any, text.as_bytes()).is_ok(), "{text}");
    let refusal = Refusal {
        number: 53,
        span: None,
    };
    assert_eq!(read_keyed(text.as_bytes()), Err(refusal), "{text}");
}

#[test]
fn digits_of_integers() {
    let texts = [
        ("0", 1),
        ("1850", 4),
        ("0007", 4),
        ("1_850", 4),
        ("1__", 1),
        ("1850u32", 4),
        ("1f32", 1),
        ("0b_101", 3),
        ("0b0x3", 1),
        ("0o17_", 2),
        ("0x_1Fu8", 2),
        ("0x1e5", 3),
        ("00b1", 2),
    ];
    for (text, count) in texts {
        assert_eq!(counts(Entry::Any, text), [count], "{text}");
        assert_eq!(counts(Entry::Integer, text), [count], "{text}");
    }
    assert_eq!(counts(Entry::Any, &ones(LONGEST)), [LONGEST]);
}

#[test]
fn digits_of_floats() {
    let texts = [
        ("2143.5", [4, 1, 0]),
        ("1.", [1, 0, 0]),
        ("1e3", [1, 0, 1]),
        ("1E+3", [1, 0, 1]),
        ("1.50e1f32", [1, 2, 1]),
        ("00.0", [2, 1, 0]),
        ("1_000.5_0e-_1_00_f64", [4, 2, 3]),
    ];
    for (text, count) in texts {
        assert_eq!(counts(Entry::Any, text), count, "{text}");
        assert_eq!(counts(Entry::Float, text), count, "{text}");
    }
}

#[test]
fn keyed_integers() {
    for text in ["0", "1850", "0x73Au16", "1_850"] {
        is_taken(text);
    }
    is_taken(&ones(40));
    is_too_long(&ones(41));
    is_too_long(&ones(LONGEST));
    is_too_long(&"0".repeat(41));
    // `_` is no digit
    is_taken(&"1_".repeat(40));
    is_too_long(&format!("{}1", "1_".repeat(40)));
    is_taken(&format!("1{}", "_".repeat(41)));
    // nor is the prefix or the suffix
    for prefix in ["0b", "0o", "0x"] {
        is_taken(&format!("{prefix}{}", ones(40)));
        is_too_long(&format!("{prefix}{}", ones(41)));
    }
    is_taken(&format!("0x{}", "Ef".repeat(20)));
    is_too_long(&format!("0x{}e", "Ef".repeat(20)));
    is_taken(&format!("{}u64", ones(40)));
    is_too_long(&format!("{}u64", ones(41)));
    is_taken(&format!("1u{}", ones(41)));
}

#[test]
fn keyed_floats() {
    for text in ["2143.5", "1.5e3", "1.", "1e-3"] {
        is_taken(text);
    }
    // whole and fractional part together
    for whole in [1, 20, 39] {
        is_taken(&format!("{}.{}", ones(whole), ones(40 - whole)));
        is_too_long(&format!("{}.{}", ones(whole), ones(41 - whole)));
        is_taken(&format!("{}_.{}_e1", ones(whole), ones(40 - whole)));
        is_too_long(&format!("{}_.{}_e1", ones(whole), ones(41 - whole)));
    }
    is_taken(&format!("{}.", ones(40)));
    is_too_long(&format!("{}.", ones(41)));
    is_taken(&format!("{}e1", ones(40)));
    is_too_long(&format!("{}e1", ones(41)));
    is_too_long(&format!("0.{}", "0".repeat(40)));
    // those of the exponent are left out
    is_taken(&format!("1e{}", ones(41)));
    is_taken(&format!("1.5E-{}f64", "0".repeat(LONGEST - 8)));
    is_taken(&format!("{}.5e+{}", ones(39), ones(41)));
}

#[test]
fn keyed_texts_of_other_kinds() {
    let digits = ones(41);
    is_taken("true");
    is_taken("'1'");
    is_taken(r"b'\x31'");
    for before in ["", "r", "b", "br", "c", "cr"] {
        is_taken(&format!("{before}\"{digits}\""));
        is_taken(&format!("{before}\"a\"x{digits}"));
    }
}

#[test]
fn refused_texts_keep_their_refusal() {
    let digits = ones(41);
    let texts = [
        (String::new(), 1),
        (format!("{digits}-"), 2),
        (format!("{digits}.5."), 2),
        (format!("{digits}._"), 2),
        (format!("x{digits}"), 3),
        (format!("0b{digits}2"), 5),
        (format!("0x{}", "_".repeat(41)), 6),
        (format!("{digits}e"), 7),
        (format!("{digits}.5e+_"), 7),
        (format!("\"{digits}"), 30),
        (format!("{digits}x-"), 39),
        (format!("0b{digits}e"), 41),
        (ones(LONGEST + 1), 43),
    ];
    for (text, number) in texts {
        let refusal = read(Entry::Any, text.as_bytes()).unwrap_err();
        assert_eq!(refusal.number, number, "{text}");
        assert_eq!(read_keyed(text.as_bytes()), Err(refusal), "{text}");
    }
    let not_utf8 = [digits.as_bytes(), b"\xff"].concat();
    let refusal = read_keyed(&not_utf8).unwrap_err();
    assert_eq!((refusal.number, refusal.span), (44, None));
}

//! The rows: a call and the texts that it is timed on. Short texts are such as an event sheet holds; long ones have 4 KB or 60 KB.

const STRING: u8 = 5;
const BYTE_STRING: u8 = 7;
const C_STRING: u8 = 8;

/// The kinds that have decoded bytes, with their names and prefixes.
const QUOTED: [(u8, &str, &str); 3] =
    [(STRING, "string", ""), (BYTE_STRING, "byte string", "b"), (C_STRING, "C string", "c")];

#[derive(Clone, Copy)]
struct Size {
    name: &'static str,
    bytes: usize,
}

const SIZES: [Size; 2] = [Size { name: "4 KB", bytes: 4_096 }, Size { name: "60 KB", bytes: 61_440 }];

/// What long texts repeat.
const PLAIN: &str = "Marion Tinsley, 1850; ";

/// What is timed on both sides. A buffer is lent from outside, the same one at each call, and is not cleared in between.
#[derive(Clone, Copy)]
pub enum Call {
    /// Ours: keybasket_read by entry 0 into eight lent numbers, which have the length of a string's value, but not its bytes. The Rust:
    /// `Literal::parse`, which allocates and writes the value where a string has escapes, and for every C string; freeing it is timed
    /// too. Neither side's answer is copied. Ours counts the digits of a number, the Rust does not.
    Read,
    /// Ours: keybasket_read_keyed into eight lent numbers. The Rust: `Literal::parse`, and then a count of the digits of an integer's main
    /// part, or of a float's integer part and fractional part.
    ReadKeyed,
    /// Ours: keybasket_value at u64. The Rust: `IntegerLit::parse` and `value::<u64>()`.
    Value,
    /// Ours: keybasket_decode into a lent buffer. The Rust: `parse` by the same kind and `into_value`, made owned: it is allocated, and
    /// freeing it is timed too.
    DecodeOwned(u8),
    /// Ours: keybasket_decode into a lent buffer. The Rust: `parse` by the same kind, and its `value` copied into a lent buffer.
    DecodeLent(u8),
    /// Ours: keybasket_settle into a lent buffer. The Rust: two_pass.rs into a lent buffer.
    SettleTwoPass,
    /// Ours: keybasket_settle into a lent buffer. The Rust: the reference's settling, which collects the form into a `Vec`; freeing
    /// it is timed too.
    SettleCollected,
}

impl Call {
    fn name(self) -> &'static str {
        match self {
            Call::Read => "read",
            Call::ReadKeyed => "read, keyed",
            Call::Value => "value",
            Call::DecodeOwned(_) => "decode, owned",
            Call::DecodeLent(_) => "decode, lent",
            Call::SettleTwoPass => "settle, two passes",
            Call::SettleCollected => "settle, collected",
        }
    }
}

pub struct Row {
    pub name: String,
    pub call: Call,
    /// Called one after the other.
    pub texts: Vec<Vec<u8>>,
    /// Whether all of them are accepted; else all of them are refused.
    pub accepted: bool,
    /// The largest ratio to the Rust that starts from bytes that is aimed at.
    pub goal: f64,
}

/// What a long text is made of, as far as its goal goes.
#[derive(Clone, Copy, PartialEq)]
enum Made {
    /// Bytes that need no more than a look at each: plain, raw, decimal digits, or not ASCII.
    Smooth,
    /// Nothing but escapes or dropped line breaks.
    Escapes,
    Other,
}

/// A long text with its row's name, and its kind where it has decoded bytes.
struct Text {
    name: String,
    kind: u8,
    bytes: Vec<u8>,
    made: Made,
}

/// Every row, in the order of the table.
pub fn all() -> Vec<Row> {
    let mut rows = reading();
    rows.extend(keyed_reading());
    rows.extend(values());
    rows.extend(decoding());
    rows.extend(settling());
    rows
}

fn row(call: Call, name: &str, texts: Vec<Vec<u8>>, accepted: bool) -> Row {
    let goal = if name.starts_with("a sheet's") { 0.85 } else { 1.0 };
    Row { name: format!("{}: {name}", call.name()), call, texts, accepted, goal }
}

/// A row of texts that are written out.
fn short(call: Call, name: &str, texts: &[&str], accepted: bool) -> Row {
    let row = row(call, name, texts.iter().map(|text| text.as_bytes().to_vec()).collect(), accepted);
    let goal = if accepted { row.goal } else { 1.3 };
    Row { goal, ..row }
}

/// A row for each name and its texts.
fn shorts(call: Call, named: &[(&str, &[&str])], accepted: bool) -> Vec<Row> {
    named.iter().map(|(name, texts)| short(call, name, texts, accepted)).collect()
}

fn long(call: Call, text: Text, accepted: bool) -> Row {
    let goal = match (text.made, call) {
        (Made::Smooth, _) => 0.4,
        (Made::Escapes, Call::DecodeOwned(_) | Call::DecodeLent(_)) => 1.25,
        _ => 1.0,
    };
    Row { goal, ..row(call, &text.name, vec![text.bytes], accepted) }
}

// ---- reading -----------------------------------------------------------------------------------------------------------

const RATINGS: &[&str] = &["1850", "2143", "987", "0x73A", "2143.5", "1.5e3", "1_850", "1850u32", "0", "1999.25"];

const NAMES: &[&str] = &[
    r#""Eva Lind""#,
    r#""Marion Tinsley""#,
    r#""Judit \"Jutka\" Polgar""#,
    r#""José Raúl Capablanca""#,
    r#""Vera Menchik-Stevenson""#,
    r#""Ren\u{e9}e Zo\u{eb}""#,
    r#""Marija Aleksandra Konstantinova-Petersen""#,
];

const OTHERS: &[&str] = &[
    "true",
    "false",
    "'a'",
    r"'\n'",
    "'é'",
    "b'a'",
    r"b'\xff'",
    r#"b"table 7""#,
    r#"c"Grand Hall""#,
    r##"r#"the "A" group"#"##,
];

const SHORT: &[(&str, &[&str])] = &[
    ("bool, true", &["true"]),
    ("bool, false", &["false"]),
    ("integer, 1850", &["1850"]),
    ("integer, 0", &["0"]),
    ("integer, 0x73A", &["0x73A"]),
    ("integer, 0o3472", &["0o3472"]),
    ("integer, 0b11100111010", &["0b11100111010"]),
    ("integer, 1_850", &["1_850"]),
    ("integer, 1850u32", &["1850u32"]),
    ("integer, 0x73Au16", &["0x73Au16"]),
    ("integer, 20 digits", &["18446744073709551615"]),
    ("float, 2143.5", &["2143.5"]),
    ("float, 1.5e3", &["1.5e3"]),
    ("float, 1e-3", &["1e-3"]),
    ("float, 2143.5f64", &["2143.5f64"]),
    ("char", &["'a'"]),
    ("char, é", &["'é'"]),
    ("char, 4 bytes", &["'🦊'"]),
    ("char, \\n", &[r"'\n'"]),
    ("char, \\x41", &[r"'\x41'"]),
    ("char, \\u{e9}", &[r"'\u{e9}'"]),
    ("char, suffix", &["'a'side"]),
    ("string, empty", &[r#""""#]),
    ("string, name of 8 bytes", &[r#""Eva Lind""#]),
    ("string, name of 22 bytes", &[r#""Vera Menchik-Stevenson""#]),
    ("string, name of 40 bytes", &[r#""Marija Aleksandra Konstantinova-Petersen""#]),
    ("string, name with \\\"", &[r#""Judit \"Jutka\" Polgar""#]),
    ("string, name with \\t", &[r#""Marija Aleksandra\tKonstantinova""#]),
    ("string, name with \\u{e9}", &[r#""Ren\u{e9}e Menchik""#]),
    ("string, name with é", &[r#""José Raúl Capablanca""#]),
    ("string, name with suffix", &[r#""Marion Tinsley"white"#]),
    ("string, raw", &[r#"r"Marion Tinsley""#]),
    ("string, raw, 1 hash", &[r##"r#"the "A" group"#"##]),
    ("string, raw, 1 hash, suffix", &[r##"r#"the "A" group"#white"##]),
    ("byte", &["b'a'"]),
    ("byte, \\n", &[r"b'\n'"]),
    ("byte, \\xff", &[r"b'\xff'"]),
    ("byte, suffix", &["b'a'u8"]),
    ("byte string", &[r#"b"Marion Tinsley""#]),
    ("byte string, \\xff", &[r#"b"Marion\xffTinsley""#]),
    ("byte string, suffix", &[r#"b"Marion Tinsley"white"#]),
    ("byte string, raw", &[r#"br"Marion Tinsley""#]),
    ("C string", &[r#"c"Marion Tinsley""#]),
    ("C string, \\n", &[r#"c"Marion\nTinsley""#]),
    ("C string, é", &[r#"c"José Raúl Capablanca""#]),
    ("C string, suffix", &[r#"c"Marion Tinsley"white"#]),
    ("C string, raw", &[r##"cr#"the "A" group"#"##]),
    ("a sheet's 10 ratings", RATINGS),
    ("a sheet's 7 names", NAMES),
    ("a sheet's 10 others", OTHERS),
];

const SHORT_REFUSED: &[(&str, &[&str])] = &[
    ("refused early, no bytes", &[""]),
    ("refused early, a bare name", &["Marion Tinsley"]),
    ("refused early, '''", &["'''"]),
    ("refused early, 0b2", &["0b2"]),
    ("refused early, \"\\q", &[r#""\qMarion Tinsley""#]),
    ("refused early, r without a quote", &["rating"]),
    ("refused late, 0x", &["0x"]),
    ("refused late, 1850-", &["1850-"]),
    ("refused late, 1.5e", &["1.5e"]),
    ("refused late, 'ab'", &["'ab'"]),
    ("refused late, name not closed", &[r#""Vera Menchik-Stevenson"#]),
    ("refused late, name with a bad escape", &[r#""Vera Menchik-Stevenson\q""#]),
    ("refused late, name with a bad suffix", &[r#""Vera Menchik-Stevenson"_"#]),
    ("refused late, byte string with é", &[r#"b"José Raúl Capablanca""#]),
    ("refused late, C string with \\0", &[r#"c"Vera Menchik-Stevenson\0""#]),
];

fn reading() -> Vec<Row> {
    let mut rows = shorts(Call::Read, SHORT, true);
    rows.push(short(Call::Read, "a sheet's 27 literals", &[RATINGS, NAMES, OTHERS].concat(), true));
    rows.extend(shorts(Call::Read, SHORT_REFUSED, false));
    for size in SIZES {
        let accepted = long_numbers(size).into_iter().chain(long_quoted(size));
        rows.extend(accepted.map(|text| long(Call::Read, text, true)));
        rows.extend(long_refused(size).into_iter().map(|text| long(Call::Read, text, false)));
    }
    rows
}

/// A rating, a sheet's ratings, and a number from a key held down for 41 digits.
fn keyed_reading() -> Vec<Row> {
    vec![
        short(Call::ReadKeyed, "integer, 1850", &["1850"], true),
        short(Call::ReadKeyed, "a sheet's 10 ratings", RATINGS, true),
        short(Call::ReadKeyed, "refused, 41 digits", &["18500000000000000000000000000000000000000"], false),
    ]
}

// ---- long texts --------------------------------------------------------------------------------------------------------

/// A text of exactly the size: `before`, copies of `unit`, and `after`, evened out by digits `0` behind `before`.
fn filled(name: &str, size: Size, before: &str, unit: &str, after: &str) -> Text {
    let room = size.bytes - before.len() - after.len();
    let zeros = "0".repeat(room % unit.len());
    let bytes = [before, &zeros, &unit.repeat(room / unit.len()), after].concat().into_bytes();
    Text { name: format!("{name}, {}", size.name), kind: 0, bytes, made: Made::Other }
}

fn long_numbers(size: Size) -> Vec<Text> {
    let digits = |name, before, unit, after| Text { made: Made::Smooth, ..filled(name, size, before, unit, after) };
    vec![
        filled("integer, binary digits", size, "0b", "01101", ""),
        filled("integer, octal digits", size, "0o", "1234567", ""),
        digits("integer, decimal digits", "", "1234567890", ""),
        filled("integer, hexadecimal digits", size, "0x", "0123456789abcdefABCDEF", ""),
        digits("integer, decimal digits and _", "1", "234_", ""),
        digits("integer, decimal digits, u64", "", "1234567890", "u64"),
        digits("float, digits before the period", "", "1234567890", ".5"),
        digits("float, digits behind the period", "1.", "1234567890", ""),
        digits("float, digits of the exponent", "1e", "1234567890", ""),
        filled("integer, suffix", size, "1x", "x", ""),
        filled("string, suffix of é", size, "\"a\"x", "é", ""),
    ]
}

/// Accepted strings, byte strings and C strings.
fn long_quoted(size: Size) -> Vec<Text> {
    let mut texts = Vec::new();
    for (kind, name, prefix) in QUOTED {
        let quote = format!("{prefix}\"");
        let mut add = |what: &str, unit: &str, made: Made| {
            let text = filled(&format!("{name}, {what}"), size, &quote, unit, "\"");
            texts.push(Text { kind, made, ..text });
        };
        add("plain", PLAIN, Made::Smooth);
        add("\\n", "\\n", Made::Escapes);
        add("\\x41", "\\x41", Made::Escapes);
        add("an escape in 64 bytes", &spaced("\\n"), Made::Other);
        add("dropped line breaks", "\\\n", Made::Escapes);
        add("dropped line breaks and blanks", "a\\\n    ", Made::Escapes);
        if kind != BYTE_STRING {
            add("\\u{e9}", "\\u{e9}", Made::Escapes);
            add("é", "é", Made::Smooth);
            add("4-byte characters", "🦊", Made::Smooth);
            add("an é in 64 bytes", &spaced("é"), Made::Smooth);
        }
        texts.extend(long_raw(size, kind, name, prefix));
    }
    texts
}

/// 64 bytes with one `piece` among them.
fn spaced(piece: &str) -> String {
    format!("{piece}{}", "a".repeat(64 - piece.len()))
}

fn long_raw(size: Size, kind: u8, name: &str, prefix: &str) -> Vec<Text> {
    let raw = |what: &str, hashes: &str, unit: &str, made: Made| {
        let (before, after) = (format!("{prefix}r{hashes}\""), format!("\"{hashes}"));
        let text = filled(&format!("{name}, raw, {what}"), size, &before, unit, &after);
        Text { kind, made, ..text }
    };
    let mut texts = vec![
        raw("0 hashes", "", PLAIN, Made::Smooth),
        raw("3 hashes", "###", PLAIN, Made::Smooth),
        raw("3 hashes, inner quotes", "###", "ab\"##", Made::Other),
    ];
    if kind != BYTE_STRING {
        texts.push(raw("0 hashes, é", "", "é", Made::Smooth));
    }
    texts
}

/// Refused at the front, where the Rust that starts from a checked text looks at no more than that, and refused at the end.
fn long_refused(size: Size) -> Vec<Text> {
    let refused = |name, before, unit, after| filled(name, size, before, unit, after);
    let mut not_utf8 = refused("refused late, not UTF-8", "\"", PLAIN, "\"");
    *not_utf8.bytes.last_mut().expect("it is long") = 255;
    vec![
        refused("refused early, a bare name", "x", PLAIN, ""),
        refused("refused early, 0b2", "0b2", "01101", ""),
        refused("refused early, \"\\q", "\"\\q", PLAIN, "\""),
        refused("refused early, '''", "'''", PLAIN, ""),
        refused("refused early, 1-", "1-", PLAIN, ""),
        refused("refused late, digits and +", "", "1234567890", "+"),
        refused("refused late, digit 2 in base 2", "0b", "01101", "2"),
        refused("refused late, no digits", "0x_", "_", ""),
        refused("refused late, exponent without digits", "", "1234567890", ".5e"),
        refused("refused late, string not closed", "\"", PLAIN, ""),
        refused("refused late, \\n, string not closed", "\"", "\\n", ""),
        refused("refused late, string with a bad escape", "\"", PLAIN, "\\q\""),
        refused("refused late, string with CR", "\"", PLAIN, "\r\""),
        refused("refused late, byte string with é", "b\"", PLAIN, "é\""),
        refused("refused late, raw string not closed", "r###\"", PLAIN, "\"##"),
        refused("refused late, suffix", "1x", "x", "-"),
        refused("refused late, overlong char", "'", "a", "'"),
        not_utf8,
    ]
}

// ---- values ------------------------------------------------------------------------------------------------------------

const VALUES: &[(&str, &[&str])] = &[
    ("1850", &["1850"]),
    ("0x73A", &["0x73A"]),
    ("0o3472", &["0o3472"]),
    ("0b11100111010", &["0b11100111010"]),
    ("1_850", &["1_850"]),
    ("1850u32", &["1850u32"]),
    ("largest, decimal", &["18446744073709551615"]),
    ("largest, hexadecimal", &["0xFFFF_FFFF_FFFF_FFFF"]),
    ("a sheet's 5 integers", &["1850", "2143", "987", "0x73A", "1_850"]),
];

const VALUES_REFUSED: &[(&str, &[&str])] = &[
    ("refused, too large", &["18446744073709551616"]),
    ("refused early, a bare name", &["Marion Tinsley"]),
    ("refused late, 1850-", &["1850-"]),
];

fn values() -> Vec<Row> {
    let mut rows = shorts(Call::Value, VALUES, true);
    rows.extend(shorts(Call::Value, VALUES_REFUSED, false));
    for size in SIZES {
        rows.push(long(Call::Value, filled("zeros and 1850", size, "", "0", "1850"), true));
        rows.push(long(Call::Value, filled("refused, too large", size, "", "1234567890", ""), false));
    }
    rows
}

// ---- decoding ----------------------------------------------------------------------------------------------------------

const DECODED: &[(u8, &str, &str)] = &[
    (STRING, "string, name of 8 bytes", r#""Eva Lind""#),
    (STRING, "string, name of 22 bytes", r#""Vera Menchik-Stevenson""#),
    (STRING, "string, name of 40 bytes", r#""Marija Aleksandra Konstantinova-Petersen""#),
    (STRING, "string, name with \\\"", r#""Judit \"Jutka\" Polgar""#),
    (STRING, "string, name with \\u{e9}", r#""Ren\u{e9}e Menchik""#),
    (STRING, "string, name with é", r#""José Raúl Capablanca""#),
    (STRING, "string, raw, 1 hash", r##"r#"the "A" group"#"##),
    (BYTE_STRING, "byte string", r#"b"Marion Tinsley""#),
    (BYTE_STRING, "byte string, \\xff", r#"b"Marion\xffTinsley""#),
    (C_STRING, "C string", r#"c"Marion Tinsley""#),
    (C_STRING, "C string, é", r#"c"José Raúl Capablanca""#),
];

fn decoding() -> Vec<Row> {
    let mut rows = Vec::new();
    for call in [Call::DecodeOwned, Call::DecodeLent] {
        rows.extend(DECODED.iter().map(|(kind, name, text)| short(call(*kind), name, &[text], true)));
        rows.push(short(call(STRING), "a sheet's 7 names", NAMES, true));
        rows.push(short(call(STRING), "refused late, name not closed", &[r#""Vera Menchik-Stevenson"#], false));
        for size in SIZES {
            rows.extend(long_decoded(size).into_iter().map(|text| long(call(text.kind), text, true)));
        }
    }
    rows
}

/// All long strings, and a few of the long byte strings and C strings.
fn long_decoded(size: Size) -> Vec<Text> {
    let others = ["plain", "\\x41", "é"];
    let mut texts = long_quoted(size);
    texts.retain(|text| {
        text.kind == STRING || others.iter().any(|what| text.name.contains(&format!("string, {what},")))
    });
    texts
}

// ---- settling ----------------------------------------------------------------------------------------------------------

const SETTLED: &[(&str, &[&str])] = &[
    ("bool, true", &["true"]),
    ("integer, 1850", &["1850"]),
    ("integer, 0x73A", &["0x73A"]),
    ("integer, 1850u32", &["1850u32"]),
    ("integer, 20 digits", &["18446744073709551615"]),
    ("float, 2143.5", &["2143.5"]),
    ("float, 1.5e3", &["1.5e3"]),
    ("float, 2143.50f64", &["2143.50f64"]),
    ("char", &["'a'"]),
    ("char, \\u{e9}", &[r"'\u{e9}'"]),
    ("byte, \\xff", &[r"b'\xff'"]),
    ("string, name of 8 bytes", &[r#""Eva Lind""#]),
    ("string, name of 22 bytes", &[r#""Vera Menchik-Stevenson""#]),
    ("string, name of 40 bytes", &[r#""Marija Aleksandra Konstantinova-Petersen""#]),
    ("string, name with \\\"", &[r#""Judit \"Jutka\" Polgar""#]),
    ("string, name with é", &[r#""José Raúl Capablanca""#]),
    ("string, raw, 1 hash", &[r##"r#"the "A" group"#"##]),
    ("byte string, \\xff", &[r#"b"Marion\xffTinsley""#]),
    ("C string", &[r#"c"Marion Tinsley""#]),
    ("C string, é", &[r#"c"José Raúl Capablanca""#]),
    ("a sheet's 10 ratings", RATINGS),
    ("a sheet's 7 names", NAMES),
];

const SETTLED_REFUSED: &[(&str, &[&str])] = &[
    ("refused early, '''", &["'''"]),
    ("refused late, name not closed", &[r#""Vera Menchik-Stevenson"#]),
    ("refused, no value", &["18446744073709551616"]),
    ("refused, power too far", &["1e1000001"]),
];

fn settling() -> Vec<Row> {
    let mut rows = Vec::new();
    for call in [Call::SettleTwoPass, Call::SettleCollected] {
        rows.extend(shorts(call, SETTLED, true));
        rows.extend(shorts(call, SETTLED_REFUSED, false));
        for size in SIZES {
            rows.extend(long_settled(size).into_iter().map(|text| long(call, text, true)));
        }
        rows.push(long(call, filled("refused, form too long", SIZES[1], "c\"", "é", "\""), false));
    }
    rows
}

fn long_settled(size: Size) -> Vec<Text> {
    let settled = |name, before, unit, after| filled(name, size, before, unit, after);
    let smooth = |name, before, unit, after| Text { made: Made::Smooth, ..filled(name, size, before, unit, after) };
    vec![
        settled("integer, zeros and 1850", "", "0", "1850"),
        smooth("float, digits", "1.", "1234567890", "7"),
        settled("float, digits and zeros", "1.5", "0", ""),
        smooth("string, plain", "\"", PLAIN, "\""),
        settled("string, \\n", "\"", "\\n", "\""),
        settled("string, \\x41", "\"", "\\x41", "\""),
        settled("string, \\u{e9}", "\"", "\\u{e9}", "\""),
        settled("string, dropped line breaks", "\"", "\\\n", "\""),
        smooth("string, é", "\"", "é", "\""),
        smooth("string, 4-byte characters", "\"", "🦊", "\""),
        smooth("string, raw, 3 hashes", "r###\"", PLAIN, "\"###"),
        settled("string, suffix", "\"a\"x", "x", ""),
        smooth("byte string, plain", "b\"", PLAIN, "\""),
        settled("byte string, \\xff", "b\"", "\\xff", "\""),
        smooth("C string, plain", "c\"", PLAIN, "\""),
        settled("C string, an é in 1 KB", "c\"", &format!("é{}", "a".repeat(1022)), "\""),
    ]
}

//! The names of refusals are those of the definition in crates/err, and 02's name for 53.
use keybasket::Refusal;

fn name(number: u64) -> &'static str {
    Refusal { number, span: None }.name()
}

#[test]
fn names_of_refusals() {
    let definition = concat!(
        env!("CARGO_MANIFEST_DIR"),
        "/../../crates/err/specs/Numbers.antt"
    );
    let text = std::fs::read_to_string(definition).unwrap();
    let mut number = 0;
    // A line is `number_of Empty = 1`.
    for row in text
        .lines()
        .filter_map(|line| line.strip_prefix("number_of "))
    {
        let (kind, told) = row.split_once(" = ").unwrap();
        number += 1;
        assert_eq!(told.parse(), Ok(number));
        assert_eq!(name(number), kind);
    }
    assert_eq!(number, 48);
    assert_eq!(name(53), "TooManyDigits");
    for none in [0, 49, 50, 51, 52, 54, u64::MAX] {
        assert_eq!(name(none), "?");
    }
}

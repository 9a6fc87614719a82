//! The layout page and the header against the second program, which has the
//! layout for itself.

use std::collections::BTreeMap;

use second::generate::case_e;
use second::layout::{account, contract, pair, position, record, results, Shape, FRONT, TOTALS};

const PAGE: &str = include_str!("../../../docs/FORMAT.md");
const HEADER: &str = include_str!("../../../include/clearing.h");
const SHEET: &[u8] = include_bytes!("../../../crates/evening/stdout");

/// The bytes of each example on the page, in their order. The offset before each
/// line must be that of its first byte.
fn examples() -> Vec<Vec<u8>> {
    let blocks = PAGE.split("```hex\n").skip(1);
    let bytes = blocks.map(|block| {
        let mut bytes = Vec::new();
        for line in block.lines().take_while(|line| !line.starts_with("```")) {
            let (offset, rest) = line.split_once("  ").expect("an offset");
            assert_eq!(usize::from_str_radix(offset, 16), Ok(bytes.len()), "{line}");
            let written = rest.split("  ").next().unwrap_or_default();
            let pairs = written.split(' ');
            bytes.extend(pairs.map(|pair| u8::from_str_radix(pair, 16).expect(line)));
        }
        bytes
    });
    bytes.collect()
}

/// The example days' bytes, by the second program.
fn whole() -> Vec<Vec<u8>> {
    let book = case_e::book().encode();
    let record = case_e::record().encode();
    let mut posted = book.clone();
    assert_eq!(second::post(&mut posted, &record), 0);
    let mut next = vec![0; book.len()];
    let mut results = vec![0; 2 * results::SIZE];
    let prices = case_e::prices();
    let answer = second::settle(&posted, &prices, &mut next, &mut results);
    assert_eq!(answer, 0);
    let day = case_e::file();
    vec![
        book,
        record.to_vec(),
        prices,
        results,
        next,
        day,
        SHEET.to_vec(),
    ]
}

#[test]
fn the_examples_on_the_page_are_case_e() {
    let (examples, whole) = (examples(), whole());
    assert_eq!(examples.len(), whole.len());
    for (place, (example, bytes)) in examples.iter().zip(&whole).enumerate() {
        assert_eq!(example, bytes, "example {place}");
    }
}

/// The header's constants that are plain numbers.
fn constants() -> BTreeMap<&'static str, usize> {
    let defined = HEADER.lines().filter_map(|line| {
        let (name, number) = line.strip_prefix("#define CLEARING_")?.split_once(' ')?;
        Some((name, number.parse().ok()?))
    });
    defined.collect()
}

#[test]
fn the_sizes_in_the_header() {
    let longest = Shape {
        members: 32,
        contracts: 32,
    };
    let sizes = [
        ("MOST_MEMBERS", longest.members),
        ("MOST_CONTRACTS", longest.contracts),
        ("HEAD", FRONT),
        ("CONTRACT_ROW", contract::SIZE),
        ("MEMBER_ROW", account::SIZE),
        ("POSITION_ROW", position::SIZE),
        ("LONGEST_BOOK", longest.total()),
        ("RECORD", record::SIZE),
        ("PRICE_PAIR", pair::SIZE),
        ("RESULT_ROW", results::SIZE),
        ("RESULT_FIELD", results::FIELD),
    ];
    let constants = constants();
    for (name, size) in sizes {
        assert_eq!(constants.get(name), Some(&size), "{name}");
    }
    assert_eq!(longest.total(), *TOTALS.end());
}

#[test]
fn the_kinds_marks_and_standings_in_the_header() {
    let numbers = [
        ("TRADE", 1),
        ("PAIRING", 2),
        ("DEPOSIT", 3),
        ("WITHDRAWAL", 4),
        ("SECURITIES", 5),
        ("OPENS", 0),
        ("CLOSES_OLD", 1),
        ("CLOSES_NEW", 2),
        ("BROKER", 1),
        ("OTHER", 2),
        ("MAY_OPEN", 0),
        ("NO_OPENING", 1),
        ("LIQUIDATION", 2),
    ];
    let constants = constants();
    for (name, number) in numbers {
        assert_eq!(constants.get(name), Some(&number), "{name}");
    }
}

#[test]
fn a_refusal_has_the_second_programs_number() {
    use second::Refusal as Second;
    let second = [
        Second::RecordMalformed,
        Second::RecordsExhausted,
        Second::BelowMinimum,
        Second::TooFewLots,
        Second::TooManyHeld,
        Second::AboveRoom,
        Second::AbovePairable,
        Second::PricesMalformed,
        Second::ReserveOutOfRange,
        Second::BookNotValid,
        Second::RoomTooShort,
    ];
    let numbers = second.map(Second::number);
    assert_eq!(clearing::Refusal::ALL.map(|one| one.number()), numbers);
}

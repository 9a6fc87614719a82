//! The fullest day is what it is said to be.

use std::collections::BTreeMap;

use second::bounds;
use second::generate::full_day;
use second::position::Side;
use second::posting::post_to;
use second::record::Record;
use second::Book;

const TRADES: usize = 320_000;

#[test]
fn every_member_has_all_its_records_and_all_are_accepted_trades() {
    let day = full_day::day(full_day::RECORDS);
    assert_eq!(day.file.len(), 52_000 + 4 + TRADES * 24 + 32 * 8);
    assert_eq!(day.records.len(), TRADES);
    let mut book = Book::decode(&day.book).expect("a valid book");
    assert!(book.accounts.iter().all(|account| account.accepted == 0));
    let mut marks: BTreeMap<u8, usize> = BTreeMap::new();
    for (place, bytes) in day.records.iter().enumerate() {
        match post_to(&mut book, bytes) {
            Ok(Record::Trade(trade)) => {
                for party in trade.parties() {
                    *marks.entry(party.mark as u8).or_default() += 1;
                }
            }
            other => panic!("record {place}: {other:?}"),
        }
    }
    assert!(book
        .accounts
        .iter()
        .all(|account| account.accepted == *bounds::ACCEPTED.end()));
    assert_eq!(marks.keys().copied().collect::<Vec<u8>>(), [0, 1, 2]);
    assert!(marks.values().all(|&times| times > TRADES / 2), "{marks:?}");
    let held = book
        .positions
        .iter()
        .flat_map(|row| Side::BOTH.map(|side| row[side].held()));
    assert!(held.max().is_some_and(|lots| lots.0 <= 100_000));
    assert_eq!(second::check(&book.encode()), 0);
}

#[test]
fn it_is_settled_and_nothing_is_refused() {
    for records in [0, 1, 50] {
        let text = String::from_utf8(second::evening(&full_day::day(records).file)).expect("text");
        assert!(text.starts_with("member "), "{text}");
        assert_eq!(text.lines().count(), 33);
    }
}

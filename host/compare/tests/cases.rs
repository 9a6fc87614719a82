//! The rules' examples of records and of delivery, run through the library.

#[path = "../../../second/tests/common/mod.rs"]
mod common;

use common::{deposit, plain, trade, withdrawal, RawBook, CONTRACT};
use comparison::answer;

/// The book's bytes after an accepted record.
fn accepted(book: &[u8], record: &[u8]) -> Vec<u8> {
    let mut after = book.to_vec();
    assert_eq!(clearing::post(&mut after, record), Ok(()));
    assert_ne!(after, book);
    after
}

/// A refused record leaves the book as it stood.
fn refused(book: &[u8], record: &[u8], number: u8) {
    let mut after = book.to_vec();
    assert_eq!(answer(clearing::post(&mut after, record)), number);
    assert_eq!(after, book);
}

#[test]
fn the_three_withdrawals() {
    let mut book: RawBook = plain(2, CONTRACT);
    book.accounts[0].reserve = 60_000_000;
    let first = accepted(&book.bytes(), &withdrawal(0, 6_000_000));
    refused(&first, &withdrawal(0, 6_000_000), 6);
    let short = accepted(&first, &deposit(0, 1_999_999));
    refused(&short, &withdrawal(0, 6_000_000), 6);
    let enough = accepted(&first, &deposit(0, 2_000_000));
    let third = accepted(&enough, &withdrawal(0, 6_000_000));
    book.accounts[0].accepted = 3;
    book.accounts[0].deposits = 2_000_000;
    book.accounts[0].withdrawals = 12_000_000;
    assert_eq!(third, book.bytes());
}

#[test]
fn a_close_may_not_leave_fewer_held_than_paired() {
    let mut book: RawBook = plain(2, CONTRACT);
    book.at(0, 0).lots = [3, 0, 0, 0, 0, 0, 2, 0];
    book.at(1, 0).lots = [0, 3, 0, 0, 0, 0, 0, 2];
    let bytes = book.bytes();
    refused(&bytes, &trade([1, 0], [1, 1], 500_000, 2), 4);
    let after = accepted(&bytes, &trade([1, 0], [1, 1], 500_000, 1));
    for member in [0, 1] {
        book.accounts[member].accepted = 1;
        book.at(member, 0).traded = 1;
    }
    book.at(0, 0).lots = [3, 0, 1, 0, 0, 0, 2, 0];
    book.at(1, 0).lots = [0, 3, 0, 1, 0, 0, 0, 2];
    book.at(0, 0).cash = 500_000;
    book.at(1, 0).cash = -500_000;
    assert_eq!(after, book.bytes());
}

/// Field `at` of a member's row in the results.
fn result(results: &[u8], member: usize, at: usize) -> i64 {
    let from = member * 72 + at * 8;
    i64::from_le_bytes(results[from..from + 8].try_into().unwrap())
}

#[test]
fn paired_lots_go_from_tonights_price_to_the_delivery_price() {
    let mut book: RawBook = plain(2, [505_000, 10, 500, 0, 7, 0]);
    book.at(0, 0).lots = [2, 0, 0, 0, 0, 0, 2, 0];
    book.at(1, 0).lots = [0, 2, 0, 0, 0, 0, 0, 2];
    let bytes = book.bytes();
    for (delivery, buyer) in [(504_000u32, -20_000), (505_000, 0), (506_000, 20_000)] {
        let prices = [505_000u32.to_le_bytes(), delivery.to_le_bytes()].concat();
        let mut next = vec![0; bytes.len()];
        let mut results = vec![0; 2 * 72];
        assert_eq!(
            clearing::settle(&bytes, &prices, &mut next, &mut results),
            Ok(())
        );
        for (member, profit) in [(0, buyer), (1, -buyer)] {
            let row: Vec<i64> = (0..4).map(|at| result(&results, member, at)).collect();
            assert_eq!(row, [member as i64, profit, 14, 0]);
        }
    }
}

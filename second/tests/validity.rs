//! Which books are valid.

mod common;

use common::*;
use second::generate::edges::{edge_books, EdgeBook};
use second::generate::random::Random;
use second::Book;

#[test]
fn every_field_at_and_beside_its_bounds() {
    for EdgeBook { name, bytes, valid } in edge_books() {
        let number = if valid { 0 } else { 10 };
        assert_eq!(second::check(&bytes), number, "{name}");
    }
}

#[test]
fn a_book_that_is_not_valid_is_refused_everywhere() {
    for EdgeBook { name, bytes, valid } in edge_books() {
        let mut book = bytes.clone();
        let posted = second::post(&mut book, &deposit(0, 1));
        let mut next = vec![7; 60_000];
        let mut results = vec![7; 3_000];
        let settled = second::settle(&bytes, &[], &mut next, &mut results);
        if valid {
            assert_ne!(posted, 10, "{name}");
            assert_eq!(settled, 8, "{name}");
        } else {
            assert_eq!((posted, settled), (10, 10), "{name}");
            assert!(book == bytes, "{name}");
        }
        assert!(next.iter().chain(&results).all(|&byte| byte == 7));
    }
}

#[test]
fn a_valid_book_reads_and_writes_to_the_same_bytes() {
    for case in edge_books().iter().filter(|case| case.valid) {
        let book = Book::decode(&case.bytes).unwrap();
        assert!(book.encode() == case.bytes, "{}", case.name);
    }
}

#[test]
fn the_largest_book_has_52_000_bytes() {
    let mut book = plain(32, CONTRACT);
    book.contracts = vec![CONTRACT; 32];
    book.positions = vec![RawPosition::default(); 1_024];
    assert_eq!(book.bytes().len(), 52_000);
    assert_eq!(second::check(&book.bytes()), 0);
}

/// Two members that balance each other; `change` is made to the first and the
/// verdict has to be as said.
fn verdict(valid: bool, change: impl Fn(&mut RawBook)) {
    let mut book = plain(2, CONTRACT);
    for account in &mut book.accounts {
        account.accepted = 2;
    }
    book.at(0, 0).lots = [9, 0, 2, 0, 4, 0, 3, 0];
    book.at(1, 0).lots = [0, 9, 0, 2, 0, 4, 0, 3];
    book.at(0, 0).traded = 6;
    book.at(1, 0).traded = 6;
    book.at(0, 0).cash = 50;
    book.at(1, 0).cash = -50;
    assert_eq!(second::check(&book.bytes()), 0);
    change(&mut book);
    assert_eq!(second::check(&book.bytes()) == 0, valid);
}

#[test]
fn each_of_the_four_balances() {
    // Opening and closed old together leave held as it was.
    verdict(false, |book| {
        book.at(0, 0).lots[OPENING_LONG] += 1;
        book.at(0, 0).lots[CLOSED_LONG] += 1;
    });
    verdict(false, |book| book.at(0, 0).lots[NEW_LONG] += 1);
    verdict(false, |book| book.at(0, 0).lots[CLOSED_LONG] += 1);
    verdict(false, |book| book.at(0, 0).lots[PAIRED_LONG] -= 1);
    verdict(false, |book| book.at(0, 0).cash += 1);
    verdict(true, |book| {
        book.at(0, 0).cash += 1;
        book.at(1, 0).cash -= 1;
    });
    // Old for new leaves held as it was, and that is all that has to balance.
    verdict(true, |book| {
        book.at(0, 0).lots[NEW_LONG] += 1;
        book.at(0, 0).lots[CLOSED_LONG] += 1;
    });
    // Both sides of one member balance each other as well.
    verdict(true, |book| {
        book.at(0, 0).lots[NEW_LONG] += 1;
        book.at(0, 0).lots[NEW_SHORT] += 1;
    });
}

#[test]
fn zero_fields() {
    verdict(false, |book| book.contracts[0][5] = 1);
    verdict(false, |book| book.at(1, 0).zero = 1);
}

#[test]
fn cash_sums_beyond_any_sum_are_told_from_zero() {
    // Sums that wrap round to zero in eight bytes.
    let mut book = plain(4, CONTRACT);
    for member in 0..4 {
        book.accounts[member].accepted = 20_000;
        book.at(member, 0).traded = 200_000_000;
        book.at(member, 0).cash = 1 << 62;
    }
    assert_eq!(second::check(&book.bytes()), 10);
}

#[test]
fn any_flipped_bit_gets_the_same_verdict_from_all_calls() {
    let base = second::generate::edges::base().encode();
    for at in 0..base.len() {
        for bit in 0..8 {
            let mut book = base.clone();
            book[at] ^= 1 << bit;
            let before = book.clone();
            let valid = second::check(&book) == 0;
            let posted = second::post(&mut book, &[]);
            assert_eq!(posted, if valid { 1 } else { 10 });
            assert!(book == before);
        }
    }
}

#[test]
fn bytes_of_any_length_get_a_verdict() {
    let mut random = Random::new(5);
    for length in 0..600 {
        let bytes: Vec<u8> = (0..length).map(|_| random.bits() as u8).collect();
        assert_eq!(second::check(&bytes), 10);
    }
    let book = second::generate::edges::base().encode();
    for length in 0..book.len() {
        assert_eq!(second::check(&book[..length]), 10);
    }
}

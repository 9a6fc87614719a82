//! Every refusal number, on both sides of its boundary.

mod common;

use common::*;

/// Three members, two contracts, old and new lots on every side.
fn book() -> RawBook {
    let mut book = plain(3, CONTRACT);
    book.contracts.push(CONTRACT);
    book.positions = vec![RawPosition::default(); 6];
    for member in 0..3 {
        for contract in 0..2 {
            book.at(member, contract).lots = [20, 20, 5, 5, 7, 7, 0, 0];
        }
    }
    book
}

fn any_change(book: &RawBook, record: &[u8]) -> Vec<u8> {
    let mut bytes = book.bytes();
    assert_eq!(second::post(&mut bytes, record), 0, "{record:?}");
    bytes
}

#[test]
fn refusal_1_by_length() {
    let whole = deposit(0, 1);
    any_change(&book(), &whole);
    for length in 0..24 {
        refused(&book(), &whole[..length], 1);
    }
    refused(&book(), &[&whole[..], &[0]].concat(), 1);
    refused(&book(), &[&whole[..], &whole].concat(), 1);
}

#[test]
fn refusal_1_by_kind() {
    let numbers = |kind: u8| match kind {
        1 => (500_000, 1),
        2 => (0, 1),
        5 => (1, 1),
        _ => (1, 0),
    };
    for kind in 0..=255 {
        let (a, b) = numbers(kind);
        let second = u8::from(kind == 1 || kind == 2);
        let record = record([kind, 0, 0, second, 0, 0], a, b);
        if (1..=5).contains(&kind) {
            any_change(&book(), &record);
        } else {
            refused(&book(), &record, 1);
        }
    }
}

/// A record of each kind that is accepted.
fn one_of_each() -> [Vec<u8>; 5] {
    [
        record([1, 1, 1, 2, 0, 0], 500_000, 1),
        record([2, 1, 1, 2, 0, 0], 0, 1),
        record([3, 0, 1, 0, 0, 0], 1, 0),
        record([4, 0, 1, 0, 0, 0], 1, 0),
        record([5, 0, 1, 0, 0, 0], 1, 1),
    ]
}

#[test]
fn refusal_1_by_unused_fields() {
    // Which bytes each kind uses: contract, second member, marks, A, B.
    let unused: [&[usize]; 5] = [
        &[6, 7],
        &[4, 5, 6, 7, 8, 9, 10, 11, 12, 13, 14, 15],
        &[1, 3, 4, 5, 6, 7, 16, 17, 18, 19, 20, 21, 22, 23],
        &[1, 3, 4, 5, 6, 7, 16, 17, 18, 19, 20, 21, 22, 23],
        &[1, 3, 4, 5, 6, 7],
    ];
    for (record, unused) in one_of_each().iter().zip(unused) {
        any_change(&book(), record);
        for &at in unused {
            for value in [1, 128, 255] {
                let mut damaged = record.clone();
                damaged[at] = value;
                refused(&book(), &damaged, 1);
            }
        }
    }
}

#[test]
fn refusal_1_by_fields_absent_from_the_book() {
    for (kind, record) in one_of_each().iter().enumerate() {
        let uses_two = kind < 2;
        for value in [3, 4, 32, 255] {
            let mut damaged = record.clone();
            damaged[2] = value;
            refused(&book(), &damaged, 1);
            if uses_two {
                let mut damaged = record.clone();
                damaged[3] = value;
                refused(&book(), &damaged, 1);
            }
        }
        for value in [2, 3, 255].into_iter().filter(|_| uses_two) {
            let mut damaged = record.clone();
            damaged[1] = value;
            refused(&book(), &damaged, 1);
        }
    }
}

#[test]
fn refusal_1_by_equal_members() {
    for kind in [1, 2] {
        let a = if kind == 1 { 500_000 } else { 0 };
        for member in 0..3 {
            refused(&book(), &record([kind, 0, member, member, 0, 0], a, 1), 1);
        }
        any_change(&book(), &record([kind, 0, 0, 2, 0, 0], a, 1));
        any_change(&book(), &record([kind, 0, 2, 0, 0, 0], a, 1));
    }
}

#[test]
fn refusal_1_by_marks() {
    for mark in 0..=255 {
        for marks in [[mark, 0], [0, mark]] {
            let record = trade([0, 1], marks, 500_000, 1);
            if mark <= 2 {
                any_change(&book(), &record);
            } else {
                refused(&book(), &record, 1);
            }
        }
    }
}

/// A number at both its ends, and one and more beyond them.
fn number_range(low: u64, high: u64, record: impl Fn(u64) -> Vec<u8>, book: &RawBook) {
    for value in [low, low + 1, high - 1, high] {
        any_change(book, &record(value));
    }
    for value in [low.wrapping_sub(1), high + 1, 1 << 32, 1 << 63, u64::MAX] {
        if !(low..=high).contains(&value) {
            refused(book, &record(value), 1);
        }
    }
}

#[test]
fn refusal_1_by_numbers_out_of_range() {
    let mut rich = book();
    for member in 0..3 {
        rich.accounts[member].reserve = 1_000_000_000_000_000;
        rich.at(member, 0).lots = [20_000, 20_000, 0, 0, 0, 0, 0, 0];
    }
    let trade_at = |price| trade([0, 1], [0, 0], price, 1);
    let trade_of = |lots| trade([0, 1], [0, 0], 500_000, lots);
    let million = 1_000_000;
    number_range(1, 10 * million, trade_at, &rich);
    number_range(1, 10_000, trade_of, &rich);
    number_range(1, 10_000, |lots| pairing([0, 1], lots), &rich);
    number_range(1, million * million, |amount| deposit(0, amount), &rich);
    number_range(1, million * million, |amount| withdrawal(0, amount), &rich);
    let top = 1_000 * million * million;
    number_range(0, top, |value| securities(0, value, 0), &rich);
    number_range(0, 8_000, |rate| securities(0, 5, rate), &rich);
}

#[test]
fn refusal_2_at_20_000_records() {
    for record in one_of_each() {
        for member in 0..3 {
            let named = member == 1 || (member == 2 && record[0] <= 2);
            let mut full = book();
            full.accounts[member].accepted = 19_999;
            any_change(&full, &record);
            full.accounts[member].accepted = 20_000;
            if named {
                refused(&full, &record, 2);
            } else {
                any_change(&full, &record);
            }
        }
    }
}

#[test]
fn refusal_2_comes_after_1_and_before_the_rest() {
    let mut full = book();
    full.accounts[0].accepted = 20_000;
    full.accounts[0].reserve = 0;
    refused(&full, &withdrawal(0, 0), 1);
    refused(&full, &withdrawal(0, 1), 2);
    refused(&full, &trade([0, 1], [0, 0], 500_000, 1), 2);
    refused(&full, &pairing([1, 0], 1_000), 2);
    full.accounts[0].accepted = 19_999;
    refused(&full, &withdrawal(0, 1), 6);
    refused(&full, &trade([0, 1], [0, 0], 500_000, 1), 3);
    refused(&full, &pairing([1, 0], 1_000), 7);
}

#[test]
fn refusal_3_at_the_minimum() {
    for (kind, minimum) in [(1, 200_000_000), (2, 50_000_000)] {
        for (reserve, deposits, withdrawals) in [
            (minimum, 0, 0),
            (minimum - 500, 500, 0),
            (minimum + 500, 0, 500),
            (minimum, 300, 300),
        ] {
            for member in 0..2 {
                let mut book = book();
                book.accounts[member] = RawAccount {
                    accepted: 9,
                    deposits,
                    withdrawals,
                    ..account(kind, reserve)
                };
                let opens = trade([0, 1], [0, 0], 500_000, 1);
                any_change(&book, &opens);
                book.accounts[member].reserve -= 1;
                refused(&book, &opens, 3);
                // A side that closes needs no minimum.
                let mut marks = [0, 0];
                marks[member] = 1;
                any_change(&book, &trade([0, 1], marks, 500_000, 1));
            }
        }
    }
}

#[test]
fn refusal_3_looks_at_the_reserve_alone() {
    // Margin and usable do not count towards the minimum.
    let mut book = book();
    book.accounts[0].reserve = 49_999_999;
    book.accounts[0].margin = 1_000_000_000;
    refused(&book, &trade([0, 1], [0, 0], 500_000, 1), 3);
    book.accounts[0].reserve = 50_000_000;
    book.accounts[0].margin = 0;
    book.accounts[0].usable = 1_000_000_000;
    any_change(&book, &trade([0, 1], [0, 0], 500_000, 1));
}

#[test]
fn refusal_4_by_lots_under_the_mark() {
    // Old 20 - 5 = 15, new 7, on every side.
    for (mark, lots) in [(1, 15), (2, 7)] {
        for marks in [[mark, 0], [0, mark], [mark, mark]] {
            refused(&book(), &trade([0, 1], marks, 500_000, lots + 1), 4);
            any_change(&book(), &trade([0, 1], marks, 500_000, lots));
        }
    }
    refused(&book(), &trade([0, 1], [1, 2], 500_000, 8), 4);
    any_change(&book(), &trade([0, 1], [1, 2], 500_000, 7));
}

#[test]
fn refusal_4_by_paired_lots() {
    // Held 22; with 12 paired, 10 may be closed of the 15 old.
    let mut book = book();
    for member in 0..2 {
        book.at(member, 0).lots[PAIRED_LONG] = 12;
        book.at(member, 0).lots[PAIRED_SHORT] = 12;
    }
    for marks in [[1, 0], [0, 1], [1, 1]] {
        refused(&book, &trade([0, 1], marks, 500_000, 11), 4);
        any_change(&book, &trade([0, 1], marks, 500_000, 10));
    }
    // All 7 new may go, since 15 are left.
    any_change(&book, &trade([0, 1], [2, 2], 500_000, 7));
}

#[test]
fn a_close_changes_the_opposite_side_and_no_other() {
    granted(&book(), &trade([0, 1], [1, 2], 510_000, 7), |book| {
        for (member, cash) in [(0, -3_570_000), (1, 3_570_000)] {
            book.accounts[member].accepted = 1;
            book.at(member, 0).traded = 7;
            book.at(member, 0).cash = cash;
        }
        book.at(0, 0).lots[CLOSED_SHORT] += 7;
        book.at(1, 0).lots[NEW_LONG] -= 7;
    });
    granted(&book(), &trade([0, 1], [2, 1], 510_000, 7), |book| {
        for (member, cash) in [(0, -3_570_000), (1, 3_570_000)] {
            book.accounts[member].accepted = 1;
            book.at(member, 0).traded = 7;
            book.at(member, 0).cash = cash;
        }
        book.at(0, 0).lots[NEW_SHORT] -= 7;
        book.at(1, 0).lots[CLOSED_LONG] += 7;
    });
}

#[test]
fn an_opening_changes_the_own_side_and_no_other() {
    granted(&book(), &record([1, 1, 2, 0, 0, 0], 3, 4), |book| {
        for (member, cash) in [(2, -12), (0, 12)] {
            book.accounts[member].accepted = 1;
            book.at(member, 1).traded = 4;
            book.at(member, 1).cash = cash;
        }
        book.at(2, 1).lots[NEW_LONG] += 4;
        book.at(0, 1).lots[NEW_SHORT] += 4;
    });
}

#[test]
fn refusal_5_at_100_000_held() {
    // The side near its bound is the buyer's long, then the seller's short.
    for (member, near, other) in [(0, 0, 1), (1, 1, 0)] {
        let mut book = plain(2, CONTRACT);
        book.at(member, 0).lots[near] = 99_995;
        book.at(1 - member, 0).lots[other] = 99_995;
        let opens = |lots| trade([0, 1], [0, 0], 500_000, lots);
        refused(&book, &opens(6), 5);
        any_change(&book, &opens(5));
        refused(&book, &opens(10_000), 5);
        // Closed old lots make room again.
        book.at(member, 0).lots[2 + near] = 4;
        book.at(1 - member, 0).lots[2 + other] = 4;
        refused(&book, &opens(10), 5);
        any_change(&book, &opens(9));
    }
}

#[test]
fn of_two_sides_the_lower_number_is_given() {
    let mut book = plain(2, CONTRACT);
    book.at(0, 0).lots[OPENING_LONG] = 100_000;
    book.at(1, 0).lots[OPENING_SHORT] = 100_000;
    book.accounts[1].reserve = 0;
    // The buyer would pass its bound, the seller is below its minimum.
    refused(&book, &trade([0, 1], [0, 0], 500_000, 1), 3);
    // The buyer would pass its bound, the seller has no lots to close.
    refused(&book, &trade([0, 1], [0, 1], 500_000, 1), 4);
    // The buyer has no lots to close, the seller is below its minimum.
    refused(&book, &trade([0, 1], [1, 0], 500_000, 1), 3);
    book.accounts[1].reserve = 50_000_000;
    refused(&book, &trade([0, 1], [0, 0], 500_000, 1), 5);
}

#[test]
fn refusal_6_at_the_room_left() {
    let mut book = book();
    book.accounts[0] = RawAccount {
        accepted: 4,
        deposits: 700,
        withdrawals: 200,
        ..account(1, 200_001_000)
    };
    refused(&book, &withdrawal(0, 1_501), 6);
    granted(&book, &withdrawal(0, 1_500), |book| {
        book.accounts[0].accepted = 5;
        book.accounts[0].withdrawals = 1_700;
    });
    book.accounts[0].reserve = 199_999_500;
    refused(&book, &withdrawal(0, 1), 6);
    book.accounts[0].reserve = 199_999_501;
    any_change(&book, &withdrawal(0, 1));
    book.accounts[0].reserve = -1_000_000_000_000_000;
    refused(&book, &withdrawal(0, 1), 6);
}

#[test]
fn deposits_and_securities_change_exactly_their_fields() {
    granted(&book(), &deposit(2, 1_000_000_000_000), |book| {
        book.accounts[2].accepted = 1;
        book.accounts[2].deposits = 1_000_000_000_000;
    });
    granted(&book(), &securities(1, 77, 8_000), |book| {
        book.accounts[1].accepted = 1;
        book.accounts[1].market_value = 77;
        book.accounts[1].discount = 8_000;
    });
}

#[test]
fn refusal_7_at_held_less_paired() {
    // Held 22 on every side.
    refused(&book(), &pairing([0, 1], 23), 7);
    let paired = granted(&book(), &pairing([0, 1], 12), |book| {
        book.accounts[0].accepted = 1;
        book.accounts[1].accepted = 1;
        book.at(0, 0).lots[PAIRED_LONG] = 12;
        book.at(1, 0).lots[PAIRED_SHORT] = 12;
    });
    refused(&paired, &pairing([0, 1], 11), 7);
    refused(&paired, &pairing([0, 2], 11), 7);
    refused(&paired, &pairing([2, 1], 11), 7);
    any_change(&paired, &pairing([0, 1], 10));
    any_change(&paired, &pairing([0, 2], 10));
    any_change(&paired, &pairing([2, 1], 10));
    // The sides that were not paired are as free as before.
    any_change(&paired, &pairing([1, 0], 22));
}

/// Settles and expects a refusal that leaves every lent byte as it stood.
fn settlement_refused(book: &[u8], prices: &[u8], room: [usize; 2], number: u8) {
    let mut next: Vec<u8> = (0..room[0]).map(|at| at as u8).collect();
    let mut results: Vec<u8> = (0..room[1]).map(|at| !at as u8).collect();
    let before = (next.clone(), results.clone());
    let answer = second::settle(book, prices, &mut next, &mut results);
    assert_eq!(answer, number);
    assert!((next, results) == before, "a refused settlement wrote");
}

fn settlement_accepted(book: &[u8], prices: &[u8], room: [usize; 2]) {
    let mut next = vec![0x5a; room[0]];
    let mut results = vec![0x5a; room[1]];
    assert_eq!(second::settle(book, prices, &mut next, &mut results), 0);
    assert_eq!(second::check(&next[..book.len()]), 0);
    assert!(next[book.len()..].iter().all(|&byte| byte == 0x5a));
    let members = usize::from(book[0]);
    assert!(results[72 * members..].iter().all(|&byte| byte == 0x5a));
}

const AMPLE: [usize; 2] = [60_000, 3_000];

#[test]
fn refusal_8_by_prices() {
    let bytes = book().bytes();
    let stands = |pairs: &[[u32; 2]]| settlement_accepted(&bytes, &prices(pairs), AMPLE);
    let falls = |pairs: &[[u32; 2]]| settlement_refused(&bytes, &prices(pairs), AMPLE, 8);
    stands(&[[1, 0], [1, 1]]);
    stands(&[[10_000_000, 10_000_000], [1, 0]]);
    falls(&[[0, 0], [1, 0]]);
    falls(&[[1, 0], [0, 0]]);
    falls(&[[10_000_001, 0], [1, 0]]);
    falls(&[[1, 0], [10_000_001, 0]]);
    falls(&[[1, 10_000_001], [1, 0]]);
    falls(&[[1, 0], [1, u32::MAX]]);
    falls(&[]);
    falls(&[[1, 0]]);
    falls(&[[1, 0], [1, 0], [1, 0]]);
    let whole = prices(&[[1, 0], [1, 0]]);
    for length in 0..whole.len() {
        settlement_refused(&bytes, &whole[..length], AMPLE, 8);
    }
    settlement_refused(&bytes, &[&whole[..], &[0]].concat(), AMPLE, 8);
}

#[test]
fn refusal_8_by_a_delivery_price_of_0_where_lots_are_paired() {
    let mut paired = book();
    paired.at(1, 1).lots[PAIRED_LONG] = 1;
    paired.at(2, 1).lots[PAIRED_SHORT] = 1;
    let bytes = paired.bytes();
    settlement_refused(&bytes, &prices(&[[1, 0], [1, 0]]), AMPLE, 8);
    settlement_refused(&bytes, &prices(&[[1, 1], [1, 0]]), AMPLE, 8);
    settlement_accepted(&bytes, &prices(&[[1, 0], [1, 1]]), AMPLE);
}

#[test]
fn refusal_9_at_both_ends_of_the_reserve() {
    let end = 1_000_000_000_000_000;
    for sign in [1, -1] {
        // The day's deposits or withdrawals carry the reserve to its end.
        let mut book = plain(2, CONTRACT);
        book.accounts[0].accepted = 1;
        book.accounts[0].reserve = sign * (end - 500);
        let moved = |book: &mut RawBook, amount| match sign {
            1 => book.accounts[0].deposits = amount,
            _ => book.accounts[0].withdrawals = amount,
        };
        moved(&mut book, 500);
        let result = results_of(&book, 0, &[[500_000, 0]]);
        assert_eq!(result[RESERVE], sign * end);
        moved(&mut book, 501);
        let pairs = prices(&[[500_000, 0]]);
        settlement_refused(&book.bytes(), &pairs, AMPLE, 9);
        // It is enough that one member is out of range, and it may be the last.
        book.accounts.swap(0, 1);
        settlement_refused(&book.bytes(), &pairs, AMPLE, 9);
    }
}

#[test]
fn refusal_10_for_a_book_that_is_not_valid() {
    let mut broken = book();
    broken.at(0, 0).lots[OPENING_LONG] += 1;
    let bytes = broken.bytes();
    assert_eq!(second::check(&bytes), 10);
    refused(&broken, &deposit(0, 1), 10);
    refused(&broken, &[], 10);
    refused(&broken, &deposit(0, 0), 10);
    settlement_refused(&bytes, &prices(&[[1, 0], [1, 0]]), AMPLE, 10);
    settlement_refused(&bytes, &[], [0, 0], 10);
    assert_eq!(second::check(&book().bytes()), 0);
}

#[test]
fn refusal_11_at_the_lengths_needed() {
    let bytes = book().bytes();
    let pairs = prices(&[[500_000, 0], [500_000, 0]]);
    let (total, results) = (bytes.len(), 72 * 3);
    settlement_accepted(&bytes, &pairs, [total, results]);
    settlement_accepted(&bytes, &pairs, [total + 1, results + 1]);
    for room in [
        [total - 1, results],
        [total, results - 1],
        [total - 1, results - 1],
        [total - 1, results + 100],
        [total + 100, results - 1],
        [0, 0],
    ] {
        settlement_refused(&bytes, &pairs, room, 11);
    }
}

#[test]
fn settlement_refusals_come_in_the_order_10_8_11_9() {
    let mut book = plain(2, CONTRACT);
    book.accounts[0].accepted = 1;
    book.accounts[0].reserve = 1_000_000_000_000_000;
    book.accounts[0].deposits = 1;
    let good = prices(&[[500_000, 0]]);
    let bytes = book.bytes();
    settlement_refused(&bytes, &good, AMPLE, 9);
    settlement_refused(&bytes, &good, [0, 0], 11);
    settlement_refused(&bytes, &good[1..], [0, 0], 8);
    settlement_refused(&bytes[1..], &good[1..], [0, 0], 10);
}

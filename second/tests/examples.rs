//! The examples of the specification, each on both sides of its boundary.

mod common;

use common::*;

/// Two members of kind 2: the first as given, the second with ample money.
/// The first is long, the second short, so many lots.
fn held_by(first: RawAccount, contract: RawContract, long: u32, short: u32) -> RawBook {
    let mut book = plain(2, contract);
    book.accounts[0] = first;
    book.at(0, 0).lots[OPENING_LONG] = long;
    book.at(1, 0).lots[OPENING_SHORT] = long;
    book.at(0, 0).lots[OPENING_SHORT] = short;
    book.at(1, 0).lots[OPENING_LONG] = short;
    book
}

/// A member with so much money of its own, and nothing else.
fn money(amount: i64) -> RawAccount {
    account(2, amount)
}

#[test]
fn lots_opened_and_closed_today_by_either_pairing() {
    for last in [1, 500_000, 10_000_000] {
        let mut book = plain(2, [last, 10, 500, 0, 0, 0]).bytes();
        let records = [
            trade([0, 1], [0, 0], 500_000, 3),
            trade([0, 1], [0, 0], 520_000, 2),
            trade([1, 0], [2, 2], 530_000, 4),
        ];
        for record in &records {
            assert_eq!(second::post(&mut book, record), 0);
        }
        let (answer, _, fields) = settled(&book, &prices(&[[525_000, 0]]));
        assert_eq!(answer, 0);
        assert_eq!(fields[PNL], 1_050_000, "last price {last}");
        assert_eq!(fields[9 + PNL], -1_050_000);
    }
    assert_eq!(1_000_000 + 50_000, 800_000 + 250_000);
}

#[test]
fn usable_is_four_times_money_or_the_discounted_securities() {
    let cases = [
        (100_000_000, 400_000_000),
        (119_999_999, 479_999_996),
        (120_000_000, 480_000_000),
        (120_000_001, 480_000_000),
        (1, 4),
        (0, 0),
        (-1, 0),
    ];
    for (own, usable) in cases {
        let mut first = money(own);
        first.market_value = 600_000_001;
        first.discount = 8_000;
        let book = held_by(first, CONTRACT, 0, 0);
        assert_eq!(results_of(&book, 0, &[[500_000, 0]])[USABLE], usable);
    }
}

#[test]
fn discounted_securities_are_rounded_down() {
    for (market_value, discount, usable) in [
        (600_000_001, 8_000, 480_000_000),
        (600_000_002, 8_000, 480_000_001),
        (1, 8_000, 0),
        (2, 8_000, 1),
        (10_000, 1, 1),
        (9_999, 1, 0),
        (1_000_000_000_000_000, 8_000, 800_000_000_000_000),
        (1_000_000_000_000_000, 0, 0),
    ] {
        // Four times this money covers the largest case exactly.
        let mut first = money(200_000_000_000_000);
        first.market_value = market_value;
        first.discount = discount;
        let book = held_by(first, CONTRACT, 0, 0);
        assert_eq!(results_of(&book, 0, &[[500_000, 0]])[USABLE], usable);
    }
}

#[test]
fn usable_with_margin_420_000_000() {
    let mut first = money(100_000_000);
    first.market_value = 600_000_001;
    first.discount = 8_000;
    // One lot at 4,200,000, multiplier 100, the whole as margin.
    let book = held_by(first, [4_200_000, 100, 10_000, 0, 0, 0], 1, 0);
    let results = results_of(&book, 0, &[[4_200_000, 0]]);
    let expected = [0, 0, 0, 420_000_000, 400_000_000, 80_000_000, 0, 0, 0];
    assert_eq!(results, expected);
}

#[test]
fn usable_comes_from_tonights_money_not_this_mornings() {
    let mut first = money(100_000_000);
    first.market_value = 600_000_001;
    first.discount = 8_000;
    let book = held_by(first, [500_000, 10, 500, 0, 0, 0], 1, 0);
    // The price falls by 1,000: 10,000 fen less money, 40,000 less usable.
    let results = results_of(&book, 0, &[[499_000, 0]]);
    assert_eq!(results[PNL], -10_000);
    assert_eq!(results[USABLE], 399_960_000);
}

#[test]
fn standing_and_call_of_kind_2() {
    for (reserve, standing, call) in [
        (50_000_001, 0, 0),
        (50_000_000, 0, 0),
        (49_999_999, 1, 1),
        (1, 1, 49_999_999),
        (0, 1, 50_000_000),
        (-1, 2, 50_000_001),
    ] {
        let book = held_by(money(reserve), CONTRACT, 0, 0);
        let results = results_of(&book, 0, &[[500_000, 0]]);
        assert_eq!(results[RESERVE], reserve);
        assert_eq!((results[STANDING], results[CALL]), (standing, call));
        assert_eq!(results[WITHDRAWABLE], (reserve - 50_000_000).max(0));
    }
}

#[test]
fn standing_and_call_of_a_broker() {
    for (reserve, standing, call) in [
        (200_000_000, 0, 0),
        (199_999_999, 1, 1),
        (0, 1, 200_000_000),
        (-1, 2, 200_000_001),
    ] {
        let book = held_by(account(1, reserve), CONTRACT, 0, 0);
        let results = results_of(&book, 0, &[[500_000, 0]]);
        assert_eq!((results[STANDING], results[CALL]), (standing, call));
    }
}

#[test]
fn margin_is_rounded_up() {
    for (price, margin) in [
        (333_320, 16_666),
        (333_321, 16_667),
        (333_333, 16_667),
        (333_340, 16_667),
        (333_341, 16_668),
    ] {
        let book = held_by(money(1_000_000_000), [price, 1, 500, 0, 0, 0], 1, 0);
        assert_eq!(results_of(&book, 0, &[[price, 0]])[MARGIN], margin);
    }
}

#[test]
fn margin_is_on_the_larger_side() {
    for (long, short, on) in [(7, 5, 7), (5, 7, 7), (7, 7, 7), (8, 7, 8)] {
        let book = held_by(money(1_000_000_000), [10_000, 1, 500, 0, 0, 0], long, short);
        for member in 0..2 {
            let results = results_of(&book, member, &[[10_000, 0]]);
            assert_eq!(results[MARGIN], on * 500);
        }
    }
}

#[test]
fn margin_is_rounded_up_contract_by_contract() {
    let mut book = plain(2, [333_333, 1, 500, 0, 0, 0]);
    book.contracts.push(book.contracts[0]);
    book.positions = vec![RawPosition::default(); 4];
    for contract in 0..2 {
        book.at(0, contract).lots[OPENING_LONG] = 1;
        book.at(1, contract).lots[OPENING_SHORT] = 1;
    }
    let results = results_of(&book, 0, &[[333_333, 0], [333_333, 0]]);
    assert_eq!(results[MARGIN], 33_334);
}

/// The first member's room: withdrawn exactly it is granted, one more not.
fn assert_room(book: &RawBook, room: i64) {
    refused(book, &withdrawal(0, room as u64 + 1), 6);
    let left = granted(book, &withdrawal(0, room as u64), |book| {
        book.accounts[0].accepted += 1;
        book.accounts[0].withdrawals += room;
    });
    refused(&left, &withdrawal(0, 1), 6);
}

#[test]
fn a_quarter_of_usable_is_rounded_up() {
    for (usable, quarter) in [(400, 100), (401, 101), (404, 101), (405, 102)] {
        let mut first = money(50_001_000);
        first.usable = usable;
        let book = held_by(first, CONTRACT, 0, 0);
        assert_room(&book, 1_000 - usable - quarter);
    }
}

#[test]
fn room_where_margin_is_covered_by_money() {
    // Margin less usable is 300, a quarter of usable 101: room is reserve less
    // minimum, since all of the margin's own part stays in.
    let mut first = money(50_001_000);
    first.margin = 701;
    first.usable = 401;
    assert_room(&held_by(first, CONTRACT, 0, 0), 1_000);
}

#[test]
fn room_on_both_sides_of_the_quarter() {
    // At a margin of 502 the money in it is 101, the quarter of 401.
    for (margin, room) in [(501, 999), (502, 1_000), (503, 1_000)] {
        let mut first = money(50_001_000);
        first.margin = margin;
        first.usable = 401;
        assert_room(&held_by(first, CONTRACT, 0, 0), room);
    }
}

#[test]
fn withdrawals_and_deposits_move_the_room_left() {
    let book = held_by(money(60_000_000), CONTRACT, 0, 0);
    let first = granted(&book, &withdrawal(0, 6_000_000), |book| {
        book.accounts[0].accepted = 1;
        book.accounts[0].withdrawals = 6_000_000;
    });
    refused(&first, &withdrawal(0, 6_000_000), 6);
    for (paid, number) in [(1_999_999, 6), (2_000_000, 0)] {
        let paid = granted(&first, &deposit(0, paid), |book| {
            book.accounts[0].accepted = 2;
            book.accounts[0].deposits = paid as i64;
        });
        let mut bytes = paid.bytes();
        let answer = second::post(&mut bytes, &withdrawal(0, 6_000_000));
        assert_eq!(answer, number);
    }
}

#[test]
fn paired_lots_go_from_tonights_price_to_the_delivery_price() {
    for (delivery, buyer) in [(504_000, -20_000), (505_000, 0), (506_000, 20_000)] {
        let mut book = plain(2, [505_000, 10, 500, 0, 7, 0]);
        book.at(0, 0).lots = [2, 0, 0, 0, 0, 0, 2, 0];
        book.at(1, 0).lots = [0, 2, 0, 0, 0, 0, 0, 2];
        for (member, profit) in [(0, buyer), (1, -buyer)] {
            let results = results_of(&book, member, &[[505_000, delivery]]);
            assert_eq!((results[PNL], results[FEE]), (profit, 14));
            assert_eq!(results[MARGIN], 0);
        }
    }
}

#[test]
fn a_close_may_not_leave_fewer_held_than_paired() {
    let mut book = plain(2, CONTRACT);
    book.at(0, 0).lots = [3, 0, 0, 0, 0, 0, 2, 0];
    book.at(1, 0).lots = [0, 3, 0, 0, 0, 0, 0, 2];
    // The seller closes its longs, then the buyer its shorts; the other opens.
    for (members, marks) in [([1, 0], [0, 1]), ([1, 0], [1, 0]), ([1, 0], [1, 1])] {
        refused(&book, &trade(members, marks, 500_000, 2), 4);
        let mut bytes = book.bytes();
        let one = trade(members, marks, 500_000, 1);
        assert_eq!(second::post(&mut bytes, &one), 0);
        assert_eq!(second::check(&bytes), 0);
    }
}

#[test]
fn fees_are_taken_on_both_sides() {
    let mut book = plain(2, [500_000, 10, 500, 300, 100, 0]);
    for member in 0..2 {
        book.accounts[member].accepted = 1;
        // Both sides of each member are paired.
        book.at(member, 0).lots = [5, 5, 0, 0, 0, 0, 2, 3];
        book.at(member, 0).traded = 4;
    }
    book.at(1, 0).lots = [5, 5, 0, 0, 0, 0, 3, 2];
    for member in 0..2 {
        let results = results_of(&book, member, &[[500_000, 500_000]]);
        assert_eq!(results[FEE], 4 * 300 + 5 * 100);
        assert_eq!(results[MARGIN], 3 * 500_000 * 10 / 20);
    }
}

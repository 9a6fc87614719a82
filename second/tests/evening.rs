//! The evening program on inputs that are short, long or otherwise amiss.

mod common;

use common::*;

const REFUSED_10: &str = "settlement refused 10\n";
const REFUSED_8: &str = "settlement refused 8\n";

fn good_record() -> Vec<u8> {
    trade([1, 0], [1, 1], 510_000, 4)
}

fn good_prices() -> Vec<u8> {
    prices(&[[505_000, 0]])
}

fn file(count: u32, records: &[Vec<u8>], prices: &[u8]) -> Vec<u8> {
    day_file(&case_e_book().bytes(), count, records, prices)
}

#[test]
fn nothing_or_less_than_the_front() {
    let whole = case_e_file();
    for length in 0..32 {
        assert_eq!(evening(&whole[..length]), REFUSED_10);
    }
}

#[test]
fn an_input_that_ends_inside_the_book() {
    let whole = case_e_file();
    for length in 32..case_e_book().bytes().len() {
        assert_eq!(evening(&whole[..length]), REFUSED_10);
    }
}

#[test]
fn a_total_outside_its_range_stands_alone() {
    for total in [0u32, 1, 31, 52_001, 52_024, 1 << 31, u32::MAX] {
        let mut input = case_e_file();
        input[4..8].copy_from_slice(&total.to_le_bytes());
        assert_eq!(evening(&input), REFUSED_10);
        input.resize(120_000, 1);
        assert_eq!(evening(&input), REFUSED_10);
    }
}

#[test]
fn totals_at_the_ends_of_the_range_are_read() {
    for total in [32u32, 52_000] {
        let mut input = vec![0; total as usize];
        input[4..8].copy_from_slice(&total.to_le_bytes());
        input.extend(1u32.to_le_bytes());
        input.extend(deposit(0, 1));
        let expected = "refused 0 10\nsettlement refused 10\n";
        assert_eq!(evening(&input), expected);
        // One byte less and the input ends inside the book.
        let short = &input[..total as usize - 1];
        assert_eq!(evening(short), REFUSED_10);
    }
}

#[test]
fn a_missing_or_short_count_is_0() {
    let book = case_e_book().bytes();
    for extra in 0..4 {
        let input = [&book[..], &[1, 0, 0, 0][..extra]].concat();
        assert_eq!(evening(&input), REFUSED_8);
    }
    assert_eq!(evening(&file(0, &[], &[])), REFUSED_8);
}

#[test]
fn no_records_and_the_prices() {
    let sheet = evening(&file(0, &[], &good_prices()));
    assert_eq!(
        sheet,
        "member pnl fee margin usable reserve withdrawable call standing\n\
         0 500000 0 2525000 0 300475000 100475000 0 0\n\
         1 -500000 0 2525000 0 79475000 29475000 0 0\n"
    );
}

#[test]
fn a_short_record_at_the_end_is_refused_1() {
    for length in 1..24 {
        let short = good_record()[..length].to_vec();
        let input = file(1, std::slice::from_ref(&short), &[]);
        assert_eq!(evening(&input), "refused 0 1\nsettlement refused 8\n");
        let input = file(3, &[good_record(), short], &[]);
        assert_eq!(evening(&input), "refused 1 1\nsettlement refused 8\n");
    }
}

#[test]
fn missing_records_print_nothing() {
    for count in [1, 2, 1_000, u32::MAX] {
        assert_eq!(evening(&file(count, &[], &[])), REFUSED_8);
    }
    assert_eq!(evening(&file(2, &[good_record()], &[])), REFUSED_8);
    let bad = deposit(0, 0);
    let input = file(u32::MAX, &[good_record(), bad], &[]);
    assert_eq!(evening(&input), "refused 1 1\nsettlement refused 8\n");
}

#[test]
fn an_overstated_count_takes_the_prices_for_a_record() {
    let input = file(2, &[good_record()], &good_prices());
    assert_eq!(evening(&input), "refused 1 1\nsettlement refused 8\n");
}

#[test]
fn an_understated_count_takes_a_record_for_prices() {
    let input = file(0, &[good_record()], &good_prices());
    assert_eq!(evening(&input), REFUSED_8);
}

#[test]
fn prices_that_are_short_or_followed_by_bytes() {
    let good = good_prices();
    for length in 0..good.len() {
        let input = file(1, &[good_record()], &good[..length]);
        assert_eq!(evening(&input), REFUSED_8);
    }
    for extra in 1..20 {
        let long = [&good[..], &vec![0; extra]].concat();
        assert_eq!(evening(&file(1, &[good_record()], &long)), REFUSED_8);
    }
}

#[test]
fn every_record_is_refused_10_when_the_book_is_not_valid() {
    let mut broken = case_e_book();
    broken.accounts[0].kind = 3;
    let records = [good_record(), deposit(0, 0), deposit(1, 5)[..7].to_vec()];
    let input = day_file(&broken.bytes(), 9, &records, &[]);
    assert_eq!(
        evening(&input),
        "refused 0 10\nrefused 1 10\nrefused 2 10\nsettlement refused 10\n"
    );
    let input = day_file(&broken.bytes(), 0, &[], &good_prices());
    assert_eq!(evening(&input), REFUSED_10);
    assert_eq!(evening(&broken.bytes()), REFUSED_10);
}

#[test]
fn a_book_longer_than_its_shape_is_not_valid() {
    let mut book = case_e_book().bytes();
    book.push(0);
    let total = book.len() as u32;
    book[4..8].copy_from_slice(&total.to_le_bytes());
    let input = day_file(&book, 1, &[good_record()], &good_prices());
    assert_eq!(evening(&input), "refused 0 10\nsettlement refused 10\n");
}

#[test]
fn refused_records_come_before_the_sheet_by_place() {
    let records = [
        deposit(0, 0),
        good_record(),
        withdrawal(1, 40_000_000),
        trade([1, 0], [1, 1], 510_000, 7),
        pairing([0, 1], 7),
    ];
    let text = evening(&file(5, &records, &good_prices()));
    let refusals = "refused 0 1\nrefused 2 6\nrefused 3 4\nrefused 4 7\n";
    assert_eq!(text, format!("{refusals}{CASE_E_SHEET}"));
}

#[test]
fn a_reserve_out_of_range_refuses_the_settlement() {
    let mut book = case_e_book();
    book.accounts[0].reserve = 1_000_000_000_000_000;
    let input = day_file(&book.bytes(), 0, &[], &good_prices());
    assert_eq!(evening(&input), "settlement refused 9\n");
    book.accounts[0].reserve -= 475_000;
    let input = day_file(&book.bytes(), 0, &[], &good_prices());
    assert!(evening(&input).contains(" 1000000000000000 "));
}

#[test]
fn a_member_posts_no_more_than_20_000_records() {
    let records = vec![deposit(1, 1); 20_002];
    let text = evening(&file(20_002, &records, &good_prices()));
    let mut lines = text.lines();
    assert_eq!(lines.next(), Some("refused 20000 2"));
    assert_eq!(lines.next(), Some("refused 20001 2"));
    assert_eq!(lines.count(), 3);
}

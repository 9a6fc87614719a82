//! Case E, whole.

mod common;

use std::path::Path;

use common::*;

#[test]
fn the_sheet_through_the_library() {
    assert_eq!(evening(&case_e_file()), CASE_E_SHEET);
}

#[test]
fn the_sheet_through_the_program() {
    let program = Path::new(env!("CARGO_BIN_EXE_second"));
    let output = second::comparison::run(program, &case_e_file()).unwrap();
    assert!(output.status.success());
    assert_eq!(output.stdout, CASE_E_SHEET.as_bytes());
}

#[test]
fn the_generated_day_file_is_the_one_written_out_here() {
    assert!(second::generate::case_e::file() == case_e_file());
}

#[test]
fn the_book_has_the_length_of_its_formula() {
    assert_eq!(case_e_book().bytes().len(), 32 + 24 + 2 * 64 + 2 * 48);
}

#[test]
fn the_record_changes_exactly_its_fields() {
    granted(&case_e_book(), &trade([1, 0], [1, 1], 510_000, 4), |book| {
        for member in 0..2 {
            book.accounts[member].accepted = 1;
            book.at(member, 0).traded = 4;
        }
        book.at(0, 0).lots[CLOSED_LONG] = 4;
        book.at(0, 0).cash = 2_040_000;
        book.at(1, 0).lots[CLOSED_SHORT] = 4;
        book.at(1, 0).cash = -2_040_000;
    });
}

#[test]
fn the_next_book_and_the_results_byte_for_byte() {
    let mut book = case_e_book().bytes();
    assert_eq!(
        second::post(&mut book, &trade([1, 0], [1, 1], 510_000, 4)),
        0
    );
    let mut next = vec![0x55; book.len() + 3];
    let mut results = vec![0x55; 144 + 5];
    let prices = prices(&[[505_000, 0]]);
    assert_eq!(second::settle(&book, &prices, &mut next, &mut results), 0);

    let mut expected = case_e_book();
    expected.contracts[0][0] = 505_000;
    for (member, reserve) in [(0, 301_683_800), (1, 80_283_800)] {
        expected.accounts[member].reserve = reserve;
        expected.accounts[member].margin = 1_515_000;
    }
    expected.at(0, 0).lots[OPENING_LONG] = 6;
    expected.at(1, 0).lots[OPENING_SHORT] = 6;
    assert!(next == [&expected.bytes()[..], &[0x55; 3]].concat());

    let fields: [i64; 18] = [
        0,
        700_000,
        1_200,
        1_515_000,
        0,
        301_683_800,
        101_683_800,
        0,
        0, //
        1,
        -700_000,
        1_200,
        1_515_000,
        0,
        80_283_800,
        30_283_800,
        0,
        0,
    ];
    assert!(results == [&fields.map(i64::to_le_bytes).concat()[..], &[0x55; 5]].concat());
}

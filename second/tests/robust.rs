//! No input makes the library or the program break down.

mod common;

use std::path::Path;

use common::*;
use second::generate::damage::noise;
use second::generate::day;
use second::generate::random::Random;

/// What every output must look like, whatever the input.
fn well_formed(output: &[u8]) -> bool {
    let text = String::from_utf8(output.to_vec()).unwrap();
    let last_is_refusal = text
        .lines()
        .last()
        .is_some_and(|line| line.starts_with("settlement refused "));
    let has_sheet = text.contains("member pnl fee ");
    text.ends_with('\n') && (last_is_refusal != has_sheet)
}

#[test]
fn random_bytes_through_the_library() {
    let mut random = Random::new(1);
    for _ in 0..20_000 {
        assert!(well_formed(&second::evening(&noise(&mut random))));
    }
}

#[test]
fn flipped_bits_and_cuts_through_the_library() {
    let mut random = Random::new(2);
    for seed in 0..3_000 {
        let mut file = day(seed).file;
        for _ in 0..random.below(6) {
            if file.is_empty() {
                break;
            }
            let at = random.below(file.len());
            file[at] ^= 1 << random.below(8);
        }
        file.truncate(random.below(file.len() + 1));
        assert!(well_formed(&second::evening(&file)));
    }
}

#[test]
fn every_prefix_of_a_day_through_the_library() {
    let whole = case_e_file();
    for length in 0..whole.len() {
        let output = second::evening(&whole[..length]);
        assert!(well_formed(&output));
        assert!(output.ends_with(b"settlement refused 10\n") || output.ends_with(b" 8\n"));
    }
}

#[test]
fn records_and_books_of_any_bytes_through_single_calls() {
    let mut random = Random::new(3);
    for seed in 0..1_000 {
        let day = day(seed);
        let mut book = day.file.clone();
        book.truncate(random.below(book.len() + 1));
        for length in [0, 1, 23, 24, 25, 48] {
            let record: Vec<u8> = (0..length).map(|_| random.bits() as u8).collect();
            let before = book.clone();
            assert!(second::post(&mut book, &record) <= 10);
            assert!(book == before || second::check(&book) == 0);
        }
        let mut next = vec![0; random.below(3_000)];
        let mut results = vec![0; random.below(300)];
        assert!(second::settle(&book, &day.prices, &mut next, &mut results) <= 11);
    }
}

fn program_agrees(input: &[u8]) {
    let program = Path::new(env!("CARGO_BIN_EXE_second"));
    let output = second::comparison::run(program, input).unwrap();
    assert_eq!(output.status.code(), Some(0));
    assert!(output.stdout == second::evening(input));
}

#[test]
fn empty_input_random_bytes_and_prefixes_through_the_program() {
    program_agrees(&[]);
    let whole = case_e_file();
    for length in 0..=whole.len() {
        program_agrees(&whole[..length]);
    }
    let mut random = Random::new(4);
    for _ in 0..200 {
        program_agrees(&noise(&mut random));
    }
    let far_too_long = vec![0xff; 3_000_000];
    program_agrees(&far_too_long);
}

//! Records of different members may come in any order: as long as each member
//! sees its own records in the same order, answers, book and results are equal.

mod common;

use common::*;
use second::generate::day;
use second::generate::random::Random;
use second::record::Record;
use second::Book;

/// The members a record names; nobody if it would be refused 1.
fn named(book: &Book, record: &[u8]) -> Vec<usize> {
    match Record::decode(record, book.shape()) {
        Some(record) => record.named().into_iter().flatten().collect(),
        None => Vec::new(),
    }
}

/// Swaps neighbours that name no member in common, many times over.
fn interleave(random: &mut Random, names: &[Vec<usize>]) -> Vec<usize> {
    let mut order: Vec<usize> = (0..names.len()).collect();
    for _ in 0..names.len() * 20 {
        let at = random.below(names.len() - 1);
        let (one, other) = (&names[order[at]], &names[order[at + 1]]);
        if !one.iter().any(|member| other.contains(member)) {
            order.swap(at, at + 1);
        }
    }
    order
}

/// The answers by place in the first order, and the book after all.
fn post_in_order(book: &[u8], records: &[Vec<u8>], order: &[usize]) -> (Vec<u8>, Vec<u8>) {
    let mut book = book.to_vec();
    let mut answers = vec![0; records.len()];
    for &place in order {
        answers[place] = second::post(&mut book, &records[place]);
    }
    (answers, book)
}

#[test]
fn two_interleavings_give_equal_answers_books_and_results() {
    let mut random = Random::new(9);
    let (mut moved, mut accepted, mut refused) = (0, 0, 0);
    for seed in 0..400 {
        let day = day(seed);
        if day.records.len() < 2 || day.book.len() > 10_000 {
            continue;
        }
        let decoded = Book::decode(&day.book).unwrap();
        let names: Vec<_> = day.records.iter().map(|one| named(&decoded, one)).collect();
        let straight: Vec<usize> = (0..names.len()).collect();
        let order = interleave(&mut random, &names);
        let first = post_in_order(&day.book, &day.records, &straight);
        let second = post_in_order(&day.book, &day.records, &order);
        assert!(first == second, "seed {seed}");
        assert!(settled(&first.1, &day.prices) == settled(&second.1, &day.prices));
        moved += straight.iter().zip(&order).filter(|(a, b)| a != b).count();
        accepted += first.0.iter().filter(|&&answer| answer == 0).count();
        refused += first.0.iter().filter(|&&answer| answer > 1).count();
    }
    assert!(moved > 1_000 && accepted > 1_000 && refused > 500);
}

#[test]
fn a_posting_reaches_no_account_that_its_record_does_not_name() {
    for seed in 0..200 {
        let day = day(seed);
        let shape = Book::decode(&day.book).unwrap().shape();
        let mut bytes = day.book.clone();
        for record in day.records.iter().take(30) {
            let before = Book::decode(&bytes).unwrap();
            let names = named(&before, record);
            second::post(&mut bytes, record);
            let after = Book::decode(&bytes).unwrap();
            assert!(after.contracts == before.contracts);
            for member in (0..shape.members).filter(|member| !names.contains(member)) {
                assert!(after.accounts[member] == before.accounts[member]);
                assert!(after.positions_of(member) == before.positions_of(member));
            }
        }
    }
}

#[test]
fn single_calls_and_the_evening_program_agree() {
    for seed in 0..300 {
        let day = day(seed);
        if day.damage.is_some() || day.book.len() > 10_000 {
            continue;
        }
        let order: Vec<usize> = (0..day.records.len()).collect();
        let (answers, book) = post_in_order(&day.book, &day.records, &order);
        let mut text = String::new();
        for (place, answer) in answers.iter().enumerate().filter(|(_, &one)| one > 0) {
            text += &format!("refused {place} {answer}\n");
        }
        let (answer, next, fields) = settled(&book, &day.prices);
        if answer == 0 {
            text += "member pnl fee margin usable reserve withdrawable call standing\n";
            for row in fields.chunks(9) {
                let words: Vec<String> = row.iter().map(i64::to_string).collect();
                text += &(words.join(" ") + "\n");
            }
            assert_eq!(second::check(&next), 0);
        } else {
            text += &format!("settlement refused {answer}\n");
        }
        assert_eq!(evening(&day.file), text, "seed {seed}");
    }
}

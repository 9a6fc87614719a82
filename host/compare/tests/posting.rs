//! The posting of records, compared with the second program's.

use comparison::{all_same, posting};

const EVERY: [u8; 9] = [0, 1, 2, 3, 4, 5, 6, 7, 10];

#[test]
fn generated_records_in_sequence_and_alone() {
    for (of, tally) in all_same(|library| posting::seeds(library, 0..=1_499)) {
        tally.assert_answers(of, &EVERY);
    }
}

#[test]
fn records_to_books_at_and_beside_every_bound() {
    all_same(posting::edges);
}

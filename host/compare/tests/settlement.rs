//! The evening settlement, compared with the second program's.

use comparison::{all_same, settling};

const EVERY: [u8; 5] = [0, 8, 9, 10, 11];

#[test]
fn generated_calls() {
    for (of, tally) in all_same(|library| settling::seeds(library, 0..=3_999)) {
        tally.assert_answers(of, &EVERY);
    }
}

#[test]
fn books_at_and_beside_every_bound() {
    all_same(settling::edges);
}

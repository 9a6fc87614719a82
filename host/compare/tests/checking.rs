//! The check of books, compared with the second program's.

use comparison::{all_same, checking};
use second::layout::Shape;

const BOTH: [u8; 2] = [0, 10];

#[test]
fn generated_books_and_damaged_ones() {
    for (of, tally) in all_same(|library| checking::seeds(library, 0..=8_399)) {
        tally.assert_answers(of, &BOTH);
        assert!(tally.count >= 100_000, "{of}:\n{tally}");
        let fewest = tally.other.values().min();
        assert!(fewest >= Some(&20_000), "{of}:\n{tally}");
    }
}

#[test]
fn books_at_and_beside_every_bound() {
    for (of, tally) in all_same(checking::edges) {
        tally.assert_answers(of, &BOTH);
    }
}

#[test]
fn every_field_of_whole_books_at_and_beside_its_bounds() {
    let sizes = [(1, 1), (2, 1), (2, 3), (5, 4)];
    let sizes = sizes.map(|(members, contracts)| Shape { members, contracts });
    for (of, tally) in all_same(|library| checking::fields(library, &sizes)) {
        tally.assert_answers(of, &BOTH);
    }
}

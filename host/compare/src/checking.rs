//! The check of books, compared.

use std::ops::RangeInclusive;

use second::generate::books::{book, Hour, Temper};
use second::generate::edges::edge_books;
use second::generate::random::Random;
use second::layout::Shape;

use crate::books::{cases, every_field};
use crate::{Compared, Lent, Library, Tally};

/// The books of all seeds from the first to the last.
pub fn seeds(library: &mut dyn Library, seeds: RangeInclusive<u64>) -> Tally {
    let mut tally = Tally::of(Compared::Calls);
    for seed in seeds {
        for case in cases(seed) {
            let name = || format!("check, seed {seed}, {}", case.name);
            check(library, &mut tally, name, &case.bytes);
        }
    }
    tally
}

/// Every book that has one field at, one below or one above a bound, or one
/// balance broken; also the verdicts are those that the cases are written with.
pub fn edges(library: &mut dyn Library) -> Tally {
    let mut tally = Tally::of(Compared::Calls);
    for case in edge_books() {
        let name = || format!("check, {}", case.name);
        check(library, &mut tally, name, &case.bytes);
        let written = if case.valid { 0 } else { 10 };
        let lent = Lent::new(&case.bytes, tally.count);
        let answer = library.check(lent.bytes());
        let same = lent.is(&case.bytes);
        let name = || format!("check, {}, as written", case.name);
        tally.call(name, answer, written, same, case.bytes.len());
    }
    tally
}

/// Every field of books of some sizes at and beside each of its bounds.
pub fn fields(library: &mut dyn Library, sizes: &[Shape]) -> Tally {
    let mut tally = Tally::of(Compared::Calls);
    for &shape in sizes {
        let (members, contracts) = (shape.members, shape.contracts);
        for temper in [Temper::Calm, Temper::Tight, Temper::Extreme] {
            let mut random = Random::new(7);
            let book = book(&mut random, shape, temper, Hour::MidDay);
            every_field(&book, |case| {
                let name = || format!("check, {temper:?} {members} by {contracts}, {}", case.name);
                check(library, &mut tally, name, &case.bytes);
            });
        }
    }
    tally
}

fn check(library: &mut dyn Library, tally: &mut Tally, name: impl FnOnce() -> String, book: &[u8]) {
    let expected = second::check(book);
    let lent = Lent::new(book, tally.count);
    let answer = library.check(lent.bytes());
    let same = lent.is(book);
    tally.call(name, answer, expected, same, book.len());
}

//! Calls of the settlement with room lent that is short, exact or long.

use super::random::Random;
use super::{day, Day};
use crate::book::Book;
use crate::layout::Shape;
use crate::posting::post_to;

/// One call: a book as the day left it, prices, and the lengths of the room.
#[derive(Clone, Debug)]
pub struct Call {
    pub book: Vec<u8>,
    pub prices: Vec<u8>,
    pub next: usize,
    pub results: usize,
}

/// The call of a seed.
pub fn call(seed: u64) -> Call {
    let Day {
        book,
        records,
        mut prices,
        ..
    } = day(seed);
    let mut random = Random::new(seed ^ 0x63_61_6c_6c);
    let mut decoded = Book::decode(&book).expect("a generated book is valid");
    for record in &records {
        let _ = post_to(&mut decoded, record);
    }
    let shape = decoded.shape();
    let mut book = decoded.encode();
    if random.chance(10) {
        let at = random.below(book.len());
        book[at] ^= 1 << random.below(8);
    }
    if random.chance(10) {
        let at = random.below(prices.len() + 1);
        prices.truncate(at);
    }
    let (next, results) = lengths(&mut random, shape);
    Call {
        book,
        prices,
        next,
        results,
    }
}

fn lengths(random: &mut Random, shape: Shape) -> (usize, usize) {
    let mut length = |needed: usize| match random.below(8) {
        0 => needed - 1,
        1 => random.below(needed),
        2 => needed + 1,
        3 => needed + random.below(100),
        _ => needed,
    };
    (length(shape.total()), length(shape.results()))
}

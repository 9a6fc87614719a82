//! The library compared with the second program, call by call.
//!
//! The loops take any [`Library`], so that they can themselves be tried: with
//! the second program in the library's place they find no difference, and with
//! a wrong one they do.

pub mod books;
pub mod checking;
pub mod posting;
pub mod settling;
pub mod worker;

mod lent;

pub use lent::Lent;
pub use second::comparison::{Answer, Compared, Tally, DESCRIBED};

use crate::worker::Worker;

/// The three functions, wherever they are.
pub trait Library {
    fn check(&mut self, book: &[u8]) -> Answer;

    fn post(&mut self, book: &mut [u8], record: &[u8]) -> Answer;

    fn settle(&mut self, lent: Evening) -> Answer;
}

/// What is lent to a settlement.
pub struct Evening<'a> {
    pub book: &'a [u8],
    pub prices: &'a [u8],
    pub next: &'a mut [u8],
    pub results: &'a mut [u8],
}

impl Evening<'_> {
    /// Has it settled by a function of the four buffers.
    fn by<A>(self, settle: impl FnOnce(&[u8], &[u8], &mut [u8], &mut [u8]) -> A) -> A {
        settle(self.book, self.prices, self.next, self.results)
    }
}

/// The number of an outcome: 0, or the refusal's.
pub fn answer(outcome: Result<(), clearing::Refusal>) -> u8 {
    outcome.map_or_else(clearing::Refusal::number, |()| 0)
}

/// The library that this package links.
pub struct Linked;

impl Library for Linked {
    fn check(&mut self, book: &[u8]) -> Answer {
        Ok(answer(clearing::check(book)))
    }

    fn post(&mut self, book: &mut [u8], record: &[u8]) -> Answer {
        Ok(answer(clearing::post(book, record)))
    }

    fn settle(&mut self, lent: Evening) -> Answer {
        Ok(answer(lent.by(clearing::settle)))
    }
}

/// The second program in the library's place.
pub struct Second;

impl Library for Second {
    fn check(&mut self, book: &[u8]) -> Answer {
        Ok(second::check(book))
    }

    fn post(&mut self, book: &mut [u8], record: &[u8]) -> Answer {
        Ok(second::post(book, record))
    }

    fn settle(&mut self, lent: Evening) -> Answer {
        Ok(lent.by(second::settle))
    }
}

/// The archive itself, which this package links.
pub fn archive() -> Box<dyn Library> {
    Box::new(Linked)
}

/// Makes a comparison of each of the libraries, and panics at a difference.
pub fn all_same(compare: impl Fn(&mut dyn Library) -> Tally) -> Vec<(&'static str, Tally)> {
    let compared = |(of, mut library): (&'static str, Box<dyn Library>)| {
        let tally = compare(&mut *library);
        tally.assert_same(of);
        (of, tally)
    };
    libraries().into_iter().map(compared).collect()
}

/// All there is to compare, by name: the archive as this package links it, and
/// in a process of its own.
pub fn libraries() -> Vec<(&'static str, Box<dyn Library>)> {
    vec![
        ("the archive", archive()),
        ("the archive, in the worker", Box::new(Worker::start())),
    ]
}

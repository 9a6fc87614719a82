//! The evening settlement, compared.

use std::cmp::Ordering;
use std::ops::RangeInclusive;

use second::generate::calls::{call, Call};
use second::generate::edges::edge_books;
use second::generate::random::Random;
use second::layout::{head, pair, results, Shape};

use crate::{Compared, Evening, Lent, Library, Tally};

/// The calls of all seeds from the first to the last: each as it is made, then
/// with other lengths of the lent room and with other prices.
pub fn seeds(library: &mut dyn Library, seeds: RangeInclusive<u64>) -> Tally {
    let mut tally = Tally::of(Compared::Calls);
    for seed in seeds {
        let mut random = Random::new(seed ^ 0x73_65_74_74);
        let whole = call(seed);
        let name = || format!("settle, seed {seed}");
        settle(library, &mut tally, &mut random, name, &whole);
        let shape = shape_of(&whole.book);
        for variant in 0..3 {
            let other = other_room(&mut random, &whole, shape);
            let name = || format!("settle, seed {seed}, other room {variant}");
            settle(library, &mut tally, &mut random, name, &other);
        }
        for variant in 0..2 {
            let mut other = other_prices(&mut random, &whole);
            if random.chance(80) {
                other.next = shape.total();
                other.results = shape.results();
            }
            let name = || format!("settle, seed {seed}, other prices {variant}");
            settle(library, &mut tally, &mut random, name, &other);
        }
    }
    tally
}

/// Every book at or beside a bound, in the room it needs.
pub fn edges(library: &mut dyn Library) -> Tally {
    let mut tally = Tally::of(Compared::Calls);
    let mut random = Random::new(3);
    for case in edge_books() {
        let shape = shape_of(&case.bytes);
        let prices = [5_100u32, 5_050].map(u32::to_le_bytes).concat();
        let call = Call {
            prices: prices.repeat(shape.contracts),
            next: shape.total(),
            results: shape.results(),
            book: case.bytes,
        };
        let name = || format!("settle, the book: {}", case.name);
        settle(library, &mut tally, &mut random, name, &call);
    }
    tally
}

/// The size that a book's head speaks of, and no more than a book can have; of
/// bytes without a head the least.
fn shape_of(book: &[u8]) -> Shape {
    let number = |at: usize| match book.get(at..at + 2) {
        Some(field) => usize::from(u16::from_le_bytes([field[0], field[1]])).clamp(1, 32),
        None => 1,
    };
    Shape {
        members: number(head::MEMBERS),
        contracts: number(head::CONTRACTS),
    }
}

fn other_room(random: &mut Random, call: &Call, shape: Shape) -> Call {
    let mut length = |needed: usize, row: usize| match random.below(10) {
        0 => 0,
        1 => needed - row,
        2 => needed - 1,
        3 => needed + 1,
        4 => needed + row,
        5 => random.below(needed + 200),
        _ => needed,
    };
    Call {
        next: length(shape.total(), 1),
        results: length(shape.results(), results::SIZE),
        ..call.clone()
    }
}

/// One price at or beside a bound, or prices of another length.
fn other_prices(random: &mut Random, call: &Call) -> Call {
    let mut other = call.clone();
    let prices = &mut other.prices;
    let numbers = prices.len() / 4;
    match random.below(8) {
        0 => prices.truncate(random.below(prices.len() + 1)),
        1 => prices.extend(vec![1; random.below(2 * pair::SIZE) + 1]),
        2 => prices.truncate(prices.len().saturating_sub(pair::SIZE)),
        _ if numbers == 0 => prices.clear(),
        _ => {
            let at = random.below(numbers) * 4;
            let bounds = [
                0,
                1,
                2,
                9_999_999,
                10_000_000,
                10_000_001,
                1 << 31,
                u32::MAX,
            ];
            prices[at..at + 4].copy_from_slice(&random.pick(&bounds).to_le_bytes());
        }
    }
    other
}

fn settle(
    library: &mut dyn Library,
    tally: &mut Tally,
    random: &mut Random,
    name: impl FnOnce() -> String,
    call: &Call,
) {
    let mut next = any_room(random, call.next);
    let mut results = any_room(random, call.results);
    let book = Lent::new(&call.book, tally.count);
    let prices = Lent::new(&call.prices, tally.count / 16);
    let mut lent_next = Lent::new(&next, tally.count / 3);
    let mut lent_results = Lent::new(&results, tally.count / 5);
    let expected = second::settle(&call.book, &call.prices, &mut next, &mut results);
    let answer = library.settle(Evening {
        book: book.bytes(),
        prices: prices.bytes(),
        next: lent_next.bytes_mut(),
        results: lent_results.bytes_mut(),
    });
    let same = book.is(&call.book)
        && prices.is(&call.prices)
        && lent_next.is(&next)
        && lent_results.is(&results);
    let bytes = call.book.len() + call.prices.len() + next.len() + results.len();
    tally.call(name, answer, expected, same, bytes);
    tally.sort(room(call), 1);
}

/// How the lent room compares with what a book of this head needs.
fn room(call: &Call) -> &'static str {
    let shape = shape_of(&call.book);
    let lent = [
        call.next.cmp(&shape.total()),
        call.results.cmp(&shape.results()),
    ];
    if lent.contains(&Ordering::Less) {
        "settlements in short room"
    } else if lent.contains(&Ordering::Greater) {
        "settlements in long room"
    } else {
        "settlements in exact room"
    }
}

/// Room that has something in it, so that it shows where nothing was written.
fn any_room(random: &mut Random, length: usize) -> Vec<u8> {
    let fill = random.bits();
    (0..length)
        .map(|at| (fill >> (at % 57)) as u8 ^ at as u8)
        .collect()
}

//! Days made from a seed: the same seed gives the same day on every machine.

pub mod books;
pub mod calls;
pub mod case_e;
pub mod damage;
pub mod edges;
pub mod fields;
pub mod full_day;
mod misstate;
pub mod pieces;
pub mod random;
pub mod records;

use self::books::{Hour, Temper};
use self::damage::Damage;
use self::random::Random;
use crate::account::Account;
use crate::book::Book;
use crate::bounds;
use crate::posting::post_to;
use crate::rules::PricePair;
use crate::settlement::{any_paired, tonight};
use crate::units::{Fen, Price};

/// One day: a book, its records and its evening prices, all before damage,
/// and the day file's bytes, after it.
#[derive(Clone, Debug)]
pub struct Day {
    pub seed: u64,
    /// A valid book.
    pub book: Vec<u8>,
    pub records: Vec<Vec<u8>>,
    pub prices: Vec<u8>,
    pub damage: Option<Damage>,
    /// What the evening program is given.
    pub file: Vec<u8>,
}

/// The day of a seed.
pub fn day(seed: u64) -> Day {
    let mut random = Random::new(seed);
    let shape = books::shape(&mut random);
    let temper = match random.below(10) {
        0..=3 => Temper::Calm,
        4..=7 => Temper::Tight,
        _ => Temper::Extreme,
    };
    let hour = *random.pick(&[Hour::Opening, Hour::MidDay]);
    let mut book = books::book(&mut random, shape, temper, hour);
    let (records, closing) = records_for(&mut random, &book);
    let prices = prices(&mut random, &closing, temper);
    if random.chance(25) {
        let aimed = aim_reserve(&mut random, &book, &closing, &prices, &records);
        book = aimed.unwrap_or(book);
    }
    let prices = write_prices(&mut random, &prices);
    let mut day = Day {
        seed,
        file: day_file(&book.encode(), &records, &prices),
        book: book.encode(),
        records,
        prices,
        damage: None,
    };
    if random.chance(15) {
        let damage = *random.pick(&Damage::ALL);
        damage.apply(&mut random, &mut day.file, shape);
        day.damage = Some(damage);
    }
    day
}

/// A day file: the book, the record count, the records, the prices.
pub fn day_file(book: &[u8], records: &[Vec<u8>], prices: &[u8]) -> Vec<u8> {
    let mut file = book.to_vec();
    let count = u32::try_from(records.len()).expect("a count that fits four bytes");
    file.extend(count.to_le_bytes());
    file.extend(records.iter().flatten());
    file.extend(prices);
    file
}

/// A few records mostly, none or many at times.
fn records_for(random: &mut Random, book: &Book) -> (Vec<Vec<u8>>, Book) {
    let about = match random.below(20) {
        0 => 0,
        1 => random.below(400),
        2..=5 => random.below(100),
        _ => random.below(24),
    };
    records::records(random, book, about)
}

/// Evening prices that can mostly stand.
fn prices(random: &mut Random, closing: &Book, temper: Temper) -> Vec<PricePair> {
    let mut pairs = Vec::new();
    for (contract, row) in closing.contracts.iter().enumerate() {
        let near = books::near_last(row);
        let mut price = || {
            if temper == Temper::Extreme {
                random.edge_count(bounds::PRICE)
            } else {
                random.count(near.clone())
            }
        };
        let settlement = Price(price());
        let delivery = Price(price());
        let named = any_paired(closing, contract) || random.chance(30);
        let delivery = if named { delivery } else { Price(0) };
        pairs.push(PricePair {
            settlement,
            delivery,
        });
    }
    pairs
}

/// The bytes of the prices; a few cannot stand.
fn write_prices(random: &mut Random, pairs: &[PricePair]) -> Vec<u8> {
    let mut bytes = price_bytes(pairs);
    if random.chance(10) {
        let at = random.below(bytes.len() / 4) * 4;
        let beyond = [0, 1, 10_000_000, 10_000_001, u32::MAX];
        bytes[at..at + 4].copy_from_slice(&random.pick(&beyond).to_le_bytes());
    }
    bytes
}

/// The bytes of evening prices that fit their fields.
fn price_bytes(pairs: &[PricePair]) -> Vec<u8> {
    let numbers = pairs
        .iter()
        .flat_map(|pair| [pair.settlement.0, pair.delivery.0]);
    numbers
        .flat_map(|number| (number as u32).to_le_bytes())
        .collect()
}

/// Moves one member's reserve so that tonight's stands at an end of its range,
/// at a step of the standing, or one beyond. None where that would change
/// which records are accepted or would pass the book's own bounds.
fn aim_reserve(
    random: &mut Random,
    book: &Book,
    closing: &Book,
    prices: &[PricePair],
    records: &[Vec<u8>],
) -> Option<Book> {
    let member = random.below(book.accounts.len());
    let minimum = book.accounts[member].kind.minimum().0;
    let (low, high) = (*bounds::RESERVE.start(), *bounds::RESERVE.end());
    let ends = [low - 1, low, high, high + 1];
    let steps = [-1, 0, minimum - 1, minimum];
    let target = *random.pick(&[ends, steps].concat());
    let mut moved = book.clone();
    let mut closed = closing.clone();
    for book in [&mut moved, &mut closed] {
        book.accounts[member].market_value = Fen::ZERO;
        book.accounts[member].usable = Fen::ZERO;
    }
    let step = Fen(target) - tonight(&closed, prices, member).reserve;
    for book in [&mut moved, &mut closed] {
        move_money(&mut book.accounts[member], step);
    }
    let stands = Book::decode(&moved.encode()).is_ok() && post_all(&moved, records) == closed;
    stands.then_some(moved)
}

/// Moves a member's money: its reserve as far as that goes, then its margin.
fn move_money(account: &mut Account, step: Fen) {
    let (low, high) = (*bounds::RESERVE.start(), *bounds::RESERVE.end());
    let reserve = account.reserve.0 + step.0;
    account.reserve = Fen(reserve.clamp(low, high));
    account.margin += Fen(reserve) - account.reserve;
}

fn post_all(book: &Book, records: &[Vec<u8>]) -> Book {
    let mut book = book.clone();
    for record in records {
        let _ = post_to(&mut book, record);
    }
    book
}

//! The posting of records, compared.

use std::ops::RangeInclusive;

use second::generate::edges::edge_books;
use second::generate::random::Random;
use second::generate::{day, full_day, Day};
use second::layout::record;
use second::position::Mark;
use second::record::{Pairing, Record, Trade};
use second::units::{Fen, Lots, Price, Rate};

use crate::books::cases;
use crate::{Compared, Lent, Library, Tally};

/// The sorts of postings that are told apart.
pub const IN_SEQUENCE: &str = "records posted in sequence";
pub const ALONE: &str = "records posted to a book of their own";

/// The days of all seeds from the first to the last. A day's records are posted
/// one after the other to the same book; some of them also cut or lengthened.
/// Then single records are posted to books that mostly are not valid.
pub fn seeds(library: &mut dyn Library, seeds: RangeInclusive<u64>) -> Tally {
    let mut tally = Tally::of(Compared::Calls);
    for seed in seeds {
        let day = day(seed);
        let mut random = Random::new(seed ^ 0x70_6f_73_74);
        in_sequence(library, &mut tally, &mut random, &day);
        single(library, &mut tally, &mut random, &day);
    }
    tally
}

/// The fullest day with so many records of each member, posted in the same way.
pub fn full_day(library: &mut dyn Library, records: usize) -> Tally {
    let mut tally = Tally::of(Compared::Calls);
    let day = full_day::day(records);
    let mut random = Random::new(day.seed);
    in_sequence(library, &mut tally, &mut random, &day);
    tally
}

fn in_sequence(library: &mut dyn Library, tally: &mut Tally, random: &mut Random, day: &Day) {
    let seed = day.seed;
    let mut books = Books::new(&day.book, seed, IN_SEQUENCE);
    for (place, record) in day.records.iter().enumerate() {
        if random.chance(8) {
            let other = of_other_length(random, record);
            let length = other.len();
            let name = || format!("post, seed {seed}, record {place} at {length} bytes");
            books.post(library, tally, name, &other);
        }
        let name = || format!("post, seed {seed}, record {place}");
        books.post(library, tally, name, record);
    }
}

/// Any length but the right one, and mostly the record's own bytes.
fn of_other_length(random: &mut Random, whole: &[u8]) -> Vec<u8> {
    let lengths = [0, 1, 8, 16, 22, 23, 25, 26, 32, 47, 48, 49, 72];
    let length = match random.below(3) {
        0 => random.below(record::SIZE),
        _ => *random.pick(&lengths),
    };
    let mut bytes = whole.to_vec();
    let fill = *random.pick(&[0, 0, 1, 255]);
    bytes.resize(length, fill);
    bytes
}

/// One record at a time, each to a book of its own.
fn single(library: &mut dyn Library, tally: &mut Tally, random: &mut Random, day: &Day) {
    let seed = day.seed;
    for case in cases(seed) {
        let record = if day.records.is_empty() || random.chance(30) {
            random.pick(&plain_records()).clone()
        } else {
            random.pick(&day.records).clone()
        };
        let record = if random.chance(15) {
            of_other_length(random, &record)
        } else {
            record
        };
        let mut books = Books::new(&case.bytes, tally.count, ALONE);
        let name = || format!("post, seed {seed}, a record to the book: {}", case.name);
        books.post(library, tally, name, &record);
    }
}

/// Every book at or beside a bound, with each of a few records.
pub fn edges(library: &mut dyn Library) -> Tally {
    let mut tally = Tally::of(Compared::Calls);
    for case in edge_books() {
        for (index, record) in plain_records().iter().enumerate() {
            let mut books = Books::new(&case.bytes, tally.count, ALONE);
            let name = || format!("post, plain record {index} to the book: {}", case.name);
            books.post(library, &mut tally, name, record);
        }
    }
    tally
}

/// One record or more of each kind, members 0 and 1, contract 0; and one of no
/// kind.
fn plain_records() -> Vec<Vec<u8>> {
    let trade = |buyer_mark, seller_mark| {
        Record::Trade(Trade {
            contract: 0,
            buyer: 0,
            seller: 1,
            buyer_mark,
            seller_mark,
            price: Price(5_010),
            lots: Lots(1),
        })
    };
    let (member, amount) = (0, Fen(1_000));
    let records = [
        trade(Mark::Opens, Mark::Opens),
        trade(Mark::ClosesOld, Mark::ClosesOld),
        trade(Mark::ClosesNew, Mark::Opens),
        Record::Pairing(Pairing {
            contract: 0,
            buyer: 0,
            seller: 1,
            lots: Lots(1),
        }),
        Record::Deposit { member, amount },
        Record::Withdrawal { member, amount },
        Record::Securities {
            member,
            market_value: Fen(1_000_000_000_000_000),
            discount: Rate(8_000),
        },
    ];
    let mut records: Vec<Vec<u8>> = records.iter().map(|row| row.encode().to_vec()).collect();
    records.push(vec![0; record::SIZE]);
    records
}

/// The same book on both sides, and what sort of posting it is for.
struct Books {
    sort: &'static str,
    library: Lent,
    second: Vec<u8>,
}

impl Books {
    fn new(book: &[u8], place: u64, sort: &'static str) -> Books {
        Books {
            sort,
            library: Lent::new(book, place),
            second: book.to_vec(),
        }
    }

    /// Posts a record on both sides. After a difference the library's book is
    /// set to the other, so that later ones are differences of their own.
    fn post(
        &mut self,
        library: &mut dyn Library,
        tally: &mut Tally,
        name: impl FnOnce() -> String,
        record: &[u8],
    ) {
        let lent = Lent::new(record, tally.count);
        let expected = second::post(&mut self.second, record);
        let answer = library.post(self.library.bytes_mut(), lent.bytes());
        let same = self.library.is(&self.second) && lent.is(record);
        if !same {
            self.library = Lent::new(&self.second, tally.count);
        }
        let bytes = self.second.len() + record.len();
        tally.call(name, answer, expected, same, bytes);
        tally.sort(self.sort, 1);
    }
}

//! Days at and beside the length of a piece, for programs that read a day's
//! records piece by piece. A record's place is counted through all of them.

use super::books::{book, Hour, Temper};
use super::random::Random;
use super::records::records;
use super::{day_file, post_all, price_bytes, prices};
use crate::book::Book;
use crate::bounds;
use crate::layout::{count, record, Shape};
use crate::posting::post_to;
use crate::record::{Pairing, Record};
use crate::units::{Fen, Lots};

/// The records of a piece: as many whole ones as 65,536 bytes hold.
pub const PIECE: usize = 65_536 / record::SIZE;

/// How many records the days have: one piece and two, with one fewer or more,
/// and three and a part of the fourth.
pub const LENGTHS: [usize; 6] = [2_729, 2_730, 2_731, 5_460, 5_461, 9_000];

/// A small book, so that a day of many records is quick.
const SHAPE: Shape = Shape {
    members: 3,
    contracts: 2,
};

/// A day file, and what it is.
#[derive(Clone, Debug)]
pub struct PieceDay {
    pub name: String,
    pub records: usize,
    pub file: Vec<u8>,
}

/// A day of each length, and the same day ending beside the first piece's end,
/// in a record or between two.
pub fn days() -> Vec<PieceDay> {
    let mut days = Vec::new();
    for records in LENGTHS {
        let file = file(records);
        let name = format!("the day of {records} records");
        days.extend(cuts(&file, records).map(|at| PieceDay {
            name: format!("{name}, cut at byte {at}"),
            records,
            file: file[..at].to_vec(),
        }));
        days.push(PieceDay {
            name,
            records,
            file,
        });
    }
    days
}

/// The day file of so many records.
pub fn file(records: usize) -> Vec<u8> {
    let mut random = Random::new(records as u64);
    let opening = book(&mut random, SHAPE, Temper::Calm, Hour::Opening);
    let mut closing = opening.clone();
    let mut day = Vec::new();
    while day.len() < records {
        let length = PIECE.min(records - day.len());
        day.extend(piece(&mut random, &mut closing, length));
    }
    let prices = prices(&mut random, &closing, Temper::Calm);
    day_file(&opening.encode(), &day, &price_bytes(&prices))
}

/// Where a day file ends if it breaks off a byte before the first piece's end,
/// at it, or a byte after it, as far as it is that long.
fn cuts(file: &[u8], records: usize) -> impl Iterator<Item = usize> {
    let end = SHAPE.total() + count::SIZE + PIECE * record::SIZE;
    let long_enough = records >= PIECE && end < file.len();
    (end - 1..=end + 1).filter(move |_| long_enough)
}

/// The records of one piece. The first and the last are refused, and many of
/// those between them.
fn piece(random: &mut Random, book: &mut Book, length: usize) -> Vec<Vec<u8>> {
    let mut piece = vec![refused(random, book)];
    if length > 1 {
        let (between, _) = records(random, book, length - 2);
        piece.extend(between.into_iter().take(length - 2));
        *book = post_all(book, &piece);
        piece.push(refused(random, book));
    }
    piece
}

/// A record that the book refuses: one without an amount, one of a member that
/// has not the room, or one of members that have not the lots.
fn refused(random: &mut Random, book: &Book) -> Vec<u8> {
    let none = Record::Deposit {
        member: 0,
        amount: Fen::ZERO,
    };
    let most = Record::Withdrawal {
        member: 1,
        amount: Fen(*bounds::RECORD_AMOUNT.end()),
    };
    let pairing = Record::Pairing(Pairing {
        contract: 0,
        buyer: 0,
        seller: 2,
        lots: Lots(*bounds::RECORD_LOTS.end()),
    });
    let one = random.pick(&[none, most, pairing]).encode();
    let stands = post_to(&mut book.clone(), &one).is_ok();
    let one = if stands { none.encode() } else { one };
    one.to_vec()
}

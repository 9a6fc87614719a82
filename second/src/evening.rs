//! The evening program: a day file in, the sheet out.

use crate::book::Book;
use crate::bytes::u32_at;
use crate::layout::{count, head, record, FRONT, TOTALS};
use crate::posting::post_to;
use crate::refusal::Refusal;
use crate::settlement::settle_book;
use crate::sheet::{record_refused, settlement_refused, sheet};

/// A day file taken apart.
struct Input<'a> {
    book: &'a [u8],
    /// The bytes of the records that are there; the last may be short.
    records: &'a [u8],
    /// All that follows the counted records.
    prices: &'a [u8],
}

/// What the evening program prints for a day file of any bytes.
pub fn evening(input: &[u8]) -> Vec<u8> {
    let text = match take_apart(input) {
        Some(input) => run(&input),
        None => settlement_refused(Refusal::BookNotValid.number()),
    };
    text.into_bytes()
}

/// None if the front is not there, the total is out of range, or the input
/// ends inside the book.
fn take_apart(input: &[u8]) -> Option<Input<'_>> {
    let front = input.get(..FRONT)?;
    let total = usize::try_from(u32_at(front, head::TOTAL)).ok()?;
    if !TOTALS.contains(&total) {
        return None;
    }
    let (book, rest) = input.split_at_checked(total)?;
    let (records, prices) = match rest.split_at_checked(count::SIZE) {
        Some((count, rest)) => split_records(u32_at(count, 0), rest),
        // A short count is 0, and nothing follows it.
        None => (&[][..], &[][..]),
    };
    Some(Input {
        book,
        records,
        prices,
    })
}

/// Parts the counted records, as far as they are there, from the rest.
fn split_records(count: u32, rest: &[u8]) -> (&[u8], &[u8]) {
    let counted = u64::from(count) * record::SIZE as u64;
    let there = usize::try_from(counted).map_or(rest.len(), |length| length.min(rest.len()));
    rest.split_at(there)
}

fn run(input: &Input) -> String {
    let mut text = String::new();
    let mut book = Book::decode(input.book);
    for (place, record) in input.records.chunks(record::SIZE).enumerate() {
        let posted = match &mut book {
            Ok(book) => post_to(book, record).map(|_| ()),
            Err(refusal) => Err(*refusal),
        };
        if let Err(refusal) = posted {
            text.push_str(&record_refused(place, refusal.number()));
        }
    }
    let settled = book.and_then(|book| settle_book(&book, input.prices));
    match settled {
        Ok(settled) => text.push_str(&sheet(&settled.members)),
        Err(refusal) => text.push_str(&settlement_refused(refusal.number())),
    }
    text
}

//! Safe functions over the clearing library.
//!
//! The library is proved and written in Rattle; `scripts/library` builds it as
//! `target/staticlib/libclearing.a`, which this package links. The functions
//! take slices of bytes, as the book, the records and the prices are laid out
//! (`docs/FORMAT.md`), and answer `Ok(())` or a [`Refusal`], by these numbers:
//!
//! | no. | given exactly when |
//! |---|---|
//! | 0 | valid, accepted or settled: no refusal |
//! | 1 | record not 24 bytes; kind outside 1..5; a field out of range, absent from the book, or not zero though unused; buyer and seller equal |
//! | 2 | a named member has 20,000 accepted records |
//! | 3 | trade: a side with mark 0 has reserve + deposits − withdrawals below its minimum |
//! | 4 | trade: fewer lots under the mark (1: opening − closed old; 2: new) than asked, or the close would leave fewer held than paired |
//! | 5 | trade: a held side would pass 100,000 |
//! | 6 | withdrawal above the room left |
//! | 7 | pairing above a side's held lots less those paired |
//! | 8 | not exactly one pair of settlement and delivery price for each contract; settlement price outside 1..10,000,000; delivery price above 10,000,000, or 0 where lots are paired |
//! | 9 | a member's reserve tonight outside −10^15..10^15 |
//! | 10 | book not valid |
//! | 11 | lent room for the next book or the results too short |
//!
//! The first that holds is given: for a record 10, 1, 2, then those of its kind
//! by rising number; for settlement 10, 8, 11, 9. A refusal leaves every byte
//! that was lent as it stood.
//!
//! No function asks anything of its caller, keeps anything between calls, or
//! takes memory that is not lent to it.

mod refusal;

pub use refusal::Refusal;

mod exported {
    //! The library's own functions. Each slice passes as a pointer and a length.

    extern "C" {
        pub fn clearing_check(book: *const u8, book_length: usize) -> u8;

        pub fn clearing_post(
            book: *mut u8,
            book_length: usize,
            record: *const u8,
            record_length: usize,
        ) -> u8;

        pub fn clearing_settle(
            book: *const u8,
            book_length: usize,
            prices: *const u8,
            prices_length: usize,
            next: *mut u8,
            next_length: usize,
            results: *mut u8,
            results_length: usize,
        ) -> u8;
    }
}

/// What a number that the library answers stands for. Panics at a number above
/// 11, which it is proved not to answer.
fn outcome(answer: u8) -> Result<(), Refusal> {
    match answer.checked_sub(1) {
        None => Ok(()),
        Some(place) => Err(Refusal::ALL[usize::from(place)]),
    }
}

/// Says whether the bytes are a valid book.
///
/// # Errors
///
/// [`Refusal::BadBook`] for any other bytes.
#[must_use = "only the answer says whether the book is valid"]
pub fn check(book: &[u8]) -> Result<(), Refusal> {
    // SAFETY: the pointer and the length are those of a slice that is lent for
    // the call; the function reads it and asks nothing more.
    outcome(unsafe { exported::clearing_check(book.as_ptr(), book.len()) })
}

/// Posts a record to the accounts of a book that it names.
///
/// If the record is accepted, the book then has it posted.
///
/// # Errors
///
/// A refusal of number 10, 1, 2, 3, 4, 5, 6 or 7 leaves the book as it stood.
#[must_use = "a record that is refused is not posted"]
pub fn post(book: &mut [u8], record: &[u8]) -> Result<(), Refusal> {
    // SAFETY: each pointer and length are those of a slice that is lent for the
    // call, the one that is written being lent to nobody else; the function
    // asks nothing more.
    outcome(unsafe {
        exported::clearing_post(book.as_mut_ptr(), book.len(), record.as_ptr(), record.len())
    })
}

/// Settles a book at the evening's prices: for each contract a settlement price
/// and a delivery price, four bytes each.
///
/// If the book is settled, `next` then begins with the next day's book, which is
/// as long as this one, and `results` with 72 bytes a member, and the bytes
/// beyond keep their values.
///
/// # Errors
///
/// A refusal of number 10, 8, 11 or 9 leaves both as they stood.
#[must_use = "a book that is refused is not settled"]
pub fn settle(
    book: &[u8],
    prices: &[u8],
    next: &mut [u8],
    results: &mut [u8],
) -> Result<(), Refusal> {
    // SAFETY: each pointer and length are those of a slice that is lent for the
    // call, the two that are written being lent to nobody else; the function
    // asks nothing more.
    outcome(unsafe {
        exported::clearing_settle(
            book.as_ptr(),
            book.len(),
            prices.as_ptr(),
            prices.len(),
            next.as_mut_ptr(),
            next.len(),
            results.as_mut_ptr(),
            results.len(),
        )
    })
}

/// The examples of the README, run with the tests.
#[cfg(doctest)]
#[doc = include_str!("../README.md")]
pub struct ReadMe;

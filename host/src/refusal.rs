//! Why a book, a record or a settlement is refused.

use std::error::Error;
use std::fmt;

/// A refusal, by its number. All lent memory stays as it stood.
#[must_use = "what is refused is not done"]
#[derive(Clone, Copy, PartialEq, Eq, PartialOrd, Ord, Hash, Debug)]
#[repr(u8)]
pub enum Refusal {
    BadRecord = 1,
    ManyRecords = 2,
    BelowMinimum = 3,
    FewLots = 4,
    ManyLots = 5,
    AboveRoom = 6,
    FewUnpaired = 7,
    BadPrices = 8,
    ReserveBeyond = 9,
    BadBook = 10,
    ShortRoom = 11,
}

impl Refusal {
    /// All there are, by rising number.
    pub const ALL: [Refusal; 11] = [
        Refusal::BadRecord,
        Refusal::ManyRecords,
        Refusal::BelowMinimum,
        Refusal::FewLots,
        Refusal::ManyLots,
        Refusal::AboveRoom,
        Refusal::FewUnpaired,
        Refusal::BadPrices,
        Refusal::ReserveBeyond,
        Refusal::BadBook,
        Refusal::ShortRoom,
    ];

    /// Its number, 1 to 11.
    #[must_use]
    pub const fn number(self) -> u8 {
        self as u8
    }

    /// When exactly it is given, in the words of the table.
    #[must_use]
    pub const fn words(self) -> &'static str {
        match self {
            Refusal::BadRecord => "record not 24 bytes; kind outside 1..5; a field out of range, absent from the book, or not zero though unused; buyer and seller equal",
            Refusal::ManyRecords => "a named member has 20,000 accepted records",
            Refusal::BelowMinimum => "trade: a side with mark 0 has reserve + deposits − withdrawals below its minimum",
            Refusal::FewLots => "trade: fewer lots under the mark (1: opening − closed old; 2: new) than asked, or the close would leave fewer held than paired",
            Refusal::ManyLots => "trade: a held side would pass 100,000",
            Refusal::AboveRoom => "withdrawal above the room left",
            Refusal::FewUnpaired => "pairing above a side's held lots less those paired",
            Refusal::BadPrices => "not exactly one pair of settlement and delivery price for each contract; settlement price outside 1..10,000,000; delivery price above 10,000,000, or 0 where lots are paired",
            Refusal::ReserveBeyond => "a member's reserve tonight outside −10^15..10^15",
            Refusal::BadBook => "book not valid",
            Refusal::ShortRoom => "lent room for the next book or the results too short",
        }
    }
}

impl fmt::Display for Refusal {
    fn fmt(&self, to: &mut fmt::Formatter) -> fmt::Result {
        write!(to, "refused {}: {}", self.number(), self.words())
    }
}

impl Error for Refusal {}

//! The refusal numbers.

/// Why a record or a settlement is refused.
#[derive(Clone, Copy, PartialEq, Eq, PartialOrd, Ord, Debug)]
pub enum Refusal {
    /// The record is not 24 bytes, or a field of it cannot stand.
    RecordMalformed = 1,
    /// A named member has all the accepted records it may have.
    RecordsExhausted = 2,
    /// A side that opens has less than its minimum.
    BelowMinimum = 3,
    /// Fewer lots under the mark than asked, or fewer held than paired after.
    TooFewLots = 4,
    /// A held side would pass its bound.
    TooManyHeld = 5,
    /// The withdrawal is above the room left.
    AboveRoom = 6,
    /// The pairing is above a side's held lots less those paired.
    AbovePairable = 7,
    /// The evening prices cannot stand.
    PricesMalformed = 8,
    /// A member's reserve tonight is out of range.
    ReserveOutOfRange = 9,
    /// The book is not valid.
    BookNotValid = 10,
    /// The room lent for the next book or the results is too short.
    RoomTooShort = 11,
}

impl Refusal {
    pub fn number(self) -> u8 {
        self as u8
    }

    /// Refuses when the condition holds.
    pub fn when(self, holds: bool) -> Result<(), Refusal> {
        if holds {
            Err(self)
        } else {
            Ok(())
        }
    }
}

/// The number a call answers: 0, or that of its refusal.
pub fn answer<T>(outcome: Result<T, Refusal>) -> u8 {
    match outcome {
        Ok(_) => 0,
        Err(refusal) => refusal.number(),
    }
}

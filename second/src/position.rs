//! One member's lots in one contract: a row of section 3.

use std::ops::{Index, IndexMut};

use crate::bytes::{i64_at, put_i64, put_u32, u32_at};
use crate::layout::position as at;
use crate::units::{Cash, Lots};

#[derive(Clone, Copy, PartialEq, Eq, Debug)]
pub enum Side {
    Long = 0,
    Short = 1,
}

impl Side {
    pub const BOTH: [Side; 2] = [Side::Long, Side::Short];

    pub fn other(self) -> Side {
        match self {
            Side::Long => Side::Short,
            Side::Short => Side::Long,
        }
    }
}

/// The mark under which a side trades.
#[derive(Clone, Copy, PartialEq, Eq, Debug)]
pub enum Mark {
    Opens = 0,
    ClosesOld = 1,
    ClosesNew = 2,
}

impl Mark {
    pub fn from_number(number: u8) -> Option<Mark> {
        match number {
            0 => Some(Mark::Opens),
            1 => Some(Mark::ClosesOld),
            2 => Some(Mark::ClosesNew),
            _ => None,
        }
    }
}

/// The lots of one side.
#[derive(Clone, Copy, PartialEq, Eq, Debug, Default)]
pub struct SideLots {
    pub opening: Lots,
    pub closed_old: Lots,
    pub new: Lots,
    pub paired: Lots,
}

impl SideLots {
    fn decode(row: &[u8; at::SIZE], side: Side) -> SideLots {
        let lots = |at: [usize; 2]| Lots(i64::from(u32_at(row, at[side as usize])));
        SideLots {
            opening: lots(at::OPENING),
            closed_old: lots(at::CLOSED_OLD),
            new: lots(at::NEW),
            paired: lots(at::PAIRED),
        }
    }

    fn encode(&self, row: &mut [u8; at::SIZE], side: Side) {
        let mut put = |at: [usize; 2], lots: Lots| put_u32(row, at[side as usize], lots.0);
        put(at::OPENING, self.opening);
        put(at::CLOSED_OLD, self.closed_old);
        put(at::NEW, self.new);
        put(at::PAIRED, self.paired);
    }

    /// Old lots that are still held.
    pub fn old(&self) -> Lots {
        self.opening - self.closed_old
    }

    pub fn held(&self) -> Lots {
        self.old() + self.new
    }

    /// Held lots less those paired: what remains tonight.
    pub fn remaining(&self) -> Lots {
        self.held() - self.paired
    }

    /// Takes lots under the mark: opens them or closes them.
    pub fn take(&mut self, mark: Mark, lots: Lots) {
        match mark {
            Mark::Opens => self.new += lots,
            Mark::ClosesOld => self.closed_old += lots,
            Mark::ClosesNew => self.new -= lots,
        }
    }
}

#[derive(Clone, Copy, PartialEq, Eq, Debug, Default)]
pub struct Position {
    sides: [SideLots; 2],
    pub cash: Cash,
    pub traded: Lots,
}

impl Index<Side> for Position {
    type Output = SideLots;
    fn index(&self, side: Side) -> &SideLots {
        &self.sides[side as usize]
    }
}

impl IndexMut<Side> for Position {
    fn index_mut(&mut self, side: Side) -> &mut SideLots {
        &mut self.sides[side as usize]
    }
}

impl Position {
    /// Reads a row; none if its last field is not zero.
    pub fn decode(row: &[u8]) -> Option<Position> {
        let row: &[u8; at::SIZE] = row.try_into().ok()?;
        let position = Position {
            sides: Side::BOTH.map(|side| SideLots::decode(row, side)),
            cash: Cash(i128::from(i64_at(row, at::CASH))),
            traded: Lots(i64::from(u32_at(row, at::TRADED))),
        };
        (u32_at(row, at::ZERO) == 0).then_some(position)
    }

    pub fn encode(&self) -> [u8; at::SIZE] {
        let mut row = [0; at::SIZE];
        for side in Side::BOTH {
            self[side].encode(&mut row, side);
        }
        put_i64(&mut row, at::CASH, self.cash.0);
        put_u32(&mut row, at::TRADED, self.traded.0);
        row
    }

    /// Long less short of one count.
    pub fn net(&self, count: impl Fn(&SideLots) -> Lots) -> Lots {
        count(&self[Side::Long]) - count(&self[Side::Short])
    }

    /// The row of the next book: the remaining lots as opening, nothing else.
    pub fn next(&self) -> Position {
        Position {
            sides: self.sides.map(|side| SideLots {
                opening: side.remaining(),
                ..SideLots::default()
            }),
            ..Position::default()
        }
    }
}

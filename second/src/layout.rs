//! Where every field stands, in bytes. All numerals of the layout live here.

use std::ops::Range;

/// The head of a book.
pub mod head {
    pub const MEMBERS: usize = 0;
    pub const CONTRACTS: usize = 2;
    pub const TOTAL: usize = 4;
    pub const SIZE: usize = 8;
}

/// One entry of the table of contents.
pub mod contents {
    pub const NUMBER: usize = 0;
    pub const ROW_SIZE: usize = 2;
    pub const OFFSET: usize = 4;
    pub const SIZE: usize = 8;
    pub const ENTRIES: usize = 3;
}

/// A row of section 1.
pub mod contract {
    pub const LAST_PRICE: usize = 0;
    pub const MULTIPLIER: usize = 4;
    pub const MARGIN_RATE: usize = 8;
    pub const TRADE_FEE: usize = 12;
    pub const DELIVERY_FEE: usize = 16;
    pub const ZERO: usize = 20;
    pub const SIZE: usize = 24;
}

/// A row of section 2.
pub mod account {
    pub const KIND: usize = 0;
    pub const ACCEPTED: usize = 4;
    pub const RESERVE: usize = 8;
    pub const MARGIN: usize = 16;
    pub const USABLE: usize = 24;
    pub const MARKET_VALUE: usize = 32;
    pub const DISCOUNT: usize = 40;
    pub const DEPOSITS: usize = 48;
    pub const WITHDRAWALS: usize = 56;
    pub const SIZE: usize = 64;
}

/// A row of section 3. Fields that exist on both sides stand as long, short.
pub mod position {
    pub const OPENING: [usize; 2] = [0, 4];
    pub const CLOSED_OLD: [usize; 2] = [8, 12];
    pub const NEW: [usize; 2] = [16, 20];
    pub const PAIRED: [usize; 2] = [24, 28];
    pub const CASH: usize = 32;
    pub const TRADED: usize = 40;
    pub const ZERO: usize = 44;
    pub const SIZE: usize = 48;
}

/// A day record.
pub mod record {
    pub const KIND: usize = 0;
    pub const CONTRACT: usize = 1;
    pub const FIRST_MEMBER: usize = 2;
    pub const SECOND_MEMBER: usize = 3;
    pub const FIRST_MARK: usize = 4;
    pub const SECOND_MARK: usize = 5;
    pub const ZERO: usize = 6;
    pub const A: usize = 8;
    pub const B: usize = 16;
    pub const SIZE: usize = 24;
}

/// The record count of a day file.
pub mod count {
    pub const SIZE: usize = 4;
}

/// One pair of evening prices.
pub mod pair {
    pub const SETTLEMENT: usize = 0;
    pub const DELIVERY: usize = 4;
    pub const SIZE: usize = 8;
}

/// One member's results.
pub mod results {
    pub const FIELDS: usize = 9;
    pub const FIELD: usize = 8;
    pub const SIZE: usize = FIELDS * FIELD;
}

/// The head and the table of contents; the bodies follow.
pub const FRONT: usize = head::SIZE + contents::ENTRIES * contents::SIZE;

/// The least and greatest total length that a book's head may claim.
pub const TOTALS: std::ops::RangeInclusive<usize> = FRONT..=52_000;

/// One line of the table of contents, with the number of its rows.
#[derive(Clone, Copy, PartialEq, Eq, Debug)]
pub struct Section {
    pub number: u16,
    pub row_size: usize,
    pub offset: usize,
    pub rows: usize,
}

impl Section {
    /// Where all its rows stand.
    pub fn body(&self) -> Range<usize> {
        self.offset..self.offset + self.row_size * self.rows
    }

    fn row(&self, index: usize) -> Range<usize> {
        let start = self.offset + self.row_size * index;
        start..start + self.row_size
    }
}

/// How many members and contracts a book has; this settles all its offsets.
#[derive(Clone, Copy, PartialEq, Eq, Debug)]
pub struct Shape {
    pub members: usize,
    pub contracts: usize,
}

impl Shape {
    pub fn sections(&self) -> [Section; contents::ENTRIES] {
        let rows = [
            (contract::SIZE, self.contracts),
            (account::SIZE, self.members),
            (position::SIZE, self.members * self.contracts),
        ];
        let mut offset = FRONT;
        let mut number = 0;
        rows.map(|(row_size, rows)| {
            number += 1;
            let section = Section {
                number,
                row_size,
                offset,
                rows,
            };
            offset = section.body().end;
            section
        })
    }

    /// The book's total length.
    pub fn total(&self) -> usize {
        self.sections()[contents::ENTRIES - 1].body().end
    }

    /// Where a contract's row stands.
    pub fn contract(&self, contract: usize) -> Range<usize> {
        self.sections()[0].row(contract)
    }

    /// Where a member's account row stands.
    pub fn account(&self, member: usize) -> Range<usize> {
        self.sections()[1].row(member)
    }

    /// Where a member's position row in a contract stands.
    pub fn position(&self, member: usize, contract: usize) -> Range<usize> {
        self.sections()[2].row(member * self.contracts + contract)
    }

    /// Where all of a member's position rows stand.
    pub fn positions(&self, member: usize) -> Range<usize> {
        let start = self.position(member, 0).start;
        start..start + position::SIZE * self.contracts
    }

    /// The length of all members' results.
    pub fn results(&self) -> usize {
        results::SIZE * self.members
    }

    /// The length of all contracts' price pairs.
    pub fn prices(&self) -> usize {
        pair::SIZE * self.contracts
    }
}

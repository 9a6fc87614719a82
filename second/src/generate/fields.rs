//! Every field of a book, with the bounds it has where all others stay.

use std::ops::RangeInclusive;

use crate::book::Book;
use crate::bounds;
use crate::layout::{account, contents, contract, head, position, Shape, TOTALS};
use crate::position::{Side, SideLots};
use crate::validity::{most_cash, most_moved, most_traded};

/// A number in a book, and the bounds it has where all others stay.
#[derive(Clone, Debug)]
pub struct Field {
    pub name: &'static str,
    /// Where it stands in the book.
    pub at: usize,
    width: usize,
    range: RangeInclusive<i128>,
}

impl Field {
    /// The values at and beside each bound.
    pub fn values(&self) -> [i128; 6] {
        let (low, high) = (*self.range.start(), *self.range.end());
        [low - 1, low, low + 1, high - 1, high, high + 1]
    }

    /// The values one beyond either bound.
    pub fn beyond(&self) -> [i128; 2] {
        let [below, .., above] = self.values();
        [below, above]
    }

    /// Stores a value's low bytes in a book.
    pub fn store(&self, book: &mut [u8], value: i128) {
        let bytes = &value.to_le_bytes()[..self.width];
        book[self.at..self.at + self.width].copy_from_slice(bytes);
    }
}

/// All fields of a book.
pub fn fields(book: &Book) -> Vec<Field> {
    let shape = book.shape();
    let mut fields = Fields(Vec::new());
    fields.front(shape);
    for index in 0..shape.contracts {
        fields.contract(shape.contract(index).start);
    }
    for member in 0..shape.members {
        fields.account(shape.account(member).start, book, member);
        for contract in 0..shape.contracts {
            fields.position(
                shape.position(member, contract).start,
                book,
                member,
                contract,
            );
        }
    }
    fields.0
}

struct Fields(Vec<Field>);

impl Fields {
    fn add(&mut self, name: &'static str, at: usize, width: usize, range: RangeInclusive<i128>) {
        self.0.push(Field {
            name,
            at,
            width,
            range,
        });
    }

    fn exact(&mut self, name: &'static str, at: usize, width: usize, value: usize) {
        self.add(name, at, width, value as i128..=value as i128);
    }

    fn front(&mut self, shape: Shape) {
        self.add("members", head::MEMBERS, 2, sizes(bounds::MEMBERS));
        self.add("contracts", head::CONTRACTS, 2, sizes(bounds::CONTRACTS));
        self.exact("total", head::TOTAL, 4, shape.total());
        self.add("total", head::TOTAL, 4, sizes(TOTALS));
        for (entry, section) in shape.sections().iter().enumerate() {
            let at = head::SIZE + entry * contents::SIZE;
            self.exact("section number", at + contents::NUMBER, 2, entry + 1);
            self.exact("row size", at + contents::ROW_SIZE, 2, section.row_size);
            self.exact("offset", at + contents::OFFSET, 4, section.offset);
        }
    }

    fn contract(&mut self, row: usize) {
        let price = wide(bounds::PRICE);
        self.add("last price", row + contract::LAST_PRICE, 4, price);
        let multiplier = wide(bounds::MULTIPLIER);
        self.add("multiplier", row + contract::MULTIPLIER, 4, multiplier);
        let rate = wide(bounds::MARGIN_RATE);
        self.add("margin rate", row + contract::MARGIN_RATE, 4, rate);
        self.add("trade fee", row + contract::TRADE_FEE, 4, bounds::FEE);
        self.add("delivery fee", row + contract::DELIVERY_FEE, 4, bounds::FEE);
        self.exact("contract's zero", row + contract::ZERO, 4, 0);
    }

    fn account(&mut self, row: usize, book: &Book, member: usize) {
        let moved = 0..=most_moved(book.accounts[member].accepted).0;
        self.add("kind", row + account::KIND, 4, 1..=2);
        self.add(
            "accepted",
            row + account::ACCEPTED,
            4,
            wide(bounds::ACCEPTED),
        );
        self.add("reserve", row + account::RESERVE, 8, bounds::RESERVE);
        self.add("margin", row + account::MARGIN, 8, bounds::MARGIN);
        self.add("usable", row + account::USABLE, 8, bounds::USABLE);
        self.add(
            "market value",
            row + account::MARKET_VALUE,
            8,
            bounds::MARKET_VALUE,
        );
        self.add(
            "discount",
            row + account::DISCOUNT,
            8,
            wide(bounds::DISCOUNT),
        );
        self.add("deposits", row + account::DEPOSITS, 8, moved.clone());
        self.add("withdrawals", row + account::WITHDRAWALS, 8, moved);
    }

    fn position(&mut self, row: usize, book: &Book, member: usize, contract: usize) {
        let position = book.position(member, contract);
        for side in Side::BOTH {
            self.side(row, side, &position[side]);
        }
        let cash = most_cash(position.traded).0;
        self.add("cash sum", row + position::CASH, 8, -cash..=cash);
        let traded: i64 = book
            .positions_of(member)
            .iter()
            .map(|row| row.traded.0)
            .sum();
        let left = most_traded(book.accounts[member].accepted).0 - traded + position.traded.0;
        self.add("traded", row + position::TRADED, 4, 0..=i128::from(left));
        self.exact("position's zero", row + position::ZERO, 4, 0);
    }

    fn side(&mut self, row: usize, side: Side, lots: &SideLots) {
        let at = |field: [usize; 2]| row + field[side as usize];
        let held = i128::from(lots.held().0);
        let old = i128::from(lots.old().0);
        let most = i128::from(*bounds::HELD.end());
        self.add("opening", at(position::OPENING), 4, 0..=most);
        let opening = i128::from(lots.opening.0);
        self.add("closed old", at(position::CLOSED_OLD), 4, 0..=opening);
        self.add("new", at(position::NEW), 4, 0..=most - old);
        self.add("paired", at(position::PAIRED), 4, 0..=held);
    }
}

fn sizes(range: RangeInclusive<usize>) -> RangeInclusive<i128> {
    *range.start() as i128..=*range.end() as i128
}

fn wide(range: RangeInclusive<i64>) -> RangeInclusive<i128> {
    i128::from(*range.start())..=i128::from(*range.end())
}

//! One member's account: a row of section 2.

use crate::bytes::{i64_at, put_i64, put_u32, u32_at};
use crate::layout::account as at;
use crate::rules;
use crate::units::{Fen, Rate};

/// What kind of member an account is of.
#[derive(Clone, Copy, PartialEq, Eq, Debug)]
pub enum MemberKind {
    Broker = 1,
    Other = 2,
}

/// How a member stands after settlement.
#[derive(Clone, Copy, PartialEq, Eq, PartialOrd, Ord, Debug)]
pub enum Standing {
    /// At or above the minimum.
    Full = 0,
    /// From 0 up to the minimum.
    NoOpening = 1,
    /// Below 0.
    Liquidation = 2,
}

impl MemberKind {
    pub fn from_number(number: u32) -> Option<MemberKind> {
        match number {
            1 => Some(MemberKind::Broker),
            2 => Some(MemberKind::Other),
            _ => None,
        }
    }

    /// The least reserve the member has to keep.
    pub fn minimum(self) -> Fen {
        match self {
            MemberKind::Broker => Fen(200_000_000),
            MemberKind::Other => Fen(50_000_000),
        }
    }

    pub fn standing(self, reserve: Fen) -> Standing {
        if reserve >= self.minimum() {
            Standing::Full
        } else if reserve >= Fen::ZERO {
            Standing::NoOpening
        } else {
            Standing::Liquidation
        }
    }

    /// What the member is called to pay in.
    pub fn call(self, reserve: Fen) -> Fen {
        (self.minimum() - reserve).at_least_zero()
    }
}

#[derive(Clone, Copy, PartialEq, Eq, Debug)]
pub struct Account {
    pub kind: MemberKind,
    pub accepted: i64,
    pub reserve: Fen,
    pub margin: Fen,
    pub usable: Fen,
    pub market_value: Fen,
    pub discount: Rate,
    pub deposits: Fen,
    pub withdrawals: Fen,
}

impl Account {
    /// Reads a row; none if the kind is no member's kind.
    pub fn decode(row: &[u8]) -> Option<Account> {
        let row: &[u8; at::SIZE] = row.try_into().ok()?;
        let fen = |at| Fen(i128::from(i64_at(row, at)));
        Some(Account {
            kind: MemberKind::from_number(u32_at(row, at::KIND))?,
            accepted: i64::from(u32_at(row, at::ACCEPTED)),
            reserve: fen(at::RESERVE),
            margin: fen(at::MARGIN),
            usable: fen(at::USABLE),
            market_value: fen(at::MARKET_VALUE),
            discount: Rate(i64_at(row, at::DISCOUNT)),
            deposits: fen(at::DEPOSITS),
            withdrawals: fen(at::WITHDRAWALS),
        })
    }

    pub fn encode(&self) -> [u8; at::SIZE] {
        let mut row = [0; at::SIZE];
        put_u32(&mut row, at::KIND, self.kind as i64);
        put_u32(&mut row, at::ACCEPTED, self.accepted);
        put_i64(&mut row, at::RESERVE, self.reserve.0);
        put_i64(&mut row, at::MARGIN, self.margin.0);
        put_i64(&mut row, at::USABLE, self.usable.0);
        put_i64(&mut row, at::MARKET_VALUE, self.market_value.0);
        put_i64(&mut row, at::DISCOUNT, i128::from(self.discount.0));
        put_i64(&mut row, at::DEPOSITS, self.deposits.0);
        put_i64(&mut row, at::WITHDRAWALS, self.withdrawals.0);
        row
    }

    /// The reserve with the day's deposits and withdrawals.
    pub fn reserve_in_the_day(&self) -> Fen {
        self.reserve + self.deposits - self.withdrawals
    }

    pub fn money(&self) -> Fen {
        rules::money(self.reserve, self.margin, self.usable)
    }

    /// The room left in the day; below zero nothing may go out.
    pub fn room_left(&self) -> Fen {
        let room = rules::room(self.money(), self.margin, self.usable, self.kind.minimum());
        room + self.deposits - self.withdrawals
    }
}

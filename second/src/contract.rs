//! One contract: a row of section 1.

use crate::bytes::{put_u32, u32_at};
use crate::layout::contract as at;
use crate::units::{Fen, Multiplier, Price, Rate};

#[derive(Clone, Copy, PartialEq, Eq, Debug)]
pub struct Contract {
    pub last_price: Price,
    pub multiplier: Multiplier,
    pub margin_rate: Rate,
    pub trade_fee: Fen,
    pub delivery_fee: Fen,
}

impl Contract {
    /// Reads a row; none if its last field is not zero.
    pub fn decode(row: &[u8]) -> Option<Contract> {
        let row: &[u8; at::SIZE] = row.try_into().ok()?;
        let number = |at| i64::from(u32_at(row, at));
        let contract = Contract {
            last_price: Price(number(at::LAST_PRICE)),
            multiplier: Multiplier(number(at::MULTIPLIER)),
            margin_rate: Rate(number(at::MARGIN_RATE)),
            trade_fee: Fen(i128::from(number(at::TRADE_FEE))),
            delivery_fee: Fen(i128::from(number(at::DELIVERY_FEE))),
        };
        (number(at::ZERO) == 0).then_some(contract)
    }

    pub fn encode(&self) -> [u8; at::SIZE] {
        let mut row = [0; at::SIZE];
        put_u32(&mut row, at::LAST_PRICE, self.last_price.0);
        put_u32(&mut row, at::MULTIPLIER, self.multiplier.0);
        put_u32(&mut row, at::MARGIN_RATE, self.margin_rate.0);
        put_u32(&mut row, at::TRADE_FEE, fee(self.trade_fee));
        put_u32(&mut row, at::DELIVERY_FEE, fee(self.delivery_fee));
        row
    }
}

fn fee(fen: Fen) -> i64 {
    i64::try_from(fen.0).expect("a fee that fits eight bytes")
}

//! The money rules, each as a function of the figures it is stated over.

use crate::contract::Contract;
use crate::position::{Position, Side};
use crate::units::{Fen, Lots, Price, Rate};

/// Tonight's two prices of a contract.
#[derive(Clone, Copy, PartialEq, Eq, Debug)]
pub struct PricePair {
    pub settlement: Price,
    pub delivery: Price,
}

/// A member's own money.
pub fn money(reserve: Fen, margin: Fen, usable: Fen) -> Fen {
    reserve + margin - usable
}

/// What may go out before the day's deposits and withdrawals; may be negative.
pub fn room(money: Fen, margin: Fen, usable: Fen, minimum: Fen) -> Fen {
    let bound = (margin - usable).max(usable.quarter_rounded_up());
    money - bound - minimum
}

/// The part of the securities that counts, given tonight's money.
pub fn usable(market_value: Fen, discount: Rate, money: Fen) -> Fen {
    discount
        .of_rounded_down(market_value)
        .min(money.times_four().at_least_zero())
}

/// Tonight's reserve.
pub fn reserve(money: Fen, usable: Fen, margin: Fen) -> Fen {
    money + usable - margin
}

/// One contract's profit or loss of the day.
pub fn profit(contract: &Contract, position: &Position, prices: PricePair) -> Fen {
    let held = position.net(|side| side.held()) * prices.settlement;
    let opening = position.net(|side| side.opening) * contract.last_price;
    let paired = position.net(|side| side.paired) * (prices.delivery - prices.settlement);
    (position.cash + held - opening + paired) * contract.multiplier
}

/// One contract's fee of the day.
pub fn fee(contract: &Contract, position: &Position) -> Fen {
    let paired = position[Side::Long].paired + position[Side::Short].paired;
    contract.trade_fee * position.traded + contract.delivery_fee * paired
}

/// One contract's margin: on the larger side of the remaining lots.
pub fn margin(contract: &Contract, long: Lots, short: Lots, price: Price) -> Fen {
    let value = long.max(short) * price * contract.multiplier;
    contract.margin_rate.of_rounded_up(value)
}

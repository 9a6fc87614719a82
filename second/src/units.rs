//! Lots, prices and money, kept apart by type.
//!
//! Lots times a price is [`Cash`]; cash times the multiplier is [`Fen`].
//! Money is held in 128 bits, where no sum or product of valid figures can
//! come near the end of the range.

use std::iter::Sum;
use std::ops::{Add, AddAssign, Mul, Neg, Sub, SubAssign};

/// Money: whole fen, signed.
#[derive(Clone, Copy, PartialEq, Eq, PartialOrd, Ord, Debug, Default)]
pub struct Fen(pub i128);

/// Lots times price, signed: fen once the multiplier is applied.
#[derive(Clone, Copy, PartialEq, Eq, PartialOrd, Ord, Debug, Default)]
pub struct Cash(pub i128);

/// A count of lots; signed, since a net of long and short may be negative.
#[derive(Clone, Copy, PartialEq, Eq, PartialOrd, Ord, Debug, Default)]
pub struct Lots(pub i64);

/// Fen per unit of goods; signed, since a move of the price may be negative.
#[derive(Clone, Copy, PartialEq, Eq, PartialOrd, Ord, Debug, Default)]
pub struct Price(pub i64);

/// Units of goods per lot.
#[derive(Clone, Copy, PartialEq, Eq, Debug)]
pub struct Multiplier(pub i64);

/// Basis points: 10,000 are the whole.
#[derive(Clone, Copy, PartialEq, Eq, Debug)]
pub struct Rate(pub i64);

macro_rules! sums {
    ($unit:ident) => {
        impl Add for $unit {
            type Output = $unit;
            fn add(self, other: $unit) -> $unit {
                $unit(self.0 + other.0)
            }
        }

        impl Sub for $unit {
            type Output = $unit;
            fn sub(self, other: $unit) -> $unit {
                $unit(self.0 - other.0)
            }
        }

        impl Neg for $unit {
            type Output = $unit;
            fn neg(self) -> $unit {
                $unit(-self.0)
            }
        }

        impl AddAssign for $unit {
            fn add_assign(&mut self, other: $unit) {
                *self = *self + other;
            }
        }

        impl SubAssign for $unit {
            fn sub_assign(&mut self, other: $unit) {
                *self = *self - other;
            }
        }

        impl Sum for $unit {
            fn sum<I: Iterator<Item = $unit>>(items: I) -> $unit {
                items.fold($unit::default(), Add::add)
            }
        }
    };
}

sums!(Fen);
sums!(Cash);
sums!(Lots);
sums!(Price);

impl Mul<Price> for Lots {
    type Output = Cash;
    fn mul(self, price: Price) -> Cash {
        Cash(i128::from(self.0) * i128::from(price.0))
    }
}

impl Mul<Multiplier> for Cash {
    type Output = Fen;
    fn mul(self, multiplier: Multiplier) -> Fen {
        Fen(self.0 * i128::from(multiplier.0))
    }
}

/// A fee per lot, over some lots.
impl Mul<Lots> for Fen {
    type Output = Fen;
    fn mul(self, lots: Lots) -> Fen {
        Fen(self.0 * i128::from(lots.0))
    }
}

impl Fen {
    pub const ZERO: Fen = Fen(0);

    /// A quarter, rounded up to a fen.
    pub fn quarter_rounded_up(self) -> Fen {
        Fen(divide_rounded_up(self.0, 4))
    }

    pub fn times_four(self) -> Fen {
        Fen(self.0 * 4)
    }

    pub fn at_least_zero(self) -> Fen {
        self.max(Fen::ZERO)
    }
}

impl Rate {
    const WHOLE: i64 = 10_000;

    /// This part of an amount, rounded up to a fen.
    pub fn of_rounded_up(self, amount: Fen) -> Fen {
        Fen(divide_rounded_up(
            amount.0 * i128::from(self.0),
            Self::WHOLE,
        ))
    }

    /// This part of an amount, rounded down to a fen.
    pub fn of_rounded_down(self, amount: Fen) -> Fen {
        Fen(divide_rounded_down(
            amount.0 * i128::from(self.0),
            Self::WHOLE,
        ))
    }
}

fn divide_rounded_up(amount: i128, divisor: i64) -> i128 {
    -divide_rounded_down(-amount, divisor)
}

fn divide_rounded_down(amount: i128, divisor: i64) -> i128 {
    match i64::try_from(amount) {
        // Division of 64 bits is many times faster.
        Ok(amount) => i128::from(amount.div_euclid(divisor)),
        Err(_) => amount.div_euclid(i128::from(divisor)),
    }
}

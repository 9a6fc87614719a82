//! The bounds of every number, as the specification states them.

use std::ops::RangeInclusive;

pub const MEMBERS: RangeInclusive<usize> = 1..=32;
pub const CONTRACTS: RangeInclusive<usize> = 1..=32;

pub const PRICE: RangeInclusive<i64> = 1..=10_000_000;
pub const MULTIPLIER: RangeInclusive<i64> = 1..=100;
pub const MARGIN_RATE: RangeInclusive<i64> = 1..=10_000;
pub const FEE: RangeInclusive<i128> = 0..=100_000;

pub const ACCEPTED: RangeInclusive<i64> = 0..=20_000;
pub const RESERVE: RangeInclusive<i128> = -1_000_000_000_000_000..=1_000_000_000_000_000;
pub const MARGIN: RangeInclusive<i128> = 0..=10_000_000_000_000_000;
pub const USABLE: RangeInclusive<i128> = 0..=1_000_000_000_000_000;
pub const MARKET_VALUE: RangeInclusive<i128> = 0..=1_000_000_000_000_000;
pub const DISCOUNT: RangeInclusive<i64> = 0..=8_000;

/// Lots a member may hold on one side of a contract, at opening or in the day.
pub const HELD: RangeInclusive<i64> = 0..=100_000;
/// Lots of one record.
pub const RECORD_LOTS: RangeInclusive<i64> = 1..=10_000;
/// Amount of one deposit or withdrawal.
pub const RECORD_AMOUNT: RangeInclusive<i128> = 1..=1_000_000_000_000;

/// The price at which a contract is delivered; 0 where nothing is paired.
pub const DELIVERY_PRICE: RangeInclusive<i64> = 0..=*PRICE.end();

//! Valid books, calm or extreme, at opening or in mid-day.

use std::ops::RangeInclusive;

use super::random::Random;
use crate::account::{Account, MemberKind};
use crate::book::Book;
use crate::bounds;
use crate::contract::Contract;
use crate::layout::Shape;
use crate::position::{Position, Side, SideLots};
use crate::units::{Cash, Fen, Lots, Multiplier, Price, Rate};
use crate::validity::{most_cash, most_moved, most_traded};

/// How far figures go.
#[derive(Clone, Copy, PartialEq, Eq, Debug)]
pub enum Temper {
    /// Figures that leave every member solvent on most days.
    Calm,
    /// Reserves near a minimum and lots near a bound: what refusals turn on.
    Tight,
    /// Figures at the ends of their ranges.
    Extreme,
}

/// Whether a book has seen part of its day.
#[derive(Clone, Copy, PartialEq, Eq, Debug)]
pub enum Hour {
    Opening,
    MidDay,
}

/// A size; mostly small, at times at the ends.
pub fn shape(random: &mut Random) -> Shape {
    let (members, contracts) = match random.below(100) {
        0..=1 => (32, 32),
        2..=4 => (random.below(32) + 1, random.below(32) + 1),
        5..=7 => (random.below(32) + 1, 1),
        8..=10 => (random.below(3) + 1, random.below(32) + 1),
        11..=13 => (1, random.below(3) + 1),
        _ => (random.below(5) + 2, random.below(3) + 1),
    };
    Shape { members, contracts }
}

/// A valid book.
pub fn book(random: &mut Random, shape: Shape, temper: Temper, hour: Hour) -> Book {
    let contracts = (0..shape.contracts).map(|_| contract(random, temper));
    let contracts = contracts.collect();
    let accounts = (0..shape.members).map(|_| account(random, temper));
    let accounts = accounts.collect();
    let positions = vec![Position::default(); shape.members * shape.contracts];
    let mut book = Book {
        contracts,
        accounts,
        positions,
    };
    for contract in 0..shape.contracts {
        open_lots(random, &mut book, contract, temper);
    }
    if hour == Hour::MidDay {
        spend_the_morning(random, &mut book, temper);
    }
    book
}

/// Prices at most a twentieth away from a contract's last.
pub fn near_last(contract: &Contract) -> RangeInclusive<i64> {
    let last = contract.last_price.0;
    let step = last / 20;
    (last - step).max(*bounds::PRICE.start())..=(last + step).min(*bounds::PRICE.end())
}

fn contract(random: &mut Random, temper: Temper) -> Contract {
    if temper == Temper::Extreme {
        return Contract {
            last_price: Price(random.edge_count(bounds::PRICE)),
            multiplier: Multiplier(random.edge_count(bounds::MULTIPLIER)),
            margin_rate: Rate(random.edge_count(bounds::MARGIN_RATE)),
            trade_fee: Fen(random.edge(bounds::FEE)),
            delivery_fee: Fen(random.edge(bounds::FEE)),
        };
    }
    Contract {
        last_price: Price(random.count(1_000..=900_000)),
        multiplier: Multiplier(random.count(1..=20)),
        margin_rate: Rate(random.count(300..=2_000)),
        trade_fee: Fen(random.within(0..=2_000)),
        delivery_fee: Fen(random.within(0..=500)),
    }
}

fn account(random: &mut Random, temper: Temper) -> Account {
    let kind = *random.pick(&[MemberKind::Broker, MemberKind::Other]);
    let minimum = kind.minimum().0;
    let (reserve, margin, usable, market_value) = match temper {
        Temper::Calm => (
            minimum + random.within(0..=10_000_000_000),
            random.within(0..=500_000_000),
            random.within(0..=100_000_000),
            random.within(0..=2_000_000_000),
        ),
        Temper::Tight => (
            minimum + near_minimum(random),
            random.edge(0..=2_000_000),
            random.edge(0..=4_000),
            random.edge(0..=300_000_001),
        ),
        Temper::Extreme => (
            random.edge(bounds::RESERVE),
            random.edge(bounds::MARGIN),
            random.edge(bounds::USABLE),
            random.edge(bounds::MARKET_VALUE),
        ),
    };
    let secured = random.chance(60);
    Account {
        kind,
        accepted: 0,
        reserve: Fen(reserve),
        margin: Fen(margin),
        usable: Fen(if secured { usable } else { 0 }),
        market_value: Fen(if secured { market_value } else { 0 }),
        discount: Rate(random.edge_count(bounds::DISCOUNT)),
        deposits: Fen::ZERO,
        withdrawals: Fen::ZERO,
    }
}

/// How far a tight reserve is from its minimum: at most a fen or two, or a
/// little more.
fn near_minimum(random: &mut Random) -> i128 {
    if random.chance(40) {
        random.within(-2..=2)
    } else {
        random.edge(-1_000_000..=1_000_000)
    }
}

/// Brings the values to a total, each within its own range, starting at a
/// random place. The ranges have to allow that total.
fn balance(random: &mut Random, values: &mut [i128], ranges: &[RangeInclusive<i128>], total: i128) {
    let start = random.below(values.len());
    let mut missing = total - values.iter().sum::<i128>();
    for step in 0..values.len() {
        let index = (start + step) % values.len();
        let value = (values[index] + missing).clamp(*ranges[index].start(), *ranges[index].end());
        missing -= value - values[index];
        values[index] = value;
    }
}

/// The same count on the same side of every member's row in a contract.
fn counts(book: &Book, contract: usize, side: Side, of: fn(&SideLots) -> Lots) -> Vec<i128> {
    let lots = |position: &Position| i128::from(of(&position[side]).0);
    book.positions_in(contract).map(lots).collect()
}

fn some_lots(random: &mut Random, temper: Temper) -> i128 {
    let held = i128::from(*bounds::HELD.end());
    match temper {
        _ if random.chance(25) => 0,
        Temper::Calm => random.within(0..=60),
        Temper::Tight if random.chance(60) => random.within(0..=6),
        Temper::Tight => held - random.within(0..=12),
        Temper::Extreme => random.edge(0..=held),
    }
}

/// Raises one side's counts until both sides are equal in total.
fn raise_lower_side(
    random: &mut Random,
    book: &Book,
    contract: usize,
    of: fn(&SideLots) -> Lots,
    most: &[i128; 2],
) -> [Vec<i128>; 2] {
    let mut both = Side::BOTH.map(|side| counts(book, contract, side, of));
    let totals = [0, 1].map(|side| both[side].iter().sum::<i128>());
    for side in 0..2 {
        let ranges: Vec<_> = both[side].iter().map(|&count| count..=most[side]).collect();
        balance(random, &mut both[side], &ranges, totals[0].max(totals[1]));
    }
    both
}

/// Opening lots, longs equal to shorts.
fn open_lots(random: &mut Random, book: &mut Book, contract: usize, temper: Temper) {
    let most = [i128::from(*bounds::HELD.end()); 2];
    for member in 0..book.accounts.len() {
        for side in Side::BOTH {
            let lots = some_lots(random, temper);
            book.position_mut(member, contract)[side].opening = Lots(lots as i64);
        }
    }
    let both = raise_lower_side(random, book, contract, |side| side.opening, &most);
    for side in Side::BOTH {
        for (member, lots) in both[side as usize].iter().enumerate() {
            book.position_mut(member, contract)[side].opening = Lots(*lots as i64);
        }
    }
}

/// Fills the day fields with figures that are valid together, whether or not
/// any records could have led to them.
fn spend_the_morning(random: &mut Random, book: &mut Book, temper: Temper) {
    for account in &mut book.accounts {
        account.accepted = match temper {
            Temper::Extreme => random.edge_count(bounds::ACCEPTED),
            _ if random.chance(5) => *bounds::ACCEPTED.end() - random.count(0..=2),
            _ => random.count(0..=40),
        };
        let most = most_moved(account.accepted).0;
        let most = if temper == Temper::Extreme {
            most
        } else {
            most.min(30_000_000)
        };
        account.deposits = Fen(random.edge(0..=most));
        account.withdrawals = Fen(random.edge(0..=most));
    }
    trade_lots(random, book, temper);
    for contract in 0..book.contracts.len() {
        move_lots(random, book, contract, temper);
        pair_lots(random, book, contract);
        move_cash(random, book, contract, temper);
    }
}

/// Traded lots, at most what each member's accepted records allow.
fn trade_lots(random: &mut Random, book: &mut Book, temper: Temper) {
    for member in 0..book.accounts.len() {
        let mut left = most_traded(book.accounts[member].accepted).0;
        for contract in 0..book.contracts.len() {
            let most = if temper == Temper::Extreme {
                left
            } else {
                left.min(100)
            };
            let traded = random.edge_count(0..=most);
            book.position_mut(member, contract).traded = Lots(traded);
            left -= traded;
        }
    }
}

/// Closed and new lots, held longs equal to held shorts.
fn move_lots(random: &mut Random, book: &mut Book, contract: usize, temper: Temper) {
    let held = *bounds::HELD.end();
    for member in 0..book.accounts.len() {
        for side in Side::BOTH {
            let fresh = some_lots(random, temper) as i64;
            let lots = &mut book.position_mut(member, contract)[side];
            lots.closed_old = Lots(random.edge_count(0..=lots.opening.0));
            lots.new = Lots(fresh.min(held - lots.old().0));
        }
    }
    let most = [i128::from(held); 2];
    let both = raise_lower_side(random, book, contract, SideLots::held, &most);
    for side in Side::BOTH {
        for (member, lots) in both[side as usize].iter().enumerate() {
            let lots = Lots(*lots as i64);
            let row = &mut book.position_mut(member, contract)[side];
            row.new = lots - row.old();
        }
    }
}

/// Paired lots, paired longs equal to paired shorts.
fn pair_lots(random: &mut Random, book: &mut Book, contract: usize) {
    if random.chance(40) {
        return;
    }
    let held = Side::BOTH.map(|side| counts(book, contract, side, SideLots::held));
    let mut paired = held.clone();
    for lots in paired.iter_mut().flatten() {
        *lots = random.edge(0..=*lots);
    }
    let totals = [0, 1].map(|side| paired[side].iter().sum::<i128>());
    for side in Side::BOTH {
        let paired = &mut paired[side as usize];
        let ranges: Vec<_> = paired.iter().map(|&lots| 0..=lots).collect();
        balance(random, paired, &ranges, totals[0].min(totals[1]));
        for (member, lots) in paired.iter().enumerate() {
            book.position_mut(member, contract)[side].paired = Lots(*lots as i64);
        }
    }
}

/// Cash sums that total zero, each within what its traded lots allow.
fn move_cash(random: &mut Random, book: &mut Book, contract: usize, temper: Temper) {
    let last = book.contracts[contract].last_price;
    let most = |position: &Position| match temper {
        Temper::Extreme => most_cash(position.traded).0,
        _ => (position.traded * last).0,
    };
    let most: Vec<i128> = book.positions_in(contract).map(most).collect();
    let ranges: Vec<_> = most.iter().map(|&most| -most..=most).collect();
    let mut cash: Vec<i128> = ranges
        .iter()
        .map(|range| random.edge(range.clone()))
        .collect();
    balance(random, &mut cash, &ranges, 0);
    for (member, cash) in cash.into_iter().enumerate() {
        book.position_mut(member, contract).cash = Cash(cash);
    }
}

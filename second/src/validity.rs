//! What makes a book valid, beyond its shape.

use crate::account::Account;
use crate::book::Book;
use crate::bounds;
use crate::contract::Contract;
use crate::position::{Position, Side, SideLots};
use crate::refusal::{answer, Refusal};
use crate::units::{Cash, Fen, Lots, Price};

/// Answers 0 for a valid book, and 10 for any other bytes.
pub fn check(book: &[u8]) -> u8 {
    answer(Book::decode(book))
}

impl Book {
    /// Reads a valid book, and refuses any other bytes.
    pub fn decode(bytes: &[u8]) -> Result<Book, Refusal> {
        Book::read(bytes).filter(holds).ok_or(Refusal::BookNotValid)
    }
}

/// Whether every figure is within its bounds and every contract balances.
pub fn holds(book: &Book) -> bool {
    book.contracts.iter().all(contract_holds)
        && book.accounts.iter().all(account_holds)
        && book.positions.iter().all(position_holds)
        && (0..book.accounts.len()).all(|member| traded_holds(book, member))
        && (0..book.contracts.len()).all(|contract| balances(book, contract))
}

fn contract_holds(contract: &Contract) -> bool {
    bounds::PRICE.contains(&contract.last_price.0)
        && bounds::MULTIPLIER.contains(&contract.multiplier.0)
        && bounds::MARGIN_RATE.contains(&contract.margin_rate.0)
        && bounds::FEE.contains(&contract.trade_fee.0)
        && bounds::FEE.contains(&contract.delivery_fee.0)
}

fn account_holds(account: &Account) -> bool {
    let moved = Fen::ZERO..=most_moved(account.accepted);
    bounds::ACCEPTED.contains(&account.accepted)
        && bounds::RESERVE.contains(&account.reserve.0)
        && bounds::MARGIN.contains(&account.margin.0)
        && bounds::USABLE.contains(&account.usable.0)
        && bounds::MARKET_VALUE.contains(&account.market_value.0)
        && bounds::DISCOUNT.contains(&account.discount.0)
        && moved.contains(&account.deposits)
        && moved.contains(&account.withdrawals)
}

fn position_holds(position: &Position) -> bool {
    let most = most_cash(position.traded);
    Side::BOTH.iter().all(|&side| side_holds(&position[side]))
        && (-most..=most).contains(&position.cash)
}

fn side_holds(side: &SideLots) -> bool {
    bounds::HELD.contains(&side.opening.0)
        && side.closed_old <= side.opening
        && bounds::HELD.contains(&side.held().0)
        && side.paired <= side.held()
}

/// A member's traded lots, over all contracts, against its accepted records.
fn traded_holds(book: &Book, member: usize) -> bool {
    let traded: Lots = book.positions_of(member).iter().map(|row| row.traded).sum();
    traded <= most_traded(book.accounts[member].accepted)
}

/// The four balances of a contract over all members.
fn balances(book: &Book, contract: usize) -> bool {
    let mut opening = Lots::default();
    let mut held = Lots::default();
    let mut paired = Lots::default();
    let mut cash = Cash::default();
    for position in book.positions_in(contract) {
        opening += position.net(|side| side.opening);
        held += position.net(SideLots::held);
        paired += position.net(|side| side.paired);
        cash += position.cash;
    }
    [opening, held, paired] == [Lots::default(); 3] && cash == Cash::default()
}

/// The most that so many accepted records can have moved in or out.
pub fn most_moved(accepted: i64) -> Fen {
    Fen(*bounds::RECORD_AMOUNT.end() * i128::from(accepted))
}

/// The most lots that so many accepted records can have traded.
pub fn most_traded(accepted: i64) -> Lots {
    Lots(*bounds::RECORD_LOTS.end() * accepted)
}

/// The largest cash sum that so many traded lots can have.
pub fn most_cash(traded: Lots) -> Cash {
    traded * Price(*bounds::PRICE.end())
}

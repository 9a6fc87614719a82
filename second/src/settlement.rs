//! The evening settlement.

use crate::account::{Account, Standing};
use crate::book::Book;
use crate::bounds;
use crate::bytes::{put_i64, u32_at};
use crate::contract::Contract;
use crate::layout::{pair, results};
use crate::position::{Position, Side};
use crate::refusal::{answer, Refusal};
use crate::rules::{self, PricePair};
use crate::units::{Fen, Lots, Price};

/// One member's evening.
#[derive(Clone, Copy, PartialEq, Eq, Debug)]
pub struct Tonight {
    pub profit: Fen,
    pub fee: Fen,
    pub margin: Fen,
    pub usable: Fen,
    pub reserve: Fen,
    pub withdrawable: Fen,
    pub call: Fen,
    pub standing: Standing,
}

/// A settled book: every member's evening, and the book of the next day.
#[derive(Clone, PartialEq, Eq, Debug)]
pub struct Settled {
    pub members: Vec<Tonight>,
    pub next: Book,
}

/// Settles a book's bytes at k pairs of settlement and delivery price, into
/// lent room for the next book and the results. Answers 0, or the refusal
/// number; a refusal leaves every lent byte as it stood, and bytes beyond
/// either length keep their values in any case.
pub fn settle(book: &[u8], prices: &[u8], next: &mut [u8], results: &mut [u8]) -> u8 {
    answer(settle_bytes(book, prices, next, results))
}

fn settle_bytes(
    book: &[u8],
    prices: &[u8],
    next: &mut [u8],
    results: &mut [u8],
) -> Result<(), Refusal> {
    let book = Book::decode(book)?;
    let prices = read_prices(&book, prices)?;
    let shape = book.shape();
    let short = next.len() < shape.total() || results.len() < shape.results();
    Refusal::RoomTooShort.when(short)?;
    let settled = settle_at(&book, &prices)?;
    settled.next.encode_into(next);
    write_results(&settled.members, results);
    Ok(())
}

/// Settles a valid book already read, at prices as they are handed in.
pub fn settle_book(book: &Book, prices: &[u8]) -> Result<Settled, Refusal> {
    settle_at(book, &read_prices(book, prices)?)
}

fn settle_at(book: &Book, prices: &[PricePair]) -> Result<Settled, Refusal> {
    let members: Vec<Tonight> = (0..book.accounts.len())
        .map(|member| tonight(book, prices, member))
        .collect();
    let outside = |member: &Tonight| !bounds::RESERVE.contains(&member.reserve.0);
    Refusal::ReserveOutOfRange.when(members.iter().any(outside))?;
    let next = next_book(book, prices, &members);
    Ok(Settled { members, next })
}

/// Reads exactly one pair of prices a contract.
pub fn read_prices(book: &Book, bytes: &[u8]) -> Result<Vec<PricePair>, Refusal> {
    Refusal::PricesMalformed.when(bytes.len() != book.shape().prices())?;
    let pairs = bytes.chunks_exact(pair::SIZE).enumerate();
    pairs
        .map(|(contract, bytes)| {
            let pair = PricePair {
                settlement: Price(i64::from(u32_at(bytes, pair::SETTLEMENT))),
                delivery: Price(i64::from(u32_at(bytes, pair::DELIVERY))),
            };
            pair_stands(book, contract, pair)
                .then_some(pair)
                .ok_or(Refusal::PricesMalformed)
        })
        .collect()
}

fn pair_stands(book: &Book, contract: usize, pair: PricePair) -> bool {
    bounds::PRICE.contains(&pair.settlement.0)
        && bounds::DELIVERY_PRICE.contains(&pair.delivery.0)
        && (pair.delivery != Price(0) || !any_paired(book, contract))
}

/// Whether any member has paired lots in the contract.
pub fn any_paired(book: &Book, contract: usize) -> bool {
    let paired = |position: &Position, side: Side| position[side].paired > Lots(0);
    book.positions_in(contract)
        .any(|position| Side::BOTH.iter().any(|&side| paired(position, side)))
}

/// One member's evening, whatever its reserve comes to.
pub fn tonight(book: &Book, prices: &[PricePair], member: usize) -> Tonight {
    let account = &book.accounts[member];
    let mut profit = Fen::ZERO;
    let mut fee = Fen::ZERO;
    let mut margin = Fen::ZERO;
    let rows = book.contracts.iter().zip(book.positions_of(member));
    for ((contract, position), &pair) in rows.zip(prices) {
        let [long, short] = Side::BOTH.map(|side| position[side].remaining());
        profit += rules::profit(contract, position, pair);
        fee += rules::fee(contract, position);
        margin += rules::margin(contract, long, short, pair.settlement);
    }
    let moved = account.deposits - account.withdrawals;
    let money = account.money() + profit + moved - fee;
    close(account, money, profit, fee, margin)
}

/// The figures that follow from tonight's money and margin.
fn close(account: &Account, money: Fen, profit: Fen, fee: Fen, margin: Fen) -> Tonight {
    let usable = rules::usable(account.market_value, account.discount, money);
    let reserve = rules::reserve(money, usable, margin);
    let room = rules::room(money, margin, usable, account.kind.minimum());
    Tonight {
        profit,
        fee,
        margin,
        usable,
        reserve,
        withdrawable: room.at_least_zero(),
        call: account.kind.call(reserve),
        standing: account.kind.standing(reserve),
    }
}

fn next_book(book: &Book, prices: &[PricePair], members: &[Tonight]) -> Book {
    let contracts = book.contracts.iter().zip(prices);
    let accounts = book.accounts.iter().zip(members);
    Book {
        contracts: contracts
            .map(|(contract, pair)| Contract {
                last_price: pair.settlement,
                ..*contract
            })
            .collect(),
        accounts: accounts
            .map(|(account, tonight)| Account {
                accepted: 0,
                reserve: tonight.reserve,
                margin: tonight.margin,
                usable: tonight.usable,
                deposits: Fen::ZERO,
                withdrawals: Fen::ZERO,
                ..*account
            })
            .collect(),
        positions: book.positions.iter().map(Position::next).collect(),
    }
}

impl Tonight {
    /// The nine sheet fields in order.
    pub fn fields(&self, member: usize) -> [i128; results::FIELDS] {
        [
            member as i128,
            self.profit.0,
            self.fee.0,
            self.margin.0,
            self.usable.0,
            self.reserve.0,
            self.withdrawable.0,
            self.call.0,
            self.standing as i128,
        ]
    }
}

fn write_results(members: &[Tonight], bytes: &mut [u8]) {
    let rows = bytes.chunks_exact_mut(results::SIZE);
    for (member, (tonight, row)) in members.iter().zip(rows).enumerate() {
        for (index, field) in tonight.fields(member).into_iter().enumerate() {
            put_i64(row, index * results::FIELD, field);
        }
    }
}

//! The fullest day that a book can take: 32 members by 32 contracts, trades
//! alone, all of them accepted, until every member has its 20,000 records.

use super::books::{book, near_last, Hour, Temper};
use super::random::Random;
use super::records::marks_for;
use super::{day_file, price_bytes, Day};
use crate::book::Book;
use crate::bounds;
use crate::contract::Contract;
use crate::layout::Shape;
use crate::position::Side;
use crate::posting::post_to;
use crate::record::{Record, Role, Trade};
use crate::rules::PricePair;
use crate::settlement::settle_book;
use crate::units::{Fen, Lots, Price};

/// Records of each member in the whole day, which is sixteen times as many
/// trades: two members are named by each.
pub const RECORDS: usize = *bounds::ACCEPTED.end() as usize;

const SEED: u64 = 0x66_75_6c_6c;
/// Lots of one trade, and of one side of a position in the morning.
const MOST_LOTS: i64 = 5;
const MOST_OPENING: i64 = 4_000;

/// The day with so many records of each member.
pub fn day(records: usize) -> Day {
    let mut random = Random::new(SEED);
    let opening = opening(&mut random);
    let mut closing = opening.clone();
    let mut trades = Vec::new();
    let mut members: Vec<usize> = (0..opening.accounts.len()).collect();
    for _ in 0..records {
        shuffle(&mut random, &mut members);
        for pair in members.chunks_exact(2) {
            let trade = trade(&mut random, &closing, pair[0], pair[1]).encode();
            post_to(&mut closing, &trade).expect("a trade that the book can take");
            trades.push(trade.to_vec());
        }
    }
    let prices = prices_at(&closing, |contract| {
        Price(random.count(near_last(contract)))
    });
    let book = opening.encode();
    Day {
        seed: SEED,
        file: day_file(&book, &trades, &prices),
        book,
        records: trades,
        prices,
        damage: None,
    }
}

/// A full opening book whose margins are those of its lots: another one,
/// settled at the prices that it has.
fn opening(random: &mut Random) -> Book {
    let shape = Shape {
        members: *bounds::MEMBERS.end(),
        contracts: *bounds::CONTRACTS.end(),
    };
    let mut eve = book(random, shape, Temper::Calm, Hour::Opening);
    for account in &mut eve.accounts {
        account.reserve += Fen(random.within(200_000_000_000..=400_000_000_000));
    }
    for contract in 0..shape.contracts {
        open_lots(random, &mut eve, contract);
    }
    let still = prices_at(&eve, |contract| contract.last_price);
    let settled = settle_book(&eve, &still);
    settled.expect("reserves within their range").next
}

/// Many lots on every side. One member's shorts are another's longs, so that the
/// contract balances.
fn open_lots(random: &mut Random, book: &mut Book, contract: usize) {
    let members = book.accounts.len();
    for member in 0..members {
        let lots = Lots(random.count(0..=MOST_OPENING));
        book.position_mut(member, contract)[Side::Long].opening = lots;
        let other = (member + 7) % members;
        book.position_mut(other, contract)[Side::Short].opening = lots;
    }
}

fn shuffle(random: &mut Random, members: &mut [usize]) {
    for last in (1..members.len()).rev() {
        members.swap(last, random.below(last + 1));
    }
}

/// A trade in any contract, each side under any mark that has the lots.
fn trade(random: &mut Random, book: &Book, buyer: usize, seller: usize) -> Record {
    let contract = random.below(book.contracts.len());
    let lots = random.count(1..=MOST_LOTS);
    let mut mark = |role, member| *random.pick(&marks_for(book, role, member, contract, lots));
    let buyer_mark = mark(Role::Buyer, buyer);
    let seller_mark = mark(Role::Seller, seller);
    Record::Trade(Trade {
        contract,
        buyer,
        seller,
        buyer_mark,
        seller_mark,
        price: Price(random.count(near_last(&book.contracts[contract]))),
        lots: Lots(lots),
    })
}

/// The bytes of one settlement price a contract; nothing is paired, so nothing
/// is delivered.
fn prices_at(book: &Book, price: impl FnMut(&Contract) -> Price) -> Vec<u8> {
    let pairs = book
        .contracts
        .iter()
        .map(price)
        .map(|settlement| PricePair {
            settlement,
            delivery: Price(0),
        });
    price_bytes(&pairs.collect::<Vec<_>>())
}

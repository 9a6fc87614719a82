//! Posting a record to the accounts it names.

use crate::book::Book;
use crate::bounds;
use crate::position::{Mark, SideLots};
use crate::record::{Pairing, Party, Record, Role, Trade};
use crate::refusal::{answer, Refusal};
use crate::units::Lots;

/// Posts a record to a book's bytes. Answers 0, or the refusal number; a
/// refusal leaves every byte as it stood.
pub fn post(book: &mut [u8], record: &[u8]) -> u8 {
    answer(post_bytes(book, record))
}

fn post_bytes(bytes: &mut [u8], record: &[u8]) -> Result<(), Refusal> {
    let mut book = Book::decode(bytes)?;
    let record = post_to(&mut book, record)?;
    for member in record.named().into_iter().flatten() {
        book.encode_member(member, bytes);
    }
    Ok(())
}

/// Posts a record to a valid book already read, and returns it as accepted; a
/// refusal leaves the book as it stood.
pub fn post_to(book: &mut Book, record: &[u8]) -> Result<Record, Refusal> {
    let record = Record::decode(record, book.shape()).ok_or(Refusal::RecordMalformed)?;
    refuse(book, &record)?;
    apply(book, &record);
    Ok(record)
}

/// The first refusal after 1 that holds of a well-formed record.
fn refuse(book: &Book, record: &Record) -> Result<(), Refusal> {
    let exhausted = |member: usize| book.accounts[member].accepted >= *bounds::ACCEPTED.end();
    let mut named = record.named().into_iter().flatten();
    Refusal::RecordsExhausted.when(named.any(exhausted))?;
    match record {
        Record::Trade(trade) => refuse_trade(book, trade),
        Record::Pairing(pairing) => refuse_pairing(book, pairing),
        Record::Withdrawal { member, amount } => {
            Refusal::AboveRoom.when(*amount > book.accounts[*member].room_left())
        }
        Record::Deposit { .. } | Record::Securities { .. } => Ok(()),
    }
}

fn refuse_trade(book: &Book, trade: &Trade) -> Result<(), Refusal> {
    let parties = trade.parties();
    let any = |holds: fn(&Book, &Trade, &Party) -> bool| {
        parties.iter().any(|party| holds(book, trade, party))
    };
    Refusal::BelowMinimum.when(any(opens_below_minimum))?;
    Refusal::TooFewLots.when(any(closes_too_many))?;
    Refusal::TooManyHeld.when(any(opens_too_many))
}

fn opens_below_minimum(book: &Book, _trade: &Trade, party: &Party) -> bool {
    let account = &book.accounts[party.member];
    party.mark == Mark::Opens && account.reserve_in_the_day() < account.kind.minimum()
}

fn closes_too_many(book: &Book, trade: &Trade, party: &Party) -> bool {
    let side = &book.position(party.member, trade.contract)[party.side()];
    closable(side, party.mark).is_some_and(|closable| trade.lots > closable)
}

/// The lots that may be closed under a mark; none if the mark opens.
pub fn closable(side: &SideLots, mark: Mark) -> Option<Lots> {
    let under_mark = match mark {
        Mark::Opens => return None,
        Mark::ClosesOld => side.old(),
        Mark::ClosesNew => side.new,
    };
    Some(under_mark.min(side.remaining()))
}

fn opens_too_many(book: &Book, trade: &Trade, party: &Party) -> bool {
    let side = &book.position(party.member, trade.contract)[party.side()];
    party.mark == Mark::Opens && (side.held() + trade.lots).0 > *bounds::HELD.end()
}

fn refuse_pairing(book: &Book, pairing: &Pairing) -> Result<(), Refusal> {
    let above = |(role, member): (Role, usize)| {
        let side = &book.position(member, pairing.contract)[role.own_side()];
        pairing.lots > side.remaining()
    };
    Refusal::AbovePairable.when(paired_members(pairing).into_iter().any(above))
}

fn paired_members(pairing: &Pairing) -> [(Role, usize); 2] {
    [(Role::Buyer, pairing.buyer), (Role::Seller, pairing.seller)]
}

/// Alters the accounts that an accepted record names, and no other.
fn apply(book: &mut Book, record: &Record) {
    for member in record.named().into_iter().flatten() {
        book.accounts[member].accepted += 1;
    }
    match *record {
        Record::Trade(trade) => {
            for party in trade.parties() {
                apply_trade(book, &trade, &party);
            }
        }
        Record::Pairing(pairing) => {
            for (role, member) in paired_members(&pairing) {
                let position = book.position_mut(member, pairing.contract);
                position[role.own_side()].paired += pairing.lots;
            }
        }
        Record::Deposit { member, amount } => book.accounts[member].deposits += amount,
        Record::Withdrawal { member, amount } => book.accounts[member].withdrawals += amount,
        Record::Securities {
            member,
            market_value,
            discount,
        } => {
            book.accounts[member].market_value = market_value;
            book.accounts[member].discount = discount;
        }
    }
}

fn apply_trade(book: &mut Book, trade: &Trade, party: &Party) {
    let position = book.position_mut(party.member, trade.contract);
    position[party.side()].take(party.mark, trade.lots);
    position.traded += trade.lots;
    let cash = trade.lots * trade.price;
    match party.role {
        Role::Buyer => position.cash -= cash,
        Role::Seller => position.cash += cash,
    }
}

//! Books that break one rule of validity and keep all others.

use super::random::Random;
use crate::book::Book;
use crate::bounds;
use crate::position::{Side, SideLots};
use crate::units::{Cash, Lots};
use crate::validity::{most_cash, most_traded};

/// Breaks one balance of one contract by one.
pub fn unbalance(random: &mut Random, book: &mut Book) {
    let place = Place::any(random, book);
    match random.below(4) {
        0 => place.set(book, |lots| {
            lots.opening += Lots(1);
            lots.closed_old += Lots(1);
        }),
        1 => place.set(book, |lots| lots.new += Lots(1)),
        2 => place.set(book, |lots| lots.paired += Lots(1)),
        _ => book.position_mut(place.member, place.contract).cash += Cash(1),
    }
}

/// Takes one count or cash sum one beyond what another allows, and keeps the
/// contract balanced.
pub fn misstate(random: &mut Random, book: &mut Book) {
    let place = Place::any(random, book);
    let lots = book.position(place.member, place.contract)[place.side];
    let beyond = Lots(*bounds::HELD.end() + 1);
    match random.below(6) {
        0 => place.set_both(book, |row| {
            row.opening += beyond - lots.opening;
            row.closed_old += beyond - lots.opening;
        }),
        1 => place.set(book, |row| {
            row.closed_old = row.opening + Lots(1);
            row.new += lots.old() + Lots(1);
        }),
        2 => place.set_both(book, |row| row.new += beyond - lots.held()),
        3 => place.set_both(book, |row| row.paired += lots.remaining() + Lots(1)),
        4 => overstate_cash(&place, book),
        _ => overstate_traded(&place, book),
    }
}

/// One side of one member in one contract, and another member to balance it.
struct Place {
    contract: usize,
    member: usize,
    other: usize,
    side: Side,
}

impl Place {
    fn any(random: &mut Random, book: &Book) -> Place {
        let members = book.accounts.len();
        let member = random.below(members);
        Place {
            contract: random.below(book.contracts.len()),
            member,
            other: (member + 1) % members,
            side: *random.pick(&Side::BOTH),
        }
    }

    fn set(&self, book: &mut Book, set: impl Fn(&mut SideLots)) {
        set(&mut book.position_mut(self.member, self.contract)[self.side]);
    }

    /// Sets this side and the other member's opposite side alike.
    fn set_both(&self, book: &mut Book, set: impl Fn(&mut SideLots)) {
        self.set(book, &set);
        set(&mut book.position_mut(self.other, self.contract)[self.side.other()]);
    }
}

fn overstate_cash(place: &Place, book: &mut Book) {
    let row = book.position_mut(place.member, place.contract);
    let step = most_cash(row.traded) - row.cash + Cash(1);
    row.cash += step;
    book.position_mut(place.other, place.contract).cash -= step;
}

fn overstate_traded(place: &Place, book: &mut Book) {
    let rows = book.positions_of(place.member).iter();
    let traded: Lots = rows.map(|row| row.traded).sum();
    let most = most_traded(book.accounts[place.member].accepted);
    book.position_mut(place.member, place.contract).traded += most - traded + Lots(1);
}

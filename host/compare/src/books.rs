//! Books to check: valid ones, and the same with something done to them.

use second::book::write_front;
use second::bounds;
use second::generate::books::{book, shape, Hour, Temper};
use second::generate::damage::{noise, Damage};
use second::generate::fields::{fields, Field};
use second::generate::random::Random;
use second::layout::Shape;
use second::position::{Position, Side, SideLots};
use second::units::{Cash, Fen, Lots};
use second::validity::{most_cash, most_moved, most_traded};
use second::Book;

/// Bytes to check, valid or not, and what was done to make them.
pub struct Case {
    pub name: String,
    pub bytes: Vec<u8>,
}

/// A valid book of a seed.
pub fn valid(random: &mut Random) -> Book {
    let shape = shape(random);
    let temper = *random.pick(&[Temper::Calm, Temper::Tight, Temper::Extreme]);
    let hour = *random.pick(&[Hour::Opening, Hour::MidDay, Hour::MidDay]);
    book(random, shape, temper, hour)
}

/// The books of a seed: a valid one, and others made of it.
pub fn cases(seed: u64) -> Vec<Case> {
    let mut random = Random::new(seed ^ 0x62_6f_6f_6b);
    let book = valid(&mut random);
    let bytes = book.encode();
    let mut cases = vec![Case {
        name: "valid".into(),
        bytes: bytes.clone(),
    }];
    let fields = fields(&book);
    for _ in 0..4 {
        let field = random.pick(&fields).clone();
        let value = *random.pick(&field.values());
        cases.push(field_case(&field, &bytes, value));
    }
    for _ in 0..2 {
        cases.push(lots_at_a_bound(&mut random, &book));
    }
    cases.push(sums_at_a_bound(&mut random, &book));
    for _ in 0..3 {
        cases.push(damaged(&mut random, &book, &bytes));
    }
    cases.push(any_bytes(&mut random));
    cases
}

/// Hands over every field of a book at and beside each of its bounds, the
/// others as they are.
pub fn every_field(book: &Book, mut each: impl FnMut(Case)) {
    let bytes = book.encode();
    for field in fields(book) {
        for value in field.values() {
            each(field_case(&field, &bytes, value));
        }
    }
}

fn field_case(field: &Field, bytes: &[u8], value: i128) -> Case {
    let mut bytes = bytes.to_vec();
    field.store(&mut bytes, value);
    Case {
        name: format!("{} {value} at byte {}", field.name, field.at),
        bytes,
    }
}

/// A count one below, at or one above a bound, and not below 0.
fn about(random: &mut Random, bound: i64) -> i64 {
    (bound + random.count(-1..=1)).max(0)
}

/// One side's lots at or beside their bounds, and the same lots on the other
/// side of another member, so that only the bounds decide. A book of one member
/// has them on its both sides.
fn lots_at_a_bound(random: &mut Random, book: &Book) -> Case {
    let mut book = book.clone();
    let members = book.accounts.len();
    let contract = random.below(book.contracts.len());
    let first = random.below(members);
    let second = (first + 1 + random.below(members.max(2) - 1)) % members;
    let most = *bounds::HELD.end();
    let ends = [0, 1, most - 1, most, most + 1];
    let opening = *random.pick(&ends);
    let closed_old = match random.below(3) {
        0 => 0,
        1 => about(random, opening),
        _ => random.count(0..=opening),
    };
    let old = opening - closed_old;
    let new = match random.below(4) {
        0 => 0,
        1 => about(random, -old),
        2 => random.count(0..=most),
        _ => about(random, most - old),
    };
    let held = (old + new).max(0);
    let paired = match random.below(3) {
        0 => 0,
        1 => random.count(0..=held),
        _ => about(random, held),
    };
    let lots = SideLots {
        opening: Lots(opening),
        closed_old: Lots(closed_old),
        new: Lots(new),
        paired: Lots(paired),
    };
    for member in 0..members {
        let row = book.position_mut(member, contract);
        let traded = row.traded;
        *row = Position::default();
        row.traded = traded;
    }
    let side = *random.pick(&Side::BOTH);
    book.position_mut(first, contract)[side] = lots;
    book.position_mut(second, contract)[side.other()] = lots;
    Case {
        name: format!("contract {contract} with {lots:?} alone, of members {first} and {second}"),
        bytes: book.encode(),
    }
}

/// Traded lots, cash sums or moved money at or beside what the figures they
/// depend on allow, and the contract balanced.
fn sums_at_a_bound(random: &mut Random, book: &Book) -> Case {
    let mut book = book.clone();
    let members = book.accounts.len();
    let contract = random.below(book.contracts.len());
    let member = random.below(members);
    let other = (member + 1) % members;
    let what = random.below(3);
    match what {
        0 => {
            let rows = book.positions_of(member).iter();
            let traded: i64 = rows.map(|row| row.traded.0).sum();
            let most = most_traded(book.accounts[member].accepted).0;
            let row = book.position_mut(member, contract);
            let step = random.count(-1..=1).max(traded - most - row.traded.0);
            row.traded += Lots(most - traded + step);
        }
        1 => {
            let row = book.position(member, contract);
            let bound = *random.pick(&[most_cash(row.traded), -most_cash(row.traded)]);
            let step = bound - row.cash + Cash(random.within(-1..=1));
            book.position_mut(member, contract).cash += step;
            book.position_mut(other, contract).cash -= step;
        }
        _ => {
            let account = &mut book.accounts[member];
            account.accepted = random.edge_count(0..=*bounds::ACCEPTED.end() + 1);
            let most = most_moved(account.accepted).0;
            account.deposits = Fen((most + random.within(-1..=1)).max(0));
            account.withdrawals = Fen((most + random.within(-1..=1)).max(0));
        }
    }
    let what = ["traded lots", "cash sums", "moved money"][what];
    Case {
        name: format!("{what} of member {member} at a bound, contract {contract}"),
        bytes: book.encode(),
    }
}

fn damaged(random: &mut Random, book: &Book, bytes: &[u8]) -> Case {
    let damage = *random.pick(&Damage::to_a_book());
    let mut bytes = bytes.to_vec();
    damage.apply(random, &mut bytes, book.shape());
    Case {
        name: format!("{damage:?}"),
        bytes,
    }
}

/// Bytes that come from no book: none at all, any, or a head and a table of
/// contents that fit each other and the length, and no rows.
fn any_bytes(random: &mut Random) -> Case {
    match random.below(4) {
        0 => Case {
            name: "no bytes".into(),
            bytes: Vec::new(),
        },
        1 => {
            let shape = Shape {
                members: random.below(35),
                contracts: random.below(35),
            };
            let bytes = front(shape, random.bits() as u8);
            Case {
                name: format!("a head of {} by {} alone", shape.members, shape.contracts),
                bytes,
            }
        }
        _ => Case {
            name: "any bytes".into(),
            bytes: noise(random),
        },
    }
}

/// The front of a book of any shape, and one byte all through the rows.
fn front(shape: Shape, fill: u8) -> Vec<u8> {
    let mut bytes = vec![fill; shape.total()];
    write_front(shape, &mut bytes);
    bytes
}

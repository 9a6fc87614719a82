//! Streams of day records, chosen by how the book stands when each comes.

use super::books::near_last;
use super::random::Random;
use crate::book::Book;
use crate::bounds;
use crate::layout::record as at;
use crate::position::{Mark, Side};
use crate::posting::{closable, post_to};
use crate::record::{Pairing, Record, Role, Trade};
use crate::units::{Fen, Lots, Price, Rate};

const MARKS: [Mark; 3] = [Mark::Opens, Mark::ClosesOld, Mark::ClosesNew];

/// A stream in the making, with the book as its records have left it so far.
struct Stream<'a> {
    random: &'a mut Random,
    book: Book,
    records: Vec<Vec<u8>>,
}

/// A stream of about so many records upon a valid book, and the book as they
/// leave it.
pub fn records(random: &mut Random, book: &Book, about: usize) -> (Vec<Vec<u8>>, Book) {
    let mut stream = Stream {
        random,
        book: book.clone(),
        records: Vec::new(),
    };
    while stream.records.len() < about {
        stream.step();
    }
    (stream.records, stream.book)
}

/// The most lots a member may take under a mark; below 1 for none.
fn takeable(book: &Book, role: Role, member: usize, contract: usize, mark: Mark) -> i64 {
    let side = &book.position(member, contract)[role.side_under(mark)];
    match closable(side, mark) {
        Some(lots) => lots.0,
        None => *bounds::HELD.end() - side.held().0,
    }
}

/// The marks under which a member can take so many lots, if it may open.
pub fn marks_for(book: &Book, role: Role, member: usize, contract: usize, lots: i64) -> Vec<Mark> {
    let able = |&mark: &Mark| takeable(book, role, member, contract, mark) >= lots;
    MARKS.into_iter().filter(able).collect()
}

impl Stream<'_> {
    fn step(&mut self) {
        match self.random.below(20) {
            0..=5 => self.plausible_trade(),
            6 => self.trade_of_any_kind(),
            7..=8 => self.close_at_the_edge(),
            9..=10 => self.hold_at_the_edge(),
            11..=12 => self.withdraw_at_the_edge(),
            13..=14 => self.pair_at_the_edge(),
            15..=16 => self.open_at_the_minimum(),
            17 => self.move_money(),
            18 => self.securities(),
            _ => self.malformed(),
        }
    }

    fn emit(&mut self, record: Record) {
        self.emit_bytes(record.encode().to_vec());
    }

    fn emit_bytes(&mut self, bytes: Vec<u8>) {
        // A refusal leaves the working book as it stood, as it does the day's.
        let _ = post_to(&mut self.book, &bytes);
        self.records.push(bytes);
    }

    /// Emits a record one unit beyond an edge and the one at the edge, or one
    /// of the two.
    fn emit_around(&mut self, edge: i128, record: impl Fn(i128) -> Record) {
        match self.random.below(4) {
            0 => self.emit(record(edge)),
            1 => self.emit(record(edge + 1)),
            _ => {
                self.emit(record(edge + 1));
                self.emit(record(edge));
            }
        }
    }

    fn member(&mut self) -> usize {
        self.random.below(self.book.accounts.len())
    }

    fn contract(&mut self) -> usize {
        self.random.below(self.book.contracts.len())
    }

    /// Two members; the same one twice only where the book has but one.
    fn two_members(&mut self) -> (usize, usize) {
        let members = self.book.accounts.len();
        let first = self.member();
        let step = if members > 1 {
            self.random.below(members - 1) + 1
        } else {
            0
        };
        (first, (first + step) % members)
    }

    fn price(&mut self, contract: usize) -> Price {
        Price(if self.random.chance(90) {
            let near = near_last(&self.book.contracts[contract]);
            self.random.count(near)
        } else {
            self.random.edge_count(bounds::PRICE)
        })
    }

    /// A mark under which the member can take some lots, if there is one.
    fn mark_for(&mut self, role: Role, member: usize, contract: usize) -> Mark {
        let marks = marks_for(&self.book, role, member, contract, 1);
        if marks.is_empty() {
            *self.random.pick(&MARKS)
        } else {
            *self.random.pick(&marks)
        }
    }

    fn trade_with(&mut self, marks: Option<[Mark; 2]>) -> (Trade, i64) {
        let contract = self.contract();
        let (buyer, seller) = self.two_members();
        let [buyer_mark, seller_mark] = marks.unwrap_or_else(|| {
            [
                self.mark_for(Role::Buyer, buyer, contract),
                self.mark_for(Role::Seller, seller, contract),
            ]
        });
        let trade = Trade {
            contract,
            buyer,
            seller,
            buyer_mark,
            seller_mark,
            price: self.price(contract),
            lots: Lots(1),
        };
        let takeable = trade
            .parties()
            .map(|party| takeable(&self.book, party.role, party.member, contract, party.mark));
        (trade, takeable[0].min(takeable[1]))
    }

    fn plausible_trade(&mut self) {
        let (trade, takeable) = self.trade_with(None);
        let most = takeable.clamp(1, *bounds::RECORD_LOTS.end());
        let lots = if self.random.chance(70) {
            self.random.count(1..=most.min(20))
        } else {
            self.random.edge_count(1..=most)
        };
        self.emit(Record::Trade(Trade {
            lots: Lots(lots),
            ..trade
        }));
    }

    fn trade_of_any_kind(&mut self) {
        let marks = [*self.random.pick(&MARKS), *self.random.pick(&MARKS)];
        let (trade, _) = self.trade_with(Some(marks));
        let lots = Lots(self.random.edge_count(bounds::RECORD_LOTS));
        self.emit(Record::Trade(Trade { lots, ..trade }));
    }

    /// As many lots as can be traded under the marks, and one more.
    fn trade_at_the_edge(&mut self, marks: Option<[Mark; 2]>) {
        let (trade, takeable) = self.trade_with(marks);
        if !(0..*bounds::RECORD_LOTS.end()).contains(&takeable) {
            return self.plausible_trade();
        }
        self.emit_around(i128::from(takeable), |lots| {
            Record::Trade(Trade {
                lots: Lots(lots as i64),
                ..trade
            })
        });
    }

    fn close_at_the_edge(&mut self) {
        let mut marks = [*self.random.pick(&MARKS), *self.random.pick(&MARKS)];
        let closing = self.random.below(2);
        marks[closing] = *self.random.pick(&MARKS[1..]);
        self.trade_at_the_edge(Some(marks));
    }

    fn hold_at_the_edge(&mut self) {
        let both = [Mark::Opens; 2];
        let marks = self.random.chance(70).then_some(both);
        self.trade_at_the_edge(marks);
    }

    fn withdraw_at_the_edge(&mut self) {
        let member = self.member();
        let amount = *bounds::RECORD_AMOUNT.end();
        let mut room = self.book.accounts[member].room_left().0;
        if room < 0 && room > -amount {
            let above = self.random.within(0..=100);
            let needed = (above - room).min(amount);
            self.emit(Record::Deposit {
                member,
                amount: Fen(needed),
            });
            room = self.book.accounts[member].room_left().0;
        }
        let edge = room.clamp(0, amount);
        self.emit_around(edge, |amount| Record::Withdrawal {
            member,
            amount: Fen(amount),
        });
    }

    fn pair_at_the_edge(&mut self) {
        let contract = self.contract();
        let (buyer, seller) = self.two_members();
        let free = |member: usize, side: Side| {
            let side = &self.book.position(member, contract)[side];
            side.remaining().0
        };
        let free = free(buyer, Side::Long).min(free(seller, Side::Short));
        let most = *bounds::RECORD_LOTS.end();
        let pairing = |lots: i128| {
            Record::Pairing(Pairing {
                contract,
                buyer,
                seller,
                lots: Lots(lots as i64),
            })
        };
        if free > 1 && self.random.chance(60) {
            let lots = self.random.count(1..=free.min(most).min(5));
            self.emit(pairing(i128::from(lots)));
        } else {
            self.emit_around(i128::from(free.min(most)), pairing);
        }
    }

    /// Brings a member to its minimum, or one fen below, and lets it open.
    fn open_at_the_minimum(&mut self) {
        let opens = [Mark::Opens; 2];
        let (trade, _) = self.trade_with(Some(opens));
        let member = *self.random.pick(&[trade.buyer, trade.seller]);
        let account = &self.book.accounts[member];
        let above = (account.reserve_in_the_day() - account.kind.minimum()).0;
        let amount = *bounds::RECORD_AMOUNT.end();
        if (1..=amount).contains(&above) {
            self.emit(Record::Withdrawal {
                member,
                amount: Fen(above),
            });
        } else if (1 - amount..-1).contains(&above) {
            self.emit(Record::Deposit {
                member,
                amount: Fen(-1 - above),
            });
        }
        self.emit(Record::Trade(trade));
        self.emit(Record::Deposit {
            member,
            amount: Fen(1),
        });
        self.emit(Record::Trade(trade));
    }

    fn move_money(&mut self) {
        let member = self.member();
        let amount = if self.random.chance(70) {
            Fen(self.random.within(1..=20_000_000))
        } else {
            // One beyond either end, too.
            Fen(self.random.edge(0..=*bounds::RECORD_AMOUNT.end() + 1))
        };
        let record = if self.random.chance(50) {
            Record::Deposit { member, amount }
        } else {
            Record::Withdrawal { member, amount }
        };
        self.emit(record);
    }

    fn securities(&mut self) {
        let member = self.member();
        let market_value = if self.random.chance(60) {
            self.random.within(0..=2_000_000_000)
        } else {
            self.random.edge(0..=*bounds::MARKET_VALUE.end() + 1)
        };
        let discount = self.random.edge_count(0..=*bounds::DISCOUNT.end() + 1);
        self.emit(Record::Securities {
            member,
            market_value: Fen(market_value),
            discount: Rate(discount),
        });
    }

    /// A record that could stand, but for one field.
    fn malformed(&mut self) {
        let (trade, _) = self.trade_with(None);
        let member = trade.buyer;
        let amount = Fen(self.random.within(1..=1_000));
        let records = [
            Record::Trade(trade),
            Record::Pairing(Pairing {
                contract: trade.contract,
                buyer: trade.buyer,
                seller: trade.seller,
                lots: trade.lots,
            }),
            Record::Deposit { member, amount },
            Record::Withdrawal { member, amount },
            Record::Securities {
                member,
                market_value: amount,
                discount: Rate(8_000),
            },
        ];
        let mut bytes = self.random.pick(&records).encode().to_vec();
        damage_field(self.random, &self.book, &mut bytes);
        self.emit_bytes(bytes);
    }
}

/// Changes one field of a record; a change may by chance leave it standing.
fn damage_field(random: &mut Random, book: &Book, bytes: &mut [u8]) {
    let members = book.accounts.len() as u8;
    let contracts = book.contracts.len() as u8;
    // Some of these would stand if only their low bytes were read.
    let wide = [
        0,
        1,
        10_000,
        10_001,
        10_000_000,
        10_000_001,
        1 << 32,
        (1 << 32) + 1,
        (1 << 63) + 1,
        u64::MAX,
    ];
    match random.below(9) {
        0 => bytes[at::KIND] = *random.pick(&[0, 1, 2, 3, 4, 5, 6, 255]),
        1 => bytes[at::CONTRACT] = *random.pick(&[1, contracts - 1, contracts, 255]),
        2 => bytes[at::FIRST_MEMBER] = *random.pick(&[0, members - 1, members, 255]),
        3 => bytes[at::SECOND_MEMBER] = *random.pick(&[0, 1, members - 1, members, 255]),
        4 => bytes[at::FIRST_MARK] = *random.pick(&[1, 2, 3, 255]),
        5 => bytes[at::SECOND_MARK] = *random.pick(&[1, 2, 3, 255]),
        6 => bytes[at::ZERO + random.below(2)] = *random.pick(&[1, 128]),
        7 => put_wide(bytes, at::A, *random.pick(&wide)),
        _ => put_wide(bytes, at::B, *random.pick(&wide)),
    }
}

fn put_wide(bytes: &mut [u8], at: usize, value: u64) {
    bytes[at..at + 8].copy_from_slice(&value.to_le_bytes());
}

//! Books at and beside every bound, each with the verdict it must get.
//!
//! The verdicts are written down case by case; none is asked of the reader of
//! books, so that they can be held against it.

use super::day_file;
use crate::account::{Account, MemberKind};
use crate::book::Book;
use crate::contract::Contract;
use crate::layout::{account, contents, contract, head, position, Shape, FRONT};
use crate::position::{Position, Side, SideLots};
use crate::units::{Cash, Fen, Lots, Multiplier, Price, Rate};

/// A book's bytes and whether they are a valid book.
#[derive(Clone, Debug)]
pub struct EdgeBook {
    pub name: String,
    pub bytes: Vec<u8>,
    pub valid: bool,
}

/// The book that the cases change: two members, two contracts, some lots held
/// and paired, and a little trade. Member 0 has nothing in contract 1.
pub fn base() -> Book {
    let contract = Contract {
        last_price: Price(5_000),
        multiplier: Multiplier(10),
        margin_rate: Rate(500),
        trade_fee: Fen(300),
        delivery_fee: Fen(100),
    };
    let account = Account {
        kind: MemberKind::Other,
        accepted: 3,
        reserve: Fen(80_000_000),
        margin: Fen(2_500_000),
        usable: Fen(1_000),
        market_value: Fen(2_000),
        discount: Rate(8_000),
        deposits: Fen(700),
        withdrawals: Fen(300),
    };
    let mut book = Book {
        contracts: vec![contract; 2],
        accounts: vec![account; 2],
        positions: vec![Position::default(); 4],
    };
    set_both(&mut book, Side::Long, |side| {
        side.opening = Lots(10);
        side.closed_old = Lots(4);
        side.new = Lots(3);
        side.paired = Lots(2);
    });
    book
}

/// Sets one side of member 0 and the other side of member 1 alike, so that
/// the first contract stays balanced.
fn set_both(book: &mut Book, side: Side, set: impl Fn(&mut SideLots)) {
    set(&mut book.position_mut(0, 0)[side]);
    set(&mut book.position_mut(1, 0)[side.other()]);
}

/// All the cases.
pub fn edge_books() -> Vec<EdgeBook> {
    let mut cases = Cases(Vec::new());
    cases.add("base", base().encode(), true);
    cases.front();
    cases.lengths();
    cases.sizes();
    cases.contracts();
    cases.accounts();
    cases.counts_and_moves();
    for side in Side::BOTH {
        cases.side(side);
    }
    cases.cash();
    cases.traded();
    cases.lots_balances();
    cases.cash_balances();
    cases.0
}

struct Cases(Vec<EdgeBook>);

impl Cases {
    fn add(&mut self, name: impl Into<String>, bytes: Vec<u8>, valid: bool) {
        self.0.push(EdgeBook {
            name: name.into(),
            bytes,
            valid,
        });
    }

    /// A case that changes the base book.
    fn change(&mut self, name: impl Into<String>, valid: bool, change: impl Fn(&mut Book)) {
        let mut book = base();
        change(&mut book);
        self.add(name, book.encode(), valid);
    }

    /// A case that stores a number over bytes of the base book.
    fn patch(&mut self, name: impl Into<String>, at: usize, bytes: &[u8], valid: bool) {
        let mut book = base().encode();
        book[at..at + bytes.len()].copy_from_slice(bytes);
        self.add(name, book, valid);
    }

    /// A field of four bytes beside both its bounds.
    fn narrow(&mut self, name: &str, at: usize, low: u32, high: u32) {
        for value in [low, low + 1, high - 1, high] {
            self.patch(format!("{name} {value}"), at, &value.to_le_bytes(), true);
        }
        for value in [low.wrapping_sub(1), high + 1, u32::MAX] {
            self.patch(format!("{name} {value}"), at, &value.to_le_bytes(), false);
        }
    }

    /// A field of eight bytes beside both its bounds.
    fn wide(&mut self, name: &str, at: usize, low: i64, high: i64) {
        for value in [low, low + 1, high - 1, high] {
            self.patch(format!("{name} {value}"), at, &value.to_le_bytes(), true);
        }
        for value in [low - 1, high + 1, i64::MIN, i64::MAX, -high - 1] {
            self.patch(format!("{name} {value}"), at, &value.to_le_bytes(), false);
        }
    }

    /// A field that is zero.
    fn zero(&mut self, name: &str, at: usize) {
        for value in [1, 1 << 31, u32::MAX] {
            self.patch(format!("{name} {value}"), at, &value.to_le_bytes(), false);
        }
    }

    fn front(&mut self) {
        let book = base().encode();
        for (at, byte) in book[..FRONT].iter().enumerate() {
            for bit in [0, 7] {
                let flipped = [byte ^ (1 << bit)];
                self.patch(format!("front byte {at} bit {bit}"), at, &flipped, false);
            }
        }
        for entry in 0..contents::ENTRIES {
            let at = head::SIZE + entry * contents::SIZE;
            for field in [contents::NUMBER, contents::ROW_SIZE, contents::OFFSET] {
                let byte = book[at + field];
                for value in [byte.wrapping_add(1), byte.wrapping_sub(1)] {
                    let name = format!("contents {entry} field {field} {value}");
                    self.patch(name, at + field, &[value], false);
                }
            }
        }
    }

    fn lengths(&mut self) {
        let book = base().encode();
        self.add("one byte short", book[..book.len() - 1].to_vec(), false);
        self.add("front alone", book[..FRONT].to_vec(), false);
        self.add("nothing", Vec::new(), false);
        let mut long = book.clone();
        long.push(0);
        self.add("one byte long", long.clone(), false);
        let total = long.len() as u32;
        long[head::TOTAL..head::SIZE].copy_from_slice(&total.to_le_bytes());
        self.add("one byte long and so said", long, false);
    }

    /// Books of one account repeated, of sizes at and beyond the ends.
    fn sizes(&mut self) {
        let ends = [(1, 1), (1, 32), (32, 1), (32, 32), (31, 31)];
        let beyond = [(0, 1), (1, 0), (0, 0), (33, 1), (1, 33)];
        let cases = ends.map(|size| (size, true)).into_iter();
        for ((members, contracts), valid) in cases.chain(beyond.map(|size| (size, false))) {
            let base = base();
            let book = Book {
                contracts: vec![base.contracts[0]; contracts],
                accounts: vec![base.accounts[0]; members],
                positions: vec![Position::default(); members * contracts],
            };
            self.add(format!("{members} by {contracts}"), book.encode(), valid);
        }
    }

    fn contracts(&mut self) {
        for index in 0..2 {
            let row = shape().contract(index).start;
            self.narrow("last price", row + contract::LAST_PRICE, 1, 10_000_000);
            self.narrow("multiplier", row + contract::MULTIPLIER, 1, 100);
            self.narrow("margin rate", row + contract::MARGIN_RATE, 1, 10_000);
            self.narrow("trade fee", row + contract::TRADE_FEE, 0, 100_000);
            self.narrow("delivery fee", row + contract::DELIVERY_FEE, 0, 100_000);
            self.zero("contract zero", row + contract::ZERO);
        }
    }

    fn accounts(&mut self) {
        let quadrillion = 1_000_000_000_000_000;
        for member in 0..2 {
            let row = shape().account(member).start;
            self.narrow("kind", row + account::KIND, 1, 2);
            self.wide("margin", row + account::MARGIN, 0, 10 * quadrillion);
            self.wide("usable", row + account::USABLE, 0, quadrillion);
            self.wide("market value", row + account::MARKET_VALUE, 0, quadrillion);
            self.wide("discount", row + account::DISCOUNT, 0, 8_000);
            let moved = 3_000_000_000_000;
            self.wide("deposits", row + account::DEPOSITS, 0, moved);
            self.wide("withdrawals", row + account::WITHDRAWALS, 0, moved);
            self.wide("reserve", row + account::RESERVE, -quadrillion, quadrillion);
        }
    }

    /// Accepted records, and what hangs on their number.
    fn counts_and_moves(&mut self) {
        let valid = [0, 1, 19_999, 20_000].map(|count| (count, true));
        let beyond = [20_001, i64::from(u32::MAX)].map(|count| (count, false));
        for (accepted, valid) in valid.into_iter().chain(beyond) {
            self.change(format!("accepted {accepted}"), valid, |book| {
                book.accounts[0].accepted = accepted;
                book.accounts[0].deposits = Fen::ZERO;
                book.accounts[0].withdrawals = Fen::ZERO;
            });
        }
        for accepted in [0, 1, 20_000] {
            for (over, valid) in [(0, true), (1, false)] {
                let most = Fen(1_000_000_000_000 * i128::from(accepted) + over);
                let name = |what: &str| format!("{what} {} by {accepted} records", most.0);
                self.change(name("deposits"), valid, |book| {
                    book.accounts[0].accepted = accepted;
                    book.accounts[0].deposits = most;
                    book.accounts[0].withdrawals = Fen::ZERO;
                });
                self.change(name("withdrawals"), valid, |book| {
                    book.accounts[0].accepted = accepted;
                    book.accounts[0].deposits = Fen::ZERO;
                    book.accounts[0].withdrawals = most;
                });
            }
        }
    }

    /// Lots of one side: opening, closed old, new, paired and so on.
    fn side(&mut self, side: Side) {
        let cases = [
            ("nothing", [0, 0, 0, 0], true),
            ("opening below its bound", [99_999, 0, 0, 0], true),
            ("opening at its bound", [100_000, 0, 0, 0], true),
            ("opening at its bound, one closed", [100_000, 1, 0, 0], true),
            ("opening above, held below", [100_001, 1, 0, 0], false),
            ("opening above", [100_001, 0, 0, 0], false),
            ("closed one less", [5, 4, 0, 0], true),
            ("closed all", [5, 5, 0, 0], true),
            ("closed one more, held 0", [5, 6, 1, 0], false),
            ("closed one more, held below 0", [5, 6, 0, 0], false),
            ("held below its bound", [99_999, 1, 1, 0], true),
            ("held at its bound", [99_999, 0, 1, 0], true),
            (
                "held at its bound by new lots",
                [100_000, 100_000, 100_000, 0],
                true,
            ),
            ("held above", [100_000, 0, 1, 0], false),
            ("new lots below the bound", [0, 0, 99_999, 0], true),
            ("new lots at the bound", [0, 0, 100_000, 0], true),
            ("new lots above", [0, 0, 100_001, 0], false),
            (
                "new lots at the field's end",
                [0, 0, 4_294_967_295, 0],
                false,
            ),
            ("closed at the field's end", [5, 4_294_967_295, 0, 0], false),
            ("paired one less", [3, 1, 3, 4], true),
            ("paired all", [3, 1, 3, 5], true),
            ("paired one more", [3, 1, 3, 6], false),
            ("paired with nothing held", [0, 0, 0, 1], false),
            ("paired at the field's end", [3, 1, 3, 4_294_967_295], false),
        ];
        for (name, [opening, closed_old, new, paired], valid) in cases {
            self.change(format!("{side:?}: {name}"), valid, |book| {
                set_both(book, side, |lots| {
                    lots.opening = Lots(opening);
                    lots.closed_old = Lots(closed_old);
                    lots.new = Lots(new);
                    lots.paired = Lots(paired);
                });
            });
        }
    }

    /// Cash sums against traded lots, member 1 having traded one lot more.
    fn cash(&mut self) {
        let cases = [
            (0, 0, true),
            (0, 1, false),
            (1, 9_999_999, true),
            (1, 10_000_000, true),
            (1, 10_000_001, false),
            (3, 29_999_999, true),
            (3, 30_000_000, true),
            (3, 30_000_001, false),
        ];
        for (traded, size, valid) in cases {
            for sum in [size, -size] {
                self.change(
                    format!("cash sum {sum} over {traded} lots"),
                    valid,
                    |book| {
                        book.position_mut(0, 0).traded = Lots(traded);
                        book.position_mut(1, 0).traded = Lots(traded + 1);
                        book.position_mut(0, 0).cash = Cash(sum);
                        book.position_mut(1, 0).cash = Cash(-sum);
                    },
                );
            }
        }
        let cash = shape().position(0, 0).start + position::CASH;
        for value in [i64::MIN, i64::MAX] {
            self.patch(
                format!("cash sum {value}"),
                cash,
                &value.to_le_bytes(),
                false,
            );
        }
        for row in [(0, 0), (0, 1), (1, 0), (1, 1)] {
            let at = shape().position(row.0, row.1).start + position::ZERO;
            self.zero("position zero", at);
        }
    }

    /// Traded lots, over both contracts, against accepted records.
    fn traded(&mut self) {
        let cases = [
            (3, [30_000, 0], true),
            (3, [0, 30_000], true),
            (3, [29_999, 1], true),
            (3, [29_999, 0], true),
            (3, [30_001, 0], false),
            (3, [0, 30_001], false),
            (3, [30_000, 1], false),
            (3, [4_294_967_295, 4_294_967_295], false),
            (20_000, [100_000_000, 100_000_000], true),
            (20_000, [100_000_000, 100_000_001], false),
        ];
        for (accepted, traded, valid) in cases {
            self.change(format!("traded {traded:?}"), valid, |book| {
                book.accounts[1].accepted = accepted;
                book.position_mut(1, 0).traded = Lots(traded[0]);
                book.position_mut(1, 1).traded = Lots(traded[1]);
            });
        }
        for count in [0, 1] {
            self.change(
                format!("traded {count} by no records"),
                count == 0,
                |book| {
                    book.accounts[1].accepted = 0;
                    book.accounts[1].deposits = Fen::ZERO;
                    book.accounts[1].withdrawals = Fen::ZERO;
                    book.position_mut(1, 1).traded = Lots(count);
                },
            );
        }
    }

    /// Each balance of lots broken alone, by one, or only seeming to hold.
    fn lots_balances(&mut self) {
        for side in Side::BOTH {
            for contract in 0..2 {
                let name = |what: &str| format!("{side:?} {what} unbalanced in {contract}");
                self.change(name("opening"), false, |book| {
                    book.position_mut(0, contract)[side].opening += Lots(1);
                    book.position_mut(0, contract)[side].closed_old += Lots(1);
                });
                self.change(name("held"), false, |book| {
                    book.position_mut(0, contract)[side].new += Lots(1);
                });
                self.change(name("paired"), false, |book| {
                    set_both(book, side, |lots| lots.new = Lots(3));
                    for side in Side::BOTH {
                        book.position_mut(1, contract)[side].new += Lots(1);
                    }
                    book.position_mut(1, contract)[side].paired += Lots(1);
                });
            }
            self.change(
                format!("{side:?} balanced across contracts only"),
                false,
                |book| {
                    book.position_mut(0, 1)[side].opening = Lots(1);
                    set_both(book, side, |lots| lots.opening = Lots(10));
                    book.position_mut(0, 0)[side].opening = Lots(9);
                },
            );
        }
    }

    /// Cash sums that do not total zero, or only seem to.
    fn cash_balances(&mut self) {
        for [first, second] in [[1, 0], [-1, 0], [7, -6], [i64::MAX, i64::MIN]] {
            let sums = [first, second].map(|sum| Cash(i128::from(sum)));
            self.change(format!("cash sums {first} and {second}"), false, |book| {
                for (member, cash) in sums.into_iter().enumerate() {
                    book.position_mut(member, 0).traded = Lots(1);
                    book.position_mut(member, 0).cash = cash;
                }
            });
        }
        self.change("cash sums balanced across contracts only", false, |book| {
            for (contract, cash) in [Cash(5), Cash(-5)].into_iter().enumerate() {
                book.position_mut(0, contract).traded = Lots(1);
                book.position_mut(0, contract).cash = cash;
            }
        });
        self.change("cash sums balanced", true, |book| {
            for (member, cash) in [Cash(5), Cash(-5)].into_iter().enumerate() {
                book.position_mut(member, 0).traded = Lots(1);
                book.position_mut(member, 0).cash = cash;
            }
        });
    }
}

fn shape() -> Shape {
    base().shape()
}

/// A day file that settles such a book without records, at prices that suit
/// however many contracts its head speaks of.
pub fn evening_of(book: &EdgeBook) -> Vec<u8> {
    let contracts = match book.bytes.get(head::CONTRACTS..head::TOTAL) {
        Some(field) => usize::from(u16::from_le_bytes([field[0], field[1]])).min(40),
        None => 0,
    };
    let prices = [5_100u32, 5_050].map(u32::to_le_bytes).concat();
    day_file(&book.bytes, &[], &prices.repeat(contracts))
}

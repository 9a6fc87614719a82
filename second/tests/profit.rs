//! Profit and loss by the long way, lot by lot, against the short formula.

use std::collections::VecDeque;

use second::generate::books::{book, shape, Hour, Temper};
use second::generate::random::Random;
use second::generate::records::records;
use second::position::Mark;
use second::posting::post_to;
use second::record::{Record, Role, Trade};
use second::rules::PricePair;
use second::settlement::tonight;
use second::units::Price;
use second::Book;

/// One member's lots of one side of one contract, each by itself.
#[derive(Clone, Default)]
struct Lane {
    old: i64,
    /// The opening prices of the lots opened today, the earliest first.
    new: VecDeque<i64>,
    paired: i64,
    /// Gained by closing, as if a rise were a gain.
    closed: i64,
}

impl Lane {
    fn trade(&mut self, mark: Mark, price: i64, lots: i64, last: i64) {
        for _ in 0..lots {
            match mark {
                Mark::Opens => self.new.push_back(price),
                Mark::ClosesOld => {
                    self.old -= 1;
                    self.closed += price - last;
                }
                Mark::ClosesNew => {
                    let opened = self.new.pop_front().expect("a lot opened today");
                    self.closed += price - opened;
                }
            }
        }
    }

    /// The gain of the whole day, as if a rise were a gain.
    fn gain(&self, last: i64, pair: PricePair) -> i64 {
        let (price, delivery) = (pair.settlement.0, pair.delivery.0);
        let held_new: i64 = self.new.iter().map(|opened| price - opened).sum();
        let delivered = self.paired * (delivery - price);
        self.closed + self.old * (price - last) + held_new + delivered
    }
}

/// Lanes by member, contract and side.
struct Lanes {
    contracts: usize,
    lanes: Vec<[Lane; 2]>,
}

impl Lanes {
    fn of(book: &Book) -> Lanes {
        let lane = |position: &second::position::Position| {
            second::position::Side::BOTH.map(|side| Lane {
                old: position[side].opening.0,
                ..Lane::default()
            })
        };
        Lanes {
            contracts: book.contracts.len(),
            lanes: book.positions.iter().map(lane).collect(),
        }
    }

    fn at(&mut self, member: usize, contract: usize) -> &mut [Lane; 2] {
        &mut self.lanes[member * self.contracts + contract]
    }

    fn trade(&mut self, trade: &Trade, last: Price) {
        let buyer_side = usize::from(trade.buyer_mark != Mark::Opens);
        let seller_side = usize::from(trade.seller_mark == Mark::Opens);
        let sides = [
            (trade.buyer, trade.buyer_mark, buyer_side),
            (trade.seller, trade.seller_mark, seller_side),
        ];
        for (member, mark, side) in sides {
            let lane = &mut self.at(member, trade.contract)[side];
            lane.trade(mark, trade.price.0, trade.lots.0, last.0);
        }
    }

    fn post(&mut self, book: &Book, record: &Record) {
        match record {
            Record::Trade(trade) => self.trade(trade, book.contracts[trade.contract].last_price),
            Record::Pairing(pairing) => {
                self.at(pairing.buyer, pairing.contract)[0].paired += pairing.lots.0;
                self.at(pairing.seller, pairing.contract)[1].paired += pairing.lots.0;
            }
            _ => {}
        }
    }
}

/// Posts a stream both ways and compares every member's profit.
fn compare_day(random: &mut Random) -> i128 {
    let mut size = shape(random);
    size.members = size.members.clamp(2, 6);
    size.contracts = size.contracts.min(3);
    let mut day = book(random, size, Temper::Calm, Hour::Opening);
    let (stream, _) = records(random, &day, 60);
    let mut lanes = Lanes::of(&day);
    for bytes in &stream {
        if let Ok(record) = post_to(&mut day, bytes) {
            lanes.post(&day, &record);
        }
    }
    let mut price = || Price(random.count(1..=1_000_000));
    let pairs: Vec<PricePair> = (0..size.contracts)
        .map(|_| PricePair {
            settlement: price(),
            delivery: price(),
        })
        .collect();
    let mut moved = 0;
    for member in 0..size.members {
        let mut profit = 0;
        for (contract, row) in day.contracts.iter().enumerate() {
            let [long, short] = lanes.at(member, contract).clone();
            let gain = |lane: Lane| lane.gain(row.last_price.0, pairs[contract]);
            profit += i128::from((gain(long) - gain(short)) * row.multiplier.0);
        }
        assert_eq!(tonight(&day, &pairs, member).profit.0, profit);
        moved += profit.abs();
    }
    moved
}

#[test]
fn the_short_formula_is_the_sum_over_lots() {
    let mut random = Random::new(31);
    let moved: i128 = (0..300).map(|_| compare_day(&mut random)).sum();
    assert!(moved > 1_000_000);
    // The sides that the lanes are numbered by.
    assert_eq!(Role::Buyer.own_side() as usize, 0);
    assert_eq!(Role::Seller.own_side() as usize, 1);
}

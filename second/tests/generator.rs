//! The generator meets everything it is there to meet. Without this a change
//! of it could go blind to a rule and every comparison would still agree.

use std::collections::BTreeSet;

use second::account::Standing;
use second::generate::calls::call;
use second::generate::damage::Damage;
use second::generate::{day, Day};
use second::position::{Mark, Side};
use second::posting::post_to;
use second::record::Record;
use second::settlement::{read_prices, settle_book, tonight};
use second::units::{Fen, Lots};
use second::{Book, Refusal};

const SEEDS: std::ops::Range<u64> = 0..4_000;

/// What a range of seeds has met.
#[derive(Default)]
struct Met {
    refusals: BTreeSet<u8>,
    standings: BTreeSet<u8>,
    /// Tonight's reserves at and beside the steps of the standing, by kind.
    steps: BTreeSet<(u8, i128)>,
    /// Refusals that an accepted record, one unit further, would have got.
    accepted_beside: BTreeSet<u8>,
    /// Refusals of records that, one unit less, would have been accepted.
    refused_beside: BTreeSet<u8>,
}

/// The record with its lots or amount moved.
fn moved(record: &Record, step: i64) -> Option<Record> {
    let mut moved = *record;
    match &mut moved {
        Record::Trade(trade) => trade.lots += Lots(step),
        Record::Pairing(pairing) => pairing.lots += Lots(step),
        Record::Withdrawal { amount, .. } => *amount += Fen(i128::from(step)),
        Record::Deposit { .. } | Record::Securities { .. } => return None,
    }
    Some(moved)
}

fn answer(book: &Book, record: &Record) -> u8 {
    match post_to(&mut book.clone(), &record.encode()) {
        Ok(_) => 0,
        Err(refusal) => refusal.number(),
    }
}

/// The book with the reserve of every side that opens moved.
fn with_reserves_moved(book: &Book, record: &Record, step: i128) -> Book {
    let mut book = book.clone();
    if let Record::Trade(trade) = record {
        let parties = trade.parties();
        for party in parties.iter().filter(|party| party.mark == Mark::Opens) {
            book.accounts[party.member].reserve += Fen(step);
        }
    }
    book
}

impl Met {
    fn record(&mut self, book: &mut Book, bytes: &[u8]) {
        let before = book.clone();
        let posted = post_to(book, bytes);
        let number = posted.map_or_else(Refusal::number, |_| 0);
        self.refusals.insert(number);
        let Some(record) = Record::decode(bytes, before.shape()) else {
            return;
        };
        if number == 0 {
            let further = moved(&record, 1).map(|further| answer(&before, &further));
            self.accepted_beside.extend(further.filter(|&one| one > 3));
            let poorer = with_reserves_moved(&before, &record, -1);
            let opened = answer(&poorer, &record) == 3;
            self.accepted_beside.extend(opened.then_some(3));
            let fullest = record.named().into_iter().flatten();
            let mut fullest = fullest.map(|member| before.accounts[member].accepted);
            let last = fullest.any(|accepted| accepted == 19_999);
            self.accepted_beside.extend(last.then_some(2));
        } else if number == 3 {
            let richer = with_reserves_moved(&before, &record, 1);
            let beside = answer(&richer, &record) == 0;
            self.refused_beside.extend(beside.then_some(3));
        } else if let Some(less) = moved(&record, -1) {
            let beside = answer(&before, &less) == 0;
            self.refused_beside.extend(beside.then_some(number));
        }
    }

    fn settlement(&mut self, book: &Book, prices: &[u8]) {
        match settle_book(book, prices) {
            Ok(settled) => {
                let standings = settled.members.iter().map(|one| one.standing as u8);
                self.standings.extend(standings);
                self.refusals.insert(0);
            }
            Err(refusal) => {
                self.refusals.insert(refusal.number());
            }
        }
        if let Ok(pairs) = read_prices(book, prices) {
            for member in 0..book.accounts.len() {
                let reserve = tonight(book, &pairs, member).reserve.0;
                let end = 1_000_000_000_000_000;
                let beside = &mut self.accepted_beside;
                beside.extend((reserve.abs() == end).then_some(9));
                let beside = &mut self.refused_beside;
                beside.extend((reserve.abs() == end + 1).then_some(9));
                let kind = book.accounts[member].kind;
                self.steps.insert((kind as u8, reserve));
            }
        }
    }
}

#[test]
fn every_refusal_standing_and_boundary_is_met() {
    let mut met = Met::default();
    for seed in SEEDS {
        let day = day(seed);
        let mut book = Book::decode(&day.book).unwrap();
        for record in &day.records {
            met.record(&mut book, record);
        }
        met.settlement(&book, &day.prices);
        let text = String::from_utf8(second::evening(&day.file)).unwrap();
        if text.ends_with("settlement refused 10\n") {
            met.refusals.insert(10);
        }
    }
    assert_eq!(met.refusals, (0..=10).collect());
    let standings = [Standing::Full, Standing::NoOpening, Standing::Liquidation];
    assert_eq!(met.standings, standings.map(|one| one as u8).into());
    for (kind, minimum) in [(1, 200_000_000), (2, 50_000_000)] {
        for reserve in [-1, 0, minimum - 1, minimum] {
            assert!(met.steps.contains(&(kind, reserve)), "{kind} {reserve}");
        }
    }
    assert_eq!(met.accepted_beside, [2, 3, 4, 5, 6, 7, 9].into());
    assert_eq!(met.refused_beside, [3, 4, 5, 6, 7, 9].into());
}

#[test]
fn every_settlement_answer_is_met_by_single_calls() {
    let mut answers = BTreeSet::new();
    for seed in 0..1_500 {
        let call = call(seed);
        let mut next = vec![0x77; call.next];
        let mut results = vec![0x88; call.results];
        let answer = second::settle(&call.book, &call.prices, &mut next, &mut results);
        answers.insert(answer);
        if answer == 0 {
            let total = call.book.len();
            assert_eq!(second::check(&next[..total]), 0, "seed {seed}");
            assert!(next[total..].iter().all(|&byte| byte == 0x77));
        } else {
            assert!(next.iter().all(|&byte| byte == 0x77));
            assert!(results.iter().all(|&byte| byte == 0x88));
        }
    }
    assert_eq!(answers, [0, 8, 9, 10, 11].into());
}

#[test]
fn every_book_is_valid_and_stays_so() {
    for seed in SEEDS {
        let Day { book, records, .. } = day(seed);
        let mut decoded = Book::decode(&book).unwrap();
        assert!(decoded.encode() == book, "seed {seed}");
        for record in &records {
            let _ = post_to(&mut decoded, record);
        }
        assert_eq!(second::check(&decoded.encode()), 0, "seed {seed}");
    }
}

#[test]
fn a_seed_gives_one_day() {
    for seed in 0..50 {
        assert!(day(seed).file == day(seed).file);
        assert!(day(seed).file != day(seed + 1).file);
    }
}

#[test]
fn every_damage_and_every_size_is_met() {
    let mut damages = Vec::new();
    let mut sizes = BTreeSet::new();
    let mut calm = 0;
    for seed in SEEDS {
        let day = day(seed);
        damages.extend(day.damage);
        sizes.insert((day.book[0], day.book[2]));
        let settles = second::evening(&day.file).starts_with(b"member");
        calm += u64::from(settles);
    }
    for damage in Damage::ALL {
        assert!(damages.contains(&damage), "{damage:?}");
    }
    for size in [(1, 1), (32, 32), (2, 1), (2, 2)] {
        assert!(sizes.contains(&size), "{size:?}");
    }
    assert!(calm > 100);
}

/// The figures of a book, by name.
fn figures(book: &Book) -> Vec<(&'static str, i128)> {
    let mut figures = Vec::new();
    for contract in &book.contracts {
        figures.push(("last price", i128::from(contract.last_price.0)));
        figures.push(("multiplier", i128::from(contract.multiplier.0)));
        figures.push(("rate", i128::from(contract.margin_rate.0)));
        figures.push(("fee", contract.trade_fee.0));
    }
    for account in &book.accounts {
        figures.push(("accepted", i128::from(account.accepted)));
        figures.push(("reserve", account.reserve.0));
        figures.push(("margin", account.margin.0));
        figures.push(("usable", account.usable.0));
        figures.push(("market value", account.market_value.0));
        figures.push(("deposits", account.deposits.0));
        figures.push(("withdrawals", account.withdrawals.0));
    }
    for position in &book.positions {
        figures.push(("cash sum", position.cash.0));
        figures.push(("traded", i128::from(position.traded.0)));
        for side in Side::BOTH {
            figures.push(("held", i128::from(position[side].held().0)));
            figures.push(("paired", i128::from(position[side].paired.0)));
        }
    }
    figures
}

#[test]
fn damage_to_the_book_alone_makes_it_not_valid() {
    for seed in SEEDS {
        let day = day(seed);
        let of_the_book = [Damage::Unbalanced, Damage::Misstated, Damage::BeyondBound];
        if day
            .damage
            .is_some_and(|damage| of_the_book.contains(&damage))
        {
            let book = &day.file[..day.book.len()];
            assert_eq!(second::check(book), 10, "seed {seed}");
        }
    }
}

#[test]
fn figures_at_the_ends_of_their_ranges_are_met() {
    let mut met = BTreeSet::new();
    for seed in SEEDS {
        let book = Book::decode(&day(seed).book).unwrap();
        met.extend(figures(&book));
    }
    let quadrillion = 1_000_000_000_000_000;
    let wanted = [
        ("last price", 1),
        ("last price", 10_000_000),
        ("multiplier", 100),
        ("rate", 10_000),
        ("fee", 100_000),
        ("accepted", 19_999),
        ("accepted", 20_000),
        ("reserve", quadrillion),
        ("reserve", -quadrillion),
        ("reserve", 49_999_999),
        ("reserve", 50_000_000),
        ("reserve", 200_000_000),
        ("margin", 10 * quadrillion),
        ("usable", quadrillion),
        ("market value", quadrillion),
        ("deposits", 20 * quadrillion),
        ("withdrawals", 20 * quadrillion),
        ("cash sum", 2 * quadrillion),
        ("cash sum", -2 * quadrillion),
        ("traded", 200_000_000),
        ("held", 99_999),
        ("held", 100_000),
        ("paired", 100_000),
    ];
    for end in wanted {
        assert!(met.contains(&end), "{end:?} is not met");
    }
}

//! Measures the library against the second program, in one run, and prints a
//! table.
//!
//! `bench` alone prints the table of the library's functions. `bench evening
//! PROGRAM SECOND` prints one more row, of these two evening programs. `bench
//! count OPERATION SIDE` makes one call of `counted`, for a tool that counts its
//! instructions.

mod counts;
mod evening;
mod processor;

use std::env;
use std::hint::black_box;
use std::process::ExitCode;
use std::time::Instant;

use comparison::answer;
use second::generate::books::{book, Hour, Temper};
use second::generate::random::Random;
use second::layout::{record, Shape};

use crate::counts::{instructions, Run};

/// Calls that are timed together, on one book.
const CALLS: u32 = 32;
/// Timings to a median.
const TIMINGS: usize = 41;
/// Medians, of which the best counts.
const MEDIANS: usize = 40;

const MEMBERS: usize = 32;
const CONTRACTS: usize = 32;

/// What is lent to the calls.
#[derive(Clone)]
struct Lent {
    book: Vec<u8>,
    trade: [u8; record::SIZE],
    withdrawal: [u8; record::SIZE],
    prices: Vec<u8>,
    next: Vec<u8>,
    results: Vec<u8>,
}

type Call = fn(&mut Lent) -> u8;

struct Operation {
    word: &'static str,
    title: &'static str,
    library: Call,
    second: Call,
}

const OPERATIONS: &[Operation] = &[
    Operation {
        word: "check",
        title: "check of a book",
        library: |lent| answer(clearing::check(&lent.book)),
        second: |lent| second::check(&lent.book),
    },
    Operation {
        word: "trade",
        title: "posting of a trade",
        library: |lent| answer(clearing::post(&mut lent.book, &lent.trade)),
        second: |lent| second::post(&mut lent.book, &lent.trade),
    },
    Operation {
        word: "withdrawal",
        title: "posting of a withdrawal",
        library: |lent| answer(clearing::post(&mut lent.book, &lent.withdrawal)),
        second: |lent| second::post(&mut lent.book, &lent.withdrawal),
    },
    Operation {
        word: "settle",
        title: "settlement",
        library: |lent| {
            answer(clearing::settle(
                &lent.book,
                &lent.prices,
                &mut lent.next,
                &mut lent.results,
            ))
        },
        second: |lent| second::settle(&lent.book, &lent.prices, &mut lent.next, &mut lent.results),
    },
];

const USAGE: &str = "usage: bench
       bench evening PROGRAM SECOND
       bench count OPERATION library|second";

fn main() -> ExitCode {
    let arguments: Vec<String> = env::args().skip(1).collect();
    let words: Vec<&str> = arguments.iter().map(String::as_str).collect();
    match words[..] {
        [] => table(),
        ["count", operation, side] => match call_of(operation, side) {
            Some(call) => {
                let mut lent = accepted();
                black_box(counted(call, &mut lent));
            }
            None => return usage(),
        },
        ["evening", library, second] => {
            if let Err(error) = evening::row(library, second) {
                eprintln!("bench: {error}");
                return ExitCode::FAILURE;
            }
        }
        _ => return usage(),
    }
    ExitCode::SUCCESS
}

fn usage() -> ExitCode {
    eprintln!("{USAGE}");
    ExitCode::from(2)
}

fn call_of(operation: &str, side: &str) -> Option<Call> {
    let operation = OPERATIONS.iter().find(|one| one.word == operation)?;
    match side {
        "library" => Some(operation.library),
        "second" => Some(operation.second),
        _ => None,
    }
}

/// The one function whose instructions are counted, with all that it calls.
#[no_mangle]
#[inline(never)]
fn counted(call: Call, lent: &mut Lent) -> u8 {
    black_box(call(lent))
}

/// A full book in mid-day on which every operation is accepted, as often as it
/// is made.
fn accepted() -> Lent {
    (0..)
        .map(lent)
        .find(|lent| {
            let stands = |call: Call| {
                let mut lent = lent.clone();
                (0..CALLS).all(|_| call(&mut lent) == 0)
            };
            stands(|lent| second::post(&mut lent.book, &lent.trade))
                && stands(|lent| second::post(&mut lent.book, &lent.withdrawal))
                && stands(|lent| {
                    second::settle(&lent.book, &lent.prices, &mut lent.next, &mut lent.results)
                })
        })
        .expect("a seed that will do")
}

fn lent(seed: u64) -> Lent {
    let shape = Shape {
        members: MEMBERS,
        contracts: CONTRACTS,
    };
    let book = book(&mut Random::new(seed), shape, Temper::Calm, Hour::MidDay);
    let prices = book.contracts.iter().flat_map(|contract| {
        let price = (contract.last_price.0 as u32).to_le_bytes();
        [price, price].concat()
    });
    let mut trade = [0; record::SIZE];
    trade[record::KIND] = 1;
    trade[record::SECOND_MEMBER] = 1;
    trade[record::A..record::A + 2].copy_from_slice(&[0x88, 0x13]);
    trade[record::B] = 1;
    let mut withdrawal = [0; record::SIZE];
    withdrawal[record::KIND] = 4;
    withdrawal[record::A] = 1;
    Lent {
        trade,
        withdrawal,
        prices: prices.collect(),
        next: vec![0; shape.total()],
        results: vec![0; shape.results()],
        book: book.encode(),
    }
}

/// Prints a line for each operation.
fn table() {
    let lent = accepted();
    let titles = [
        "operation",
        "library µs",
        "second µs",
        "ratio",
        "second over itself",
        "library instructions",
        "second instructions",
        "ratio",
    ];
    println!("| {} |", titles.join(" | "));
    println!("|{}", "---|".repeat(titles.len()));
    for operation in OPERATIONS {
        alike(operation, &lent);
        let [library, second] = measure([operation.library, operation.second], &lent);
        let control = measure([operation.second, operation.second], &lent);
        let counts = ["library", "second"].map(|side| of_one_call(operation.word, side));
        let [library_count, second_count, count_ratio] = counts::fields(counts);
        let fields = [
            operation.title.into(),
            format!("{library:.1}"),
            format!("{second:.1}"),
            ratio(library, second),
            ratio(control[0], control[1]),
            library_count,
            second_count,
            count_ratio,
        ];
        println!("| {} |", fields.join(" | "));
    }
}

fn ratio(library: f64, second: f64) -> String {
    format!("{:.2}", library / second)
}

/// Panics unless both sides do the same with what is lent.
fn alike(operation: &Operation, lent: &Lent) {
    let mut sides = [lent.clone(), lent.clone()];
    let answers = [
        (operation.library)(&mut sides[0]),
        (operation.second)(&mut sides[1]),
    ];
    let [library, second] = sides;
    assert_eq!(answers, [0, 0], "{}", operation.title);
    assert!(
        library.book == second.book
            && library.next == second.next
            && library.results == second.results,
        "{}",
        operation.title
    );
}

/// Microseconds a call: the best of many medians. The sides take turns, in
/// either order and on the same memory.
fn measure(calls: [Call; 2], lent: &Lent) -> [f64; 2] {
    let mut best = [f64::INFINITY; 2];
    let mut used = lent.clone();
    for _ in 0..MEDIANS {
        let mut timings = [Vec::new(), Vec::new()];
        for turn in 0..TIMINGS {
            for side in [turn % 2, 1 - turn % 2] {
                used.book.copy_from_slice(&lent.book);
                timings[side].push(time(calls[side], &mut used));
            }
        }
        for (best, timings) in best.iter_mut().zip(&mut timings) {
            timings.sort_by(f64::total_cmp);
            *best = best.min(timings[TIMINGS / 2]);
        }
    }
    best
}

/// Microseconds a call, over some calls one after the other.
fn time(call: Call, lent: &mut Lent) -> f64 {
    let start = Instant::now();
    for _ in 0..CALLS {
        black_box(call(black_box(lent)));
    }
    start.elapsed().as_secs_f64() * 1e6 / f64::from(CALLS)
}

/// Instructions of one call; none where they cannot be counted.
fn of_one_call(operation: &str, side: &str) -> Option<u64> {
    let program = env::current_exe()
        .ok()?
        .into_os_string()
        .into_string()
        .ok()?;
    let words = [program.as_str(), "count", operation, side];
    instructions(&mut Run {
        words: words.map(String::from).to_vec(),
        function: Some("counted"),
        input: None,
    })
}

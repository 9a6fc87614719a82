//! The long comparisons of the library with the second program.

use std::ops::RangeInclusive;
use std::process::ExitCode;
use std::time::Instant;

use comparison::{archive, checking, posting, settling, Library, Linked, Tally};
use second::comparison::{end, seeds};
use second::generate::full_day;
use second::layout::Shape;

const USAGE: &str = "usage: long [archive] check FIRST LAST
       long [archive] post FIRST LAST
       long [archive] settle FIRST LAST
       long [archive] fields MEMBERS CONTRACTS
       long [archive] full RECORDS

`check`, `post` and `settle` make every call at a bound and the calls of the
seeds FIRST to LAST. `fields` checks books of that size with each of their fields
in turn at and beside each of its bounds. `full` posts the fullest day, with so
many records of each member.

Compared is the library that this program links, which is the archive: with the
word `archive` or without it.";

fn main() -> ExitCode {
    let began = Instant::now();
    let arguments: Vec<String> = std::env::args().skip(1).collect();
    let words: Vec<&str> = arguments.iter().map(String::as_str).collect();
    let name = words.join(" ");
    let tally = match &words[..] {
        ["archive", rest @ ..] => compare(&mut *archive(), rest),
        rest => compare(&mut Linked, rest),
    };
    if tally.is_ok() {
        println!("{name}");
    }
    end("long", &name, began, tally)
}

/// One comparison; why there is none, if there is no such or nothing to compare
/// in it.
fn compare(library: &mut dyn Library, words: &[&str]) -> Result<Tally, String> {
    match *words {
        ["fields", members, contracts] => {
            let shape = shape(members, contracts).ok_or(USAGE)?;
            Ok(checking::fields(library, &[shape]))
        }
        ["full", records] => {
            let records = within(records, 1..=full_day::RECORDS).ok_or(USAGE)?;
            Ok(posting::full_day(library, records))
        }
        [word, first, last] => {
            let (edges, of_seeds) = calls_of(word).ok_or(USAGE)?;
            let seeds = seeds(first, last)?;
            let mut tally = edges(library);
            tally.add(of_seeds(library, seeds));
            Ok(tally)
        }
        _ => Err(USAGE.into()),
    }
}

type Edges = fn(&mut dyn Library) -> Tally;
type OfSeeds = fn(&mut dyn Library, RangeInclusive<u64>) -> Tally;

/// The comparisons of one function, with every call at a bound and with the
/// calls of seeds.
fn calls_of(word: &str) -> Option<(Edges, OfSeeds)> {
    match word {
        "check" => Some((checking::edges, checking::seeds)),
        "post" => Some((posting::edges, posting::seeds)),
        "settle" => Some((settling::edges, settling::seeds)),
        _ => None,
    }
}

fn shape(members: &str, contracts: &str) -> Option<Shape> {
    Some(Shape {
        members: within(members, 1..=32)?,
        contracts: within(contracts, 1..=32)?,
    })
}

fn within(word: &str, range: RangeInclusive<usize>) -> Option<usize> {
    word.parse().ok().filter(|number| range.contains(number))
}

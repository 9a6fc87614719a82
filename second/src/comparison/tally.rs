//! What a comparison has seen so far.

use std::collections::{BTreeMap, BTreeSet};
use std::fmt;
use std::ops::RangeInclusive;

/// So many differences are described; the others are counted.
pub const DESCRIBED: usize = 100;

/// The numbers that a call or an evening may answer.
pub const NUMBERS: RangeInclusive<u8> = 0..=11;

/// What was answered; or, where there is no answer or it cannot count, why not.
pub type Answer = Result<u8, String>;

/// What is compared.
#[derive(Clone, Copy, PartialEq, Eq, Debug)]
pub enum Compared {
    /// Calls of a library.
    Calls,
    /// Runs of an evening program, each on one day.
    Days,
}

impl Compared {
    /// What is counted.
    pub fn counted(self) -> &'static str {
        match self {
            Compared::Calls => "calls",
            Compared::Days => "days",
        }
    }

    /// What is held against the second program.
    fn other(self) -> &'static str {
        match self {
            Compared::Calls => "library",
            Compared::Days => "program",
        }
    }
}

#[derive(Clone, Debug)]
pub struct Tally {
    pub compared: Compared,
    /// How many calls or days there were.
    pub count: u64,
    /// Bytes compared: all that was lent to the calls, as it stood after them,
    /// or all that the second program printed.
    pub bytes: u64,
    /// How often each number was answered, by what is compared and by the
    /// second program. An evening answers a number a refusal, and 0 where it is
    /// settled.
    pub other: BTreeMap<u8, u64>,
    pub second: BTreeMap<u8, u64>,
    /// How many there were of each sort, where there are several.
    pub sorts: BTreeMap<&'static str, u64>,
    pub differences: u64,
    /// The first differences, each with the name of its call or day.
    pub described: Vec<String>,
}

impl Tally {
    pub fn of(compared: Compared) -> Tally {
        Tally {
            compared,
            count: 0,
            bytes: 0,
            other: BTreeMap::new(),
            second: BTreeMap::new(),
            sorts: BTreeMap::new(),
            differences: 0,
            described: Vec::new(),
        }
    }

    /// Takes in one call: what the library and the second program answered,
    /// whether all lent bytes stood alike after it, and how many they were.
    pub fn call(
        &mut self,
        name: impl FnOnce() -> String,
        answer: Answer,
        expected: u8,
        same: bool,
        bytes: usize,
    ) {
        *self.second.entry(expected).or_default() += 1;
        if let Ok(number) = answer {
            *self.other.entry(number).or_default() += 1;
        }
        let what = match answer {
            Err(why) => Some(why),
            Ok(number) if number != expected => Some(format!(
                "the library answers {number}, the second program {expected}"
            )),
            Ok(number) if !same => Some(format!("answer {number}, and the bytes differ")),
            Ok(_) => None,
        };
        self.take(name, what, bytes);
    }

    /// Counts one call or day, and what differs in it, if anything does.
    pub fn take(&mut self, name: impl FnOnce() -> String, what: Option<String>, bytes: usize) {
        self.count += 1;
        self.bytes += bytes as u64;
        let Some(what) = what else { return };
        self.differences += 1;
        if self.described.len() < DESCRIBED {
            self.described.push(format!("{}\n  {what}", name()));
        }
    }

    /// Counts so many under a sort.
    pub fn sort(&mut self, sort: &'static str, count: u64) {
        *self.sorts.entry(sort).or_default() += count;
    }

    /// Takes in another comparison.
    pub fn add(&mut self, other: Tally) {
        self.count += other.count;
        self.bytes += other.bytes;
        self.differences += other.differences;
        add_counts(&mut self.other, other.other);
        add_counts(&mut self.second, other.second);
        add_counts(&mut self.sorts, other.sorts);
        self.described.extend(other.described);
        self.described.truncate(DESCRIBED);
    }

    /// Panics, naming the calls, if there was a difference.
    pub fn assert_same(&self, of: &str) {
        assert!(self.differences == 0, "{of}:\n{self}");
    }

    /// Panics unless each of these numbers, and no other, was answered on both
    /// sides.
    pub fn assert_answers(&self, of: &str, numbers: &[u8]) {
        for answers in [&self.other, &self.second] {
            let met: Vec<u8> = answers.keys().copied().collect();
            assert!(met == numbers, "{of}:\n{self}");
        }
    }
}

fn add_counts<Key: Ord>(table: &mut BTreeMap<Key, u64>, counts: BTreeMap<Key, u64>) {
    for (key, count) in counts {
        *table.entry(key).or_default() += count;
    }
}

/// How often a number was answered.
pub fn times(answers: &BTreeMap<u8, u64>, number: u8) -> u64 {
    answers.get(&number).copied().unwrap_or(0)
}

impl Tally {
    /// Writes all but the number of differences, with which a summary ends.
    pub(super) fn write_seen(&self, to: &mut fmt::Formatter) -> fmt::Result {
        for difference in &self.described {
            writeln!(to, "differs at {difference}")?;
        }
        writeln!(to, "{} {}", self.compared.counted(), self.count)?;
        for (sort, count) in &self.sorts {
            writeln!(to, "{sort} {count}")?;
        }
        writeln!(to, "bytes compared {}", self.bytes)?;
        let side = self.compared.other();
        let numbers: BTreeSet<&u8> = self.other.keys().chain(self.second.keys()).collect();
        for &number in numbers {
            let (other, second) = (times(&self.other, number), times(&self.second, number));
            writeln!(
                to,
                "answer {number}: {side} {other}, second program {second}"
            )?;
        }
        Ok(())
    }
}

impl fmt::Display for Tally {
    fn fmt(&self, to: &mut fmt::Formatter) -> fmt::Result {
        self.write_seen(to)?;
        write!(to, "differences {}", self.differences)
    }
}

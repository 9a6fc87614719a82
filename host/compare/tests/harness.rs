//! The comparisons themselves: they report nothing of a library that is right,
//! and find each of some that are wrong.

use comparison::{checking, posting, settling, Answer, Evening, Library, Second, Tally, DESCRIBED};
use second::layout::Shape;

const CHECKED: std::ops::RangeInclusive<u64> = 0..=399;
const POSTED: std::ops::RangeInclusive<u64> = 0..=199;
const SETTLED: std::ops::RangeInclusive<u64> = 0..=399;

fn sizes() -> [Shape; 1] {
    [Shape {
        members: 2,
        contracts: 2,
    }]
}

#[test]
fn the_second_program_does_not_differ_from_itself() {
    let tallies = [
        checking::seeds(&mut Second, CHECKED),
        checking::edges(&mut Second),
        checking::fields(&mut Second, &sizes()),
        posting::seeds(&mut Second, POSTED),
        posting::edges(&mut Second),
        settling::seeds(&mut Second, SETTLED),
        settling::edges(&mut Second),
    ];
    for tally in tallies {
        tally.assert_same("the second program");
        assert!(tally.count > 400 && tally.bytes > 100_000, "{tally}");
        assert_eq!(tally.other, tally.second);
    }
}

#[test]
fn every_number_is_met() {
    let of = "the second program";
    checking::seeds(&mut Second, CHECKED).assert_answers(of, &[0, 10]);
    posting::seeds(&mut Second, 0..=999).assert_answers(of, &[0, 1, 2, 3, 4, 5, 6, 7, 10]);
    settling::seeds(&mut Second, SETTLED).assert_answers(of, &[0, 8, 9, 10, 11]);
}

type Check = fn(&[u8]) -> Answer;
type Post = fn(&mut [u8], &[u8]) -> Answer;
type Settle = fn(&[u8], &[u8], &mut [u8], &mut [u8]) -> Answer;

/// A library that is wrong: each function is the second program's unless it is
/// replaced.
struct Wrong {
    check: Check,
    post: Post,
    settle: Settle,
}

const RIGHT: Wrong = Wrong {
    check: |book| Ok(second::check(book)),
    post: |book, record| Ok(second::post(book, record)),
    settle: |book, prices, next, results| Ok(second::settle(book, prices, next, results)),
};

impl Library for Wrong {
    fn check(&mut self, book: &[u8]) -> Answer {
        (self.check)(book)
    }

    fn post(&mut self, book: &mut [u8], record: &[u8]) -> Answer {
        (self.post)(book, record)
    }

    fn settle(&mut self, lent: Evening) -> Answer {
        (self.settle)(lent.book, lent.prices, lent.next, lent.results)
    }
}

/// The differences are counted, the first of them described, and all panic.
fn found(what: &str, tally: Tally) {
    assert!(tally.differences > 0, "{what} is not found");
    assert_eq!(
        tally.described.len() as u64,
        tally.differences.min(DESCRIBED as u64)
    );
    let raised = std::panic::catch_unwind(|| tally.assert_same(what));
    assert!(raised.is_err(), "{what} is found and not raised");
}

#[test]
fn wrong_checks_are_found() {
    let wrong: [(&str, Check); 7] = [
        ("all are valid", |_| Ok(0)),
        ("none is valid", |_| Ok(10)),
        ("another number", |book| {
            Ok(if second::check(book) == 0 { 0 } else { 1 })
        }),
        ("no answer", |_| Err("no answer".into())),
        ("bytes after the book are let pass", |book| {
            let total = book.get(4..8).map_or(0, |field| {
                u32::from_le_bytes([field[0], field[1], field[2], field[3]]) as usize
            });
            Ok(second::check(book.get(..total).unwrap_or(book)))
        }),
        ("the discount may be 8,001", |book| {
            let mut book = book.to_vec();
            for row in rows_of_accounts(&book) {
                let at = row + 40;
                if book[at..at + 8] == 8_001u64.to_le_bytes() {
                    book[at] -= 1;
                }
            }
            Ok(second::check(&book))
        }),
        ("the last zero of a row is not looked at", |book| {
            let mut book = book.to_vec();
            if let Some(start) = book.len().checked_sub(4) {
                book[start..].fill(0);
            }
            Ok(second::check(&book))
        }),
    ];
    for (what, check) in wrong {
        let mut library = Wrong { check, ..RIGHT };
        let mut tally = checking::seeds(&mut library, CHECKED);
        tally.add(checking::edges(&mut library));
        tally.add(checking::fields(&mut library, &sizes()));
        found(what, tally);
    }
}

/// Where the rows of section 2 begin, as far as they are there.
fn rows_of_accounts(book: &[u8]) -> Vec<usize> {
    if book.len() < 32 {
        return Vec::new();
    }
    let members = usize::from(book[0]);
    let contracts = usize::from(book[2]);
    let starts = (0..members).map(|member| 32 + 24 * contracts + 64 * member);
    starts.filter(|start| start + 64 <= book.len()).collect()
}

#[test]
fn wrong_postings_are_found() {
    let wrong: [(&str, Post); 7] = [
        ("all are accepted and nothing is posted", |_, _| Ok(0)),
        ("all are refused", |_, _| Ok(1)),
        ("the right answer and nothing posted", |book, record| {
            Ok(second::post(&mut book.to_vec(), record))
        }),
        ("a refusal writes a byte", |book, record| {
            let answer = second::post(book, record);
            if let (4, Some(last)) = (answer, book.last_mut()) {
                *last ^= 1;
            }
            Ok(answer)
        }),
        ("the record comes before the book", |book, record| {
            if record.len() != 24 {
                return Ok(1);
            }
            Ok(second::post(book, record))
        }),
        ("accepted records are not counted", |book, record| {
            let before = book.to_vec();
            let answer = second::post(book, record);
            for row in rows_of_accounts(&before) {
                book[row + 4..row + 8].copy_from_slice(&before[row + 4..row + 8]);
            }
            Ok(answer)
        }),
        ("a longer record is read at its front", |book, record| {
            Ok(second::post(book, &record[..record.len().min(24)]))
        }),
    ];
    for (what, post) in wrong {
        let mut library = Wrong { post, ..RIGHT };
        let mut tally = posting::seeds(&mut library, POSTED);
        tally.add(posting::edges(&mut library));
        found(what, tally);
    }
}

#[test]
fn wrong_settlements_are_found() {
    let wrong: [(&str, Settle); 7] = [
        ("settled, and nothing written", |_, _, _, _| Ok(0)),
        ("all are refused", |_, _, _, _| Ok(9)),
        ("no next book", |book, prices, next, results| {
            Ok(second::settle(book, prices, &mut next.to_vec(), results))
        }),
        ("no results", |book, prices, next, results| {
            Ok(second::settle(book, prices, next, &mut results.to_vec()))
        }),
        ("room beyond is cleared", |book, prices, next, results| {
            let answer = second::settle(book, prices, next, results);
            if answer == 0 {
                next[book.len()..].fill(0);
            }
            Ok(answer)
        }),
        ("a refusal writes a byte", |book, prices, next, results| {
            let answer = second::settle(book, prices, next, results);
            if let (11, Some(first)) = (answer, results.first_mut()) {
                *first ^= 1;
            }
            Ok(answer)
        }),
        (
            "the room comes before the prices",
            |book, prices, next, results| {
                let valid = second::check(book) == 0;
                if valid && (next.len() < book.len() || results.len() < 72 * usize::from(book[0])) {
                    return Ok(11);
                }
                Ok(second::settle(book, prices, next, results))
            },
        ),
    ];
    for (what, settle) in wrong {
        let mut library = Wrong { settle, ..RIGHT };
        found(what, settling::seeds(&mut library, SETTLED));
    }
}

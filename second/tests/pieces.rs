//! The days at and beside the length of a piece are what they are said to be.

use second::generate::pieces::{days, file, LENGTHS, PIECE};

/// The places of the refused records, and the numbers that they got.
fn refusals(file: &[u8]) -> Vec<(usize, u8)> {
    let text = String::from_utf8(second::evening(file)).unwrap();
    let lines = text.lines().filter(|line| line.starts_with("refused "));
    let words = lines.map(|line| line.split(' ').collect::<Vec<_>>());
    words
        .map(|words| (words[1].parse().unwrap(), words[2].parse().unwrap()))
        .collect()
}

#[test]
fn every_piece_has_refusals_throughout() {
    assert_eq!(PIECE, 2_730);
    for records in LENGTHS {
        let refusals = refusals(&file(records));
        let places: Vec<usize> = refusals.iter().map(|&(place, _)| place).collect();
        for first in (0..records).step_by(PIECE) {
            let last = records.min(first + PIECE) - 1;
            assert!(places.contains(&first), "{records}: {first}");
            assert!(places.contains(&last), "{records}: {last}");
            for hundred in (first..last).step_by(100) {
                let beyond = last.min(hundred + 100);
                let some = (hundred + 1..beyond).any(|place| places.contains(&place));
                assert!(some || beyond - hundred < 100, "{records}: {hundred}");
            }
        }
        assert!(
            places.len() < records * 3 / 4,
            "{records}: too few accepted"
        );
    }
}

#[test]
fn the_ends_of_pieces_are_refused_for_several_reasons() {
    let at_an_end = |place: usize| [0, PIECE - 1].contains(&(place % PIECE));
    let refusals: Vec<(usize, u8)> = LENGTHS
        .iter()
        .flat_map(|&records| refusals(&file(records)))
        .filter(|&(place, _)| at_an_end(place))
        .collect();
    for number in [1, 6, 7] {
        assert!(refusals.iter().any(|&(_, got)| got == number), "{number}");
    }
}

#[test]
fn whole_days_settle_and_broken_ones_do_not() {
    let days = days();
    assert_eq!(days.len(), LENGTHS.len() + 5 * 3);
    for day in days {
        let text = String::from_utf8(second::evening(&day.file)).unwrap();
        let settles = text.contains("\nmember ");
        assert_eq!(settles, !day.name.contains("cut"), "{}", day.name);
    }
}

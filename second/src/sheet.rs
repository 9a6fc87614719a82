//! The sheet: the evening's results as text.

use crate::settlement::Tonight;

const TITLES: &str = "member pnl fee margin usable reserve withdrawable call standing\n";

/// A line of titles, then a line a member.
pub fn sheet(members: &[Tonight]) -> String {
    let mut text = String::from(TITLES);
    for (member, tonight) in members.iter().enumerate() {
        let fields = tonight.fields(member).map(|field| field.to_string());
        text.push_str(&fields.join(" "));
        text.push('\n');
    }
    text
}

/// The line of a refused record, by its place in the day.
pub fn record_refused(place: usize, number: u8) -> String {
    format!("refused {place} {number}\n")
}

/// The line of a refused settlement.
pub fn settlement_refused(number: u8) -> String {
    format!("settlement refused {number}\n")
}

//! One evening: reads a day file (`docs/FORMAT.md`) from standard input, posts
//! its records, settles, and prints the refusals and the sheet.

use std::error::Error;
use std::io::{self, Read, Write};

const RECORD: usize = 24;
const RESULT: usize = 72;
const HEADER: &str = "member pnl fee margin usable reserve withdrawable call standing";

fn main() -> Result<(), Box<dyn Error>> {
    let mut day = Vec::new();
    io::stdin().lock().read_to_end(&mut day)?;
    let [mut book, records, prices] = parts(day).ok_or("the day file ends too early")?;
    let mut out = io::stdout().lock();
    for (place, record) in records.chunks(RECORD).enumerate() {
        if let Err(refusal) = clearing::post(&mut book, record) {
            writeln!(out, "refused {place} {}", refusal.number())?;
        }
    }
    let mut next = vec![0; book.len()];
    let mut results = vec![0; RESULT * usize::from(book[0])];
    match clearing::settle(&book, &prices, &mut next, &mut results) {
        Ok(()) => print_sheet(&mut out, &results)?,
        Err(refusal) => writeln!(out, "settlement refused {}", refusal.number())?,
    }
    Ok(())
}

/// The book, the records and the prices; none if the file ends before them.
fn parts(mut day: Vec<u8>) -> Option<[Vec<u8>; 3]> {
    let number = |at: usize| {
        let bytes = day.get(at..at + 4)?.try_into().ok()?;
        usize::try_from(u32::from_le_bytes(bytes)).ok()
    };
    let total = number(4).filter(|&total| total >= 32)?;
    let end = total + 4 + RECORD * number(total)?;
    if end > day.len() {
        return None;
    }
    let prices = day.split_off(end);
    let records = day.split_off(total + 4);
    day.truncate(total);
    Some([day, records, prices])
}

fn print_sheet(out: &mut impl Write, results: &[u8]) -> io::Result<()> {
    writeln!(out, "{HEADER}")?;
    for row in results.chunks_exact(RESULT) {
        let fields = row.chunks_exact(8).map(|field| {
            let bytes = field.try_into().expect("a field of eight bytes");
            i64::from_le_bytes(bytes).to_string()
        });
        writeln!(out, "{}", fields.collect::<Vec<_>>().join(" "))?;
    }
    Ok(())
}

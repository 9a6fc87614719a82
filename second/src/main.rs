//! The evening program: reads a day file from standard input and prints the
//! refused records and the sheet.

use std::io::{self, Read, Write};

fn main() {
    let mut input = Vec::new();
    // What could be read is settled as it stands; an input that breaks off is
    // a short input.
    let _ = io::stdin().lock().read_to_end(&mut input);
    let output = second::evening(&input);
    // Nobody is left to be told when standard output is gone.
    let mut standard_output = io::stdout().lock();
    let _ = standard_output.write_all(&output);
    let _ = standard_output.flush();
}

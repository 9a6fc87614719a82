//! Instructions as valgrind's callgrind counts them.

use std::process::{Command, Stdio};

/// Instructions of a program's run on an input, or of one function of it and
/// all that it calls; none where valgrind is not there.
pub fn instructions(run: &mut Run) -> Option<u64> {
    let mut valgrind = Command::new("valgrind");
    valgrind.args(["--tool=callgrind", "--callgrind-out-file=/dev/null"]);
    if let Some(function) = run.function {
        valgrind.arg("--collect-atstart=no");
        valgrind.arg(format!("--toggle-collect={function}"));
    }
    let ran = valgrind
        .args(&run.words)
        .stdin(run.input.take().unwrap_or_else(Stdio::null))
        .output()
        .ok()?;
    let said = String::from_utf8_lossy(&ran.stderr).into_owned();
    let line = said.lines().find(|line| line.contains("Collected :"))?;
    line.rsplit(' ').next()?.parse().ok()
}

/// What is run: the program and its words, and the one function of it that
/// counts, if not all do.
pub struct Run {
    pub words: Vec<String>,
    pub function: Option<&'static str>,
    pub input: Option<Stdio>,
}

/// The last three fields of a row: both sides' counts and their ratio.
pub fn fields(counts: [Option<u64>; 2]) -> [String; 3] {
    let [library, second] = counts.map(|count| match count {
        Some(count) => count.to_string(),
        None => "not counted".into(),
    });
    let ratio = match counts {
        [Some(library), Some(second)] => crate::ratio(library as f64, second as f64),
        _ => String::new(),
    };
    [library, second, ratio]
}

//! What the program of the long comparisons prints, and how it ends.

use std::process::{Command, Output};

fn long(words: &str) -> Output {
    Command::new(env!("CARGO_BIN_EXE_long"))
        .args(words.split(' '))
        .output()
        .expect("the program of this package")
}

#[test]
fn a_summary_is_printed() {
    for words in ["check 5 9", "fields 1 2", "archive check 5 9"] {
        let ran = long(words);
        let text = String::from_utf8(ran.stdout).expect("text");
        assert_eq!(ran.status.code(), Some(0), "{text}");
        assert!(text.starts_with(words), "{text}");
        for start in ["calls ", "bytes compared ", "answer 0: ", "answer 10: "] {
            assert!(text.lines().any(|line| line.starts_with(start)), "{text}");
        }
        assert!(text.ends_with("differences 0\n"), "{text}");
        let row = format!("| `{words}` | ");
        assert!(text.lines().any(|line| line.starts_with(&row)), "{text}");
    }
}

#[test]
fn what_cannot_be_compared_is_not_taken_for_the_same() {
    for words in [
        "check 9 5",
        "check 1",
        "check a b",
        "fields 0 1",
        "fields 1 33",
        "other 1 2",
        "full 0",
        "full 20001",
        "archive",
    ] {
        let ran = long(words);
        assert_eq!(ran.status.code(), Some(2), "{words}");
        assert!(ran.stdout.is_empty() && !ran.stderr.is_empty(), "{words}");
    }
    let said = String::from_utf8(long("check 9 5").stderr).expect("text");
    assert_eq!(said, "long: no seeds to compare from 9 to 5\n");
}

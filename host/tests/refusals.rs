//! The table of refusal numbers has one source, the README of the repository.
//! The header, the documentation of this package and what a refusal says agree
//! with it.

use std::collections::BTreeMap;

use clearing::Refusal;

const README: &str = include_str!("../../README.md");
const HEADER: &str = include_str!("../../include/clearing.h");
const LIBRARY: &str = include_str!("../src/lib.rs");

type Table = BTreeMap<u8, String>;

/// The rows `| number | words |` of the lines after a heading, each line with
/// this before it.
fn rows(text: &str, before: &str, heading: &str) -> Table {
    let lines = text.lines().skip_while(|line| !line.contains(heading));
    let rows = lines.filter_map(|line| {
        let cells = line.strip_prefix(before)?.strip_prefix("| ")?;
        let (number, words) = cells.strip_suffix(" |")?.split_once(" | ")?;
        Some((number.parse().ok()?, words.to_string()))
    });
    rows.take(12).collect()
}

fn source() -> Table {
    rows(README, "", "## Refusal numbers")
}

/// A header has no minus sign; a comment may fall on several lines.
fn plain(words: &str) -> String {
    let words: Vec<&str> = words.split_whitespace().collect();
    words.join(" ").replace('−', "-")
}

/// The header's constants of its first part, each with the comment before it.
fn constants() -> BTreeMap<u8, (String, String)> {
    let part = HEADER
        .split("/* ---- ")
        .find(|part| part.starts_with("refusal numbers"))
        .expect("the part of refusal numbers");
    let defined = part.split("/* ").skip(1).map(|one| {
        let (comment, rest) = one.split_once("*/").expect("a comment that ends");
        let line = rest.trim().strip_prefix("#define CLEARING_");
        let (name, number) = line.and_then(|line| line.split_once(' ')).expect(one);
        let number = number.parse().expect("a number");
        (number, (name.to_string(), plain(comment)))
    });
    defined.collect()
}

#[test]
fn the_source_has_every_number() {
    let numbers: Vec<u8> = source().into_keys().collect();
    assert_eq!(numbers, (0..=11).collect::<Vec<u8>>());
}

#[test]
fn the_documentation_of_this_package_agrees() {
    assert_eq!(rows(LIBRARY, "//! ", "//! | no. |"), source());
}

#[test]
fn what_a_refusal_says_agrees() {
    let said: Table = Refusal::ALL
        .iter()
        .map(|refusal| (refusal.number(), refusal.to_string()))
        .collect();
    let expected: Table = source()
        .into_iter()
        .skip(1)
        .map(|(number, words)| (number, format!("refused {number}: {words}")))
        .collect();
    assert_eq!(said, expected);
}

#[test]
fn the_header_agrees() {
    let words: Table = constants()
        .into_iter()
        .map(|(number, (_, words))| (number, words))
        .collect();
    let expected: Table = source()
        .into_iter()
        .map(|(number, words)| (number, plain(&words)))
        .collect();
    assert_eq!(words, expected);
}

#[test]
fn the_names_in_c_are_the_names_in_rust() {
    let constants = constants();
    assert_eq!(constants[&0].0, "ACCEPTED");
    for refusal in Refusal::ALL {
        let name = constants[&refusal.number()].0.replace('_', "");
        assert_eq!(name, format!("{refusal:?}").to_uppercase());
    }
}

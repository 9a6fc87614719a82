//! The modules stand on one another without circles, so that each can be read
//! after those that it stands on.

use std::collections::{BTreeMap, BTreeSet};
use std::fs;
use std::path::Path;

/// Each module of `src`, a folder being one, and those whose names stand in it
/// after `crate::`. The library's own file and the programs are none.
fn uses() -> BTreeMap<String, BTreeSet<String>> {
    let mut uses = BTreeMap::new();
    for entry in fs::read_dir(Path::new(env!("CARGO_MANIFEST_DIR")).join("src")).unwrap() {
        let path = entry.unwrap().path();
        let name = path.file_stem().unwrap().to_str().unwrap().to_string();
        if !["lib", "main", "bin"].contains(&name.as_str()) {
            let mut used = names_after_crate(&text_of(&path));
            used.remove(&name);
            uses.insert(name, used);
        }
    }
    uses
}

/// The text of a file, or of all files of a folder.
fn text_of(path: &Path) -> String {
    if path.is_file() {
        return fs::read_to_string(path).unwrap();
    }
    let entries = fs::read_dir(path).unwrap();
    entries
        .map(|entry| text_of(&entry.unwrap().path()))
        .collect()
}

fn names_after_crate(text: &str) -> BTreeSet<String> {
    let name = |rest: &str| {
        let ends = |letter: char| !letter.is_ascii_lowercase() && letter != '_';
        rest.split(ends).next().unwrap_or_default().to_string()
    };
    text.split("crate::").skip(1).map(name).collect()
}

#[test]
fn no_module_stands_on_one_that_stands_on_it() {
    let mut left = uses();
    assert!(left.len() > 15 && left["validity"].contains("book"));
    loop {
        let names: BTreeSet<String> = left.keys().cloned().collect();
        left.retain(|_, used| !used.is_disjoint(&names));
        if left.len() == names.len() {
            break;
        }
    }
    assert!(left.is_empty(), "in circles, or above them: {left:?}");
}

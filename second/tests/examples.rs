//! The examples: every table is its packed text, and its output is the one stored beside it.

mod common;

use common::*;
use second::judge::{judge, Judgement};
use second::output::check;
use second::text::pack;
use std::fs;
use std::path::PathBuf;

fn folder() -> PathBuf {
    PathBuf::from(env!("CARGO_MANIFEST_DIR")).join("../examples")
}

fn file(name: &str, ending: &str) -> Vec<u8> {
    let path = folder().join(format!("{name}.{ending}"));
    fs::read(&path).unwrap_or_else(|error| panic!("{}: {error}", path.display()))
}

/// The names of the examples: every file there is one of three with its name. Folders have programs.
fn names() -> Vec<String> {
    let mut names = Vec::new();
    for entry in fs::read_dir(folder()).expect("the examples") {
        let path = entry.expect("a file").path();
        if path.is_dir() {
            continue;
        }
        let name = path
            .file_stem()
            .expect("a name")
            .to_string_lossy()
            .to_string();
        match path.extension().and_then(|ending| ending.to_str()) {
            Some("text" | "table" | "expected") => names.push(name),
            _ => panic!("{} is no part of an example", path.display()),
        }
    }
    names.sort();
    names.dedup();
    names
}

#[test]
fn all_examples_are_there() {
    let expected = [
        "a",
        "alternating-bit",
        "b",
        "c",
        "recall",
        "recall-repaired",
    ];
    assert_eq!(names(), expected);
}

#[test]
fn every_table_is_its_packed_text() {
    for name in names() {
        let packed = pack(&file(&name, "text")).unwrap_or_else(|error| panic!("{name}: {error}"));
        assert_eq!(file(&name, "table"), packed, "{name}");
    }
}

#[test]
fn every_output_is_the_expected_one() {
    for name in names() {
        let expected = String::from_utf8(file(&name, "expected")).expect("plain text");
        assert_eq!(check(&file(&name, "table")), expected, "{name}");
    }
}

/// Each text says at its top which verdict to expect, in the words of the output's first line.
#[test]
fn every_text_says_its_verdict() {
    for name in names() {
        let text = String::from_utf8(file(&name, "text")).expect("plain text");
        let output = check(&file(&name, "table"));
        let said = text
            .lines()
            .find_map(|line| line.strip_prefix("# Expected: "))
            .expect("an expected verdict");
        let verdict = said.split(['.', ',']).next().expect("a verdict");
        assert!(output.starts_with(&format!("{verdict} ")), "{name}: {said}");
        assert!(text.starts_with("# "), "{name}");
    }
}

#[test]
fn the_rules_own_examples() {
    for (name, table) in [("a", example_a()), ("b", example_b()), ("c", example_c())] {
        assert_eq!(file(name, "table"), table, "{name}");
    }
}

/// The safe ones once more: the judge accepts their rows, and exploring finds nothing outside them.
#[test]
fn safe_examples_hold() {
    for name in ["alternating-bit", "b", "recall-repaired"] {
        let table = file(name, "table");
        let searched = searched(&table, 256);
        let list = written(&table, &searched);
        assert_eq!(judge(&table, &list), Ok(Judgement::Accepted), "{name}");

        let (system, rows) = (System::of(&table), searched.rows());
        let mut seen = std::collections::HashSet::from([system.start()]);
        let mut open = vec![system.start()];
        while let Some(from) = open.pop() {
            assert!(!system.bad.contains(&from.state), "{name}");
            assert!(system.is_in_some_row(&from, &rows), "{name}: {from:?}");
            for to in system.steps(&from) {
                let short = to.contents.iter().all(|word| word.len() <= 3);
                if short && seen.insert(to.clone()) {
                    open.push(to);
                }
            }
        }
        assert!(name == "b" || seen.len() > 200, "{name}: {}", seen.len());
    }
}

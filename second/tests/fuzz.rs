//! Longer runs of the comparisons: right answers pass, and a difference is found and made small.

mod common;

use common::{numbers, words, Changed};
use second::calls::{Call, Function, Lent, Library, Reply};
use second::compare::{BATCH, COMPARISONS};
use second::fuzz::{fuzz, Wanted};
use std::io;

/// Whether all is well, and what is printed.
fn fuzzed(cases: usize, change: fn(&Call, &mut Reply)) -> (bool, String) {
    let mut out = Vec::new();
    let well = fuzz(&mut Changed(change), cases, 11, &mut out).expect("replies");
    (well, String::from_utf8(out).expect("plain text"))
}

/// The lines that tell what was lent to the call that is printed, when there is a difference.
fn smallest(change: fn(&Call, &mut Reply)) -> Vec<String> {
    let (well, out) = fuzzed(20_000, change);
    assert!(!well, "{out}");
    let lent = out.lines().filter_map(|line| line.strip_prefix("  lent "));
    lent.map(|lent| lent.trim().to_string()).collect()
}

#[test]
fn right_answers_pass_and_the_seed_is_told() {
    let (well, out) = fuzzed(10_000, |_, _| {});
    assert!(well);
    let told = "fuzz: seed 11, 10000 cases\nfuzz: all 10000 cases, none differs (seed 11)\n";
    assert_eq!(out, told);
}

#[test]
fn no_cases_are_none_that_differ() {
    assert!(fuzzed(0, |_, reply| reply.answer += 1).0);
}

/// A number of cases that is no multiple of a batch is tried to its end.
#[test]
fn the_last_case_is_tried() {
    let (well, out) = fuzzed(1, |_, reply| reply.answer += 1);
    assert!(!well);
    assert!(out.contains("differs\n"), "{out}");
}

/// A library that answers rightly and remembers what was called.
struct Remembers(Vec<Function>);

impl Library for Remembers {
    fn replies(&mut self, calls: &[Call]) -> io::Result<Vec<Reply>> {
        self.0.extend(calls.iter().map(|call| call.function));
        Ok(calls.iter().map(Call::reply).collect())
    }
}

#[test]
fn every_function_is_tried() {
    let mut library = Remembers(Vec::new());
    let cases = COMPARISONS.len() * BATCH;
    assert!(fuzz(&mut library, cases, 1, &mut io::sink()).expect("replies"));
    assert_eq!(library.0.len(), cases);
    for comparison in COMPARISONS {
        assert!(library.0.contains(&comparison.case(1, 0).function));
    }
}

/// Wrong for every good table with two transitions or more: a header and two transitions are left.
#[test]
fn a_table_is_left_with_the_records_that_matter() {
    let lent = smallest(|call, reply| {
        if call.function == Function::CheckTable && reply.answer == 0 {
            let out = numbers(reply);
            out[2] += u64::from(out[1] >= 2);
        }
    });
    // Two hex digits a byte.
    assert_eq!(lent[0].len(), 2 * (10 + 2 * 12), "{lent:?}");
}

/// Wrong where a search makes three rows or more: its work table is left with room for three.
#[test]
fn a_work_table_is_left_with_the_rows_that_matter() {
    let lent = smallest(|call, reply| {
        if call.function == Function::Search && reply.answer < 4 && numbers(reply)[0] >= 3 {
            numbers(reply)[0] += 1;
        }
    });
    let (work, run) = (&lent[1], &lent[2]);
    assert_eq!(work.split(' ').count(), 3 * 103, "{work}");
    assert_eq!(run.split(' ').count(), 2 * 3, "{run}");
}

/// Wrong where a run of at least two words gets stuck.
#[test]
fn a_run_is_left_with_the_words_that_matter() {
    let lent = smallest(|call, reply| {
        if call.function == Function::Replay && words(&call.lent[1]).len() >= 2 {
            reply.answer += u32::from(reply.answer == 2);
        }
    });
    assert_eq!(lent[0].len(), 2 * 10, "a header alone: {lent:?}");
    assert_eq!(lent[1].split(' ').count(), 2, "{lent:?}");
}

/// Wrong for a receive of message 3 or more: 3 is left, and no atom.
#[test]
fn a_number_is_lowered() {
    let lent = smallest(|call, reply| {
        if let (Function::Receive, Lent::Numbers(message)) = (call.function, &call.lent[1]) {
            reply.answer += u32::from(message[0] >= 3);
        }
    });
    assert_eq!(lent, ["", "3"]);
}

#[test]
fn a_write_outside_is_a_difference() {
    let (well, out) = fuzzed(8_000, |call, reply| {
        reply.wrote_outside = call.function == Function::Search && reply.answer == 1;
    });
    assert!(!well);
    assert!(out.contains("WROTE OUTSIDE"), "{out}");
}

#[test]
fn the_words_of_the_command_line() {
    let all = Wanted {
        seed: None,
        cases: 100_000,
    };
    assert_eq!(Wanted::from_words(&[]), Some(all));
    let many = Wanted {
        seed: Some(3),
        cases: 10_000_000,
    };
    let words = ["--seed", "3", "--cases", "10000000"];
    assert_eq!(Wanted::from_words(&words), Some(many));
    for wrong in [&["--seed"][..], &["--cases", "x"], &["search"]] {
        assert_eq!(Wanted::from_words(wrong), None);
    }
}

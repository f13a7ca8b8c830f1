//! The benchmark's tables are what they are called, and its numbers are told rightly.

use second::answers::{lcs_check_table, lcs_search};
use second::bench::tables::{dense, sliding_window, tables, Resent, ALTERNATING_BIT, WINDOW_MAX};
use second::bench::{quarters, Wanted};
use second::table::{Operation, Table, TABLE_BYTES_MAX, TRANSITIONS_MAX};
use std::path::PathBuf;

/// The code and the numbers of a search with all the room there may be.
fn searched(table: &Table) -> (u32, [u64; 3]) {
    let (mut work, mut run) = (vec![0; 103 * 1024], vec![0; 2048]);
    lcs_search(&table.to_bytes(), &mut work, &mut run)
}

#[test]
fn every_table_is_good() {
    for named in tables() {
        assert_eq!(lcs_check_table(&named.table).0, 0, "{}", named.name);
    }
}

/// With two sequence numbers it is the alternating bit protocol, as 004 says.
#[test]
fn the_smallest_sliding_window_is_the_alternating_bit() {
    let alternating_bit = Table::read(ALTERNATING_BIT).expect("a good table");
    let window = sliding_window(2, Resent::Any);
    assert_eq!(searched(&window), searched(&alternating_bit));
}

/// The protocol hands each message over once and in order, so its table is safe, if that can be told.
#[test]
fn the_sliding_window_is_safe_or_too_large() {
    let safe = |numbers, resent| searched(&sliding_window(numbers, resent)).0 == 0;
    assert!(safe(2, Resent::Oldest) && safe(3, Resent::Oldest));
    for (numbers, resent) in [(4, Resent::Oldest), (3, Resent::Any), (4, Resent::Any)] {
        let (code, [rows, ..]) = searched(&sliding_window(numbers, resent));
        assert_eq!((code, rows), (2, 1024), "there is no room to tell");
    }
}

/// A sender that forgets to wait for acknowledgements makes it unsafe: the bad state is watched.
#[test]
fn a_sliding_window_that_skips_acknowledgements_is_unsafe() {
    let mut table = sliding_window(3, Resent::Oldest);
    for transition in &mut table.transitions {
        if matches!(transition.operation, Operation::Receive { channel: 1, .. }) {
            transition.operation = Operation::Quiet;
        }
    }
    assert_eq!(searched(&table).0, 1);
}

#[test]
fn the_largest_sliding_window_is_the_largest() {
    for resent in [Resent::Any, Resent::Oldest] {
        let transitions = |numbers| sliding_window(numbers, resent).transitions.len();
        assert!(transitions(WINDOW_MAX) <= TRANSITIONS_MAX);
        assert!(transitions(WINDOW_MAX + 1) > TRANSITIONS_MAX);
    }
}

#[test]
fn dense_tables_fill_every_row() {
    for seed in 1..=3 {
        let (code, [rows, ..]) = searched(&dense(seed));
        assert_eq!((code, rows), (2, 1024), "seed {seed}");
    }
}

#[test]
fn the_longest_table_is_there() {
    let lengths = tables().into_iter().map(|named| named.table.len());
    assert_eq!(lengths.max(), Some(TABLE_BYTES_MAX));
}

#[test]
fn quarters_are_those_of_the_sorted_numbers() {
    let five = vec![5.0, 1.0, 4.0, 2.0, 3.0];
    assert_eq!(quarters(five), [1.0, 2.0, 3.0, 4.0, 5.0]);
    assert_eq!(quarters(vec![7.0]), [7.0; 5]);
}

#[test]
fn the_words_of_the_command_line() {
    let wanted = |repeats| {
        let archive = PathBuf::from("a.a");
        Some(Wanted { archive, repeats })
    };
    assert_eq!(Wanted::from_words(&["--archive", "a.a"]), wanted(61));
    let words = ["--repeats", "5", "--archive", "a.a"];
    assert_eq!(Wanted::from_words(&words), wanted(5));
    for wrong in [
        &[][..],
        &["--archive"],
        &["--archive", "a", "--repeats", "0"],
    ] {
        assert_eq!(Wanted::from_words(wrong), None);
    }
}

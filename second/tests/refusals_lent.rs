//! Refusals of runs, lent buffers and work rows: 6 for a run, 7, 8, 9 and 10.

mod common;

use common::*;
use second::list::write_list;
use second::refusal::{Input, Refusal};
use second::replay::{replay, Replay};
use second::search::{search, Verdict};
use second::work::ROW_WORDS;

const PATTERN: u8 = 0xEE;

fn lent(number: u8, place: usize) -> Refusal {
    Refusal {
        number,
        input: Input::Lent,
        place,
    }
}

// ---- the search ----

/// Searches and sees that a refusal writes nothing.
fn search_with(words: usize, run_words: usize) -> Result<Verdict, Refusal> {
    let (mut work, mut run) = (vec![UNTOUCHED; words], vec![UNTOUCHED; run_words]);
    let answer = search(&example_b(), &mut work, &mut run);
    if answer.is_err() {
        assert!(work.iter().chain(&run).all(|&word| word == UNTOUCHED));
    }
    answer
}

#[test]
fn work_tables_without_room_for_a_row() {
    for words in [0, 1, 102] {
        assert_eq!(search_with(words, 2048), Err(lent(7, words)));
    }
    assert!(search_with(103, 2).is_ok());
}

#[test]
fn run_buffers_under_twice_the_room() {
    for (words, rows) in [
        (103, 1),
        (205, 1),
        (206, 2),
        (1024 * 103, 1024),
        (200_000, 1024),
    ] {
        assert!(search_with(words, 2 * rows).is_ok());
        for run_words in [0, 2 * rows - 1] {
            assert_eq!(search_with(words, run_words), Err(lent(8, run_words)));
        }
    }
}

#[test]
fn the_work_table_comes_before_the_run_buffer() {
    assert_eq!(search_with(102, 0), Err(lent(7, 102)));
    assert_eq!(search_with(0, 0), Err(lent(7, 0)));
}

// ---- the replay ----

#[test]
fn runs_of_2048_and_2049_words() {
    let around = table([1, 1, 1, 0], &["0 -> 0 send 0 0", "bad 0"]);
    let steps = 2048;
    assert_eq!(
        replay(&around, &[32_768; 2048]),
        Ok(Replay::ReachesBad { steps })
    );
    let refused = Refusal {
        number: 6,
        input: Input::Run,
        place: 0,
    };
    assert_eq!(replay(&around, &[32_768; 2049]), Err(refused));
    // Also if a step before is stuck.
    assert_eq!(replay(&around, &[9; 2049]), Err(refused));
}

// ---- the writer ----

/// 2 channels, 3 messages, 300 states.
fn still() -> Vec<u8> {
    table([300, 2, 3, 0], &[])
}

/// Three good rows for [`still`]; places nobody may look at hold the pattern.
fn three_rows() -> Vec<u16> {
    let mut work = vec![UNTOUCHED; 3 * ROW_WORDS];
    for (state, row) in work.chunks_mut(ROW_WORDS).enumerate() {
        row[0] = state as u16;
        row[3] = 1; // channel 0: one atom
        row[4] = 0x8005;
        row[28] = 2; // channel 1: two atoms
        row[29] = 1;
        row[30] = 4;
    }
    work
}

/// Writes into a buffer of so many bytes and sees what it holds after it.
fn write_with(work: &[u16], rows: u64, bytes: usize) -> Result<Vec<u8>, Refusal> {
    let mut list = vec![PATTERN; bytes];
    let answer = write_list(&still(), work, rows, &mut list);
    let written = *answer.as_ref().unwrap_or(&0);
    assert!(list[written..].iter().all(|&byte| byte == PATTERN));
    list.truncate(written);
    answer.map(|_| list)
}

#[test]
fn rows_are_written_one_after_the_other() {
    let row = |state: u16| list_row(state, &["{0,2}*", "0?2?"]);
    let list = [row(0), row(1), row(2)].concat();
    assert_eq!(write_with(&three_rows(), 3, 42), Ok(list.clone()));
    assert_eq!(write_with(&three_rows(), 3, 50), Ok(list.clone()));
    assert_eq!(write_with(&three_rows(), 2, 50), Ok(list[..28].to_vec()));
    assert_eq!(write_with(&three_rows(), 0, 50), Ok(vec![]));
}

#[test]
fn a_count_over_the_room() {
    assert_eq!(write_with(&three_rows(), 4, 99), Err(lent(9, 3)));
    assert_eq!(write_with(&three_rows(), u64::MAX, 99), Err(lent(9, 3)));
    assert_eq!(write_with(&three_rows(), 1 << 32, 99), Err(lent(9, 3)));
    // A part of a row is no room.
    assert_eq!(write_with(&three_rows()[..308], 3, 99), Err(lent(9, 2)));
    // Room is never over 1,024.
    let mut many = vec![0; 1025 * ROW_WORDS];
    assert_eq!(write_with(&many, 1025, 20_000), Err(lent(9, 1024)));
    assert_eq!(
        write_with(&many, 1024, 20_000).map(|list| list.len()),
        Ok(8192)
    );
    // The count is tested before the rows.
    many[0] = 300;
    assert_eq!(write_with(&many, 1025, 20_000), Err(lent(9, 1024)));
}

#[test]
fn a_work_table_without_room_is_no_refusal_7() {
    for words in [0, 102] {
        let work = vec![UNTOUCHED; words];
        assert_eq!(write_with(&work, 0, 9), Ok(vec![]));
        assert_eq!(write_with(&work, 0, 0), Ok(vec![]));
        assert_eq!(write_with(&work, 1, 9), Err(lent(9, 0)));
    }
}

/// The lowest wrong row is named, whatever is wrong with it and with later ones.
#[test]
fn rows_that_are_none() {
    let wrong: [(usize, u16); 12] = [
        (0, 300),     // state
        (0, 65_535),  // state
        (3, 25),      // count
        (3, 65_535),  // count
        (28, 25),     // count of the last channel
        (3, 2),       // a second atom, which is the pattern
        (4, 0),       // no message
        (4, 3),       // two messages without a star
        (4, 0x8000),  // a star of nothing
        (4, 8),       // a message the table lacks
        (30, 0x8008), // the same under a star
        (30, 0xC001), // bit 14
    ];
    for (place, value) in wrong {
        for row in 0..3 {
            let mut work = three_rows();
            work[row * ROW_WORDS + place] = value;
            assert_eq!(
                write_with(&work, 3, 99),
                Err(lent(9, row)),
                "{place} {value}"
            );
            // A row past the count is not looked at.
            assert!(write_with(&work, row as u64, 99).is_ok());
            // 9 comes before 10.
            assert_eq!(write_with(&work, 3, 0), Err(lent(9, row)));
        }
    }
}

/// Every word of the row is an atom, so that only the count itself can be wrong.
#[test]
fn counts_of_24_and_25() {
    for place in [3, 28] {
        let mut work = vec![1; ROW_WORDS];
        work[place] = 24;
        assert_eq!(write_with(&work, 1, 99).map(|list| list.len()), Ok(58));
        for count in [25, 26, 256 + 1, 65_535] {
            work[place] = count;
            assert_eq!(write_with(&work, 1, 99), Err(lent(9, 0)), "{count}");
        }
    }
}

#[test]
fn what_the_writer_does_not_look_at() {
    let expected = write_with(&three_rows(), 3, 99);
    // Parent, transition, atom places past a count, channels the table lacks.
    for place in [1, 2, 5, 27, 31, 52, 53, 54, 78, 102] {
        for value in [0, 7, 65_535] {
            let mut work = three_rows();
            work[ROW_WORDS + place] = value;
            assert_eq!(write_with(&work, 3, 99), expected, "{place} {value}");
        }
    }
}

#[test]
fn a_list_that_does_not_fit() {
    for bytes in [0, 1, 14, 41] {
        assert_eq!(write_with(&three_rows(), 3, bytes), Err(lent(10, 42)));
    }
    assert_eq!(write_with(&three_rows(), 1, 13), Err(lent(10, 14)));
    assert!(write_with(&three_rows(), 1, 14).is_ok());
}

#[test]
fn the_longest_list() {
    let table = table([1, 4, 15, 0], &[]);
    let mut row = vec![0; 3];
    for _ in 0..4 {
        row.push(24);
        row.extend([0xFFFF; 24]);
    }
    let bytes = 1024 * (6 + 4 * 49);
    let mut list = vec![PATTERN; bytes];
    assert_eq!(
        write_list(&table, &row.repeat(1024), 1024, &mut list),
        Ok(bytes)
    );
    let refused = write_list(&table, &row.repeat(1024), 1024, &mut list[1..]);
    assert_eq!(refused, Err(lent(10, bytes)));
}

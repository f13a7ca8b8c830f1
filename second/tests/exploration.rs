//! Verdicts against brute force: the plain steps of small tables, explored with bounded contents.

mod common;

use common::*;
use second::judge::{judge, Judgement};
use second::list::read_list;
use second::random::{self, Random, Shape};
use second::replay::{replay, Replay};
use second::search::Verdict;
use second::table::Table;
use std::collections::HashSet;

const TABLES: u64 = 6000;

/// What exploring found.
struct Explored {
    configurations: HashSet<Configuration>,
    /// No step was left out because its contents would be too long.
    complete: bool,
}

fn explored(system: &System) -> Explored {
    let longest = if system.channels == 1 { 5 } else { 3 };
    let mut configurations = HashSet::from([system.start()]);
    let mut open = vec![system.start()];
    let mut complete = true;
    while let Some(from) = open.pop() {
        for to in system.steps(&from) {
            if to.contents.iter().any(|word| word.len() > longest) {
                complete = false;
            } else if configurations.insert(to.clone()) {
                open.push(to);
            }
        }
    }
    Explored {
        configurations,
        complete,
    }
}

/// Tables small enough to explore.
fn small_table(seed: u64) -> Vec<u8> {
    let mut random = Random::new(seed);
    loop {
        let shape = [Shape::Tiny, Shape::Resending, Shape::Circles][random.below(3)];
        let table = random::table_of(&mut random, shape);
        if table.channels <= 2 && table.messages <= 3 && table.states <= 5 {
            return table.to_bytes();
        }
    }
}

#[test]
fn no_verdict_is_contradicted() {
    let (mut safe, mut unsafe_, mut full, mut complete) = (0, 0, 0, 0);
    for seed in 0..TABLES {
        let table = small_table(seed);
        let system = System::of(&table);
        let is_bad = |configuration: &Configuration| system.bad.contains(&configuration.state);
        let searched = searched(&table, 256);
        let explored = explored(&system);
        match searched.verdict {
            Verdict::Safe { .. } => {
                let rows = searched.rows();
                for configuration in &explored.configurations {
                    assert!(!is_bad(configuration), "seed {seed}");
                    assert!(system.is_in_some_row(configuration, &rows), "seed {seed}");
                }
                safe += 1;
            }
            Verdict::Unsafe { .. } => {
                let end = system.played(searched.steps()).expect("a run that plays");
                assert!(is_bad(&end), "seed {seed}");
                assert!(end.contents.iter().all(Vec::is_empty), "seed {seed}");
                unsafe_ += 1;
            }
            _ => full += 1,
        }
        if explored.complete {
            let found = explored.configurations.iter().any(is_bad);
            let is_unsafe = matches!(searched.verdict, Verdict::Unsafe { .. });
            assert_eq!(found, is_unsafe, "seed {seed}");
            complete += 1;
        }
    }
    let enough = [safe, unsafe_, full, complete].map(|count| count > TABLES / 20);
    assert_eq!(enough, [true; 4], "{safe} {unsafe_} {full} {complete}");
}

/// Rows claim nothing that cannot be: where exploring was complete, all short contents of every row
/// were found.
#[test]
fn rows_hold_only_what_can_be_reached() {
    let mut checked = 0;
    for seed in 0..TABLES {
        let table = small_table(seed);
        let system = System::of(&table);
        let explored = explored(&system);
        if !explored.complete {
            continue;
        }
        for row in searched(&table, 256).rows() {
            for contents in all_contents(&system, 3) {
                let state = row.0;
                let configuration = Configuration { state, contents };
                if system.is_in_row(&configuration, &row) {
                    assert!(explored.configurations.contains(&configuration), "{seed}");
                    checked += 1;
                }
            }
        }
    }
    assert!(checked > 500, "{checked}");
}

fn all_contents(system: &System, longest: usize) -> Vec<Vec<Vec<u8>>> {
    let words = words_up_to(system.messages, longest);
    let mut contents = vec![Vec::new()];
    for _ in 0..system.channels {
        contents = contents
            .iter()
            .flat_map(|before: &Vec<Vec<u8>>| {
                words
                    .iter()
                    .map(move |word| [&before[..], std::slice::from_ref(word)].concat())
            })
            .collect();
    }
    contents
}

/// For any table: a safe verdict's list is accepted and reads back as the rows, an unsafe verdict's
/// run replays to bad and is no longer than twice the room, and nothing else is written.
#[test]
fn answers_hold_together_for_every_shape() {
    let mut random = Random::new(77);
    let mut seen = [0; 4];
    for _ in 0..TABLES {
        let table = random::table(&mut random);
        let bytes = table.to_bytes();
        let room = random_room(&mut random);
        let searched = searched(&bytes, room);
        match searched.verdict {
            Verdict::Safe { .. } => {
                let list = written(&bytes, &searched);
                assert_eq!(judge(&bytes, &list), Ok(Judgement::Accepted));
                seen[0] += 1;
            }
            Verdict::Unsafe { steps, .. } => {
                let run = searched.steps();
                assert_eq!(replay(&bytes, run), Ok(Replay::ReachesBad { steps }));
                let end = System::of(&bytes).played(run).expect("a run that plays");
                assert!(table.is_bad(end.state));
                assert!(steps <= 2 * room);
                seen[1] += 1;
            }
            Verdict::RowsFull { rows, row, .. } => {
                assert!(rows == room && row < rows);
                seen[2] += 1;
            }
            Verdict::AtomsFull { rows, row, .. } => {
                assert!(rows <= room && row < rows);
                seen[3] += 1;
            }
        }
        reads_back(&table, &bytes, &searched);
        only_its_own_words_are_written(&searched);
    }
    assert!(seen.iter().all(|&count| count > TABLES / 20), "{seen:?}");
}

fn random_room(random: &mut Random) -> usize {
    match random.below(3) {
        0 => random.between(1, 12),
        1 => random.between(13, 100),
        _ => 256,
    }
}

fn reads_back(table: &Table, bytes: &[u8], searched: &Searched) {
    let list = read_list(table, &written(bytes, searched)).expect("a written list");
    let as_read: Vec<PlainRow> = list
        .iter()
        .map(|row| {
            let row = row.row();
            (row.state, row.products.map(<[u16]>::to_vec).to_vec())
        })
        .collect();
    assert_eq!(as_read, searched.rows());
}

fn only_its_own_words_are_written(searched: &Searched) {
    let past_rows = &searched.work[searched.row_count() * 103..];
    let past_run = &searched.run[searched.steps().len()..];
    assert!(past_rows
        .iter()
        .chain(past_run)
        .all(|&word| word == UNTOUCHED));
    // Within a row, atom places past a count are 0.
    for words in searched.work[..searched.row_count() * 103].chunks(103) {
        for channel in words[3..].chunks(25) {
            let count = usize::from(channel[0]);
            assert!(channel[1 + count..].iter().all(|&word| word == 0));
        }
    }
}

/// More room never changes an answer that was not for want of room.
#[test]
fn more_room_keeps_the_answer() {
    let mut random = Random::new(78);
    for _ in 0..500 {
        let bytes = random::table(&mut random).to_bytes();
        let room = random_room(&mut random);
        let (small, large) = (searched(&bytes, room), searched(&bytes, room + 40));
        if !matches!(small.verdict, Verdict::RowsFull { .. }) {
            assert_eq!(small.verdict, large.verdict);
            assert_eq!(small.steps(), large.steps());
        }
        let rows = small.row_count();
        assert!(large.row_count() >= rows);
        assert_eq!(small.rows(), large.rows()[..rows]);
    }
}

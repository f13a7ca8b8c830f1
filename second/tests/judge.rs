//! The judge against a direct definition by sets of configurations.

mod common;

use common::*;
use second::judge::{judge, Judgement};
use second::list::read_list;
use second::random::{self, Random, Shape};
use second::search::Verdict;
use second::table::Table;

/// A list as rows.
fn rows_of(table: &[u8], list: &[u8]) -> Vec<PlainRow> {
    let table = Table::read(table).expect("a good table");
    let rows = read_list(&table, list).expect("a good list");
    rows.iter()
        .map(|row| {
            let row = row.row();
            let used = &row.products[..usize::from(table.channels)];
            (row.state, used.iter().map(|p| p.to_vec()).collect())
        })
        .collect()
}

/// The answer by sets: is the start in a row, is a row bad, and does what a move makes of a row's
/// configurations, and with a self-loop send any number of rounds, stay in some row?
///
/// Contents up to the lengths of `longest` decide. If an outcome is in no single row, each row of
/// the target state lacks a configuration of it, with at most one letter more on the failing channel
/// than that product has atoms. All these join to one configuration of the outcome, since two words
/// of a product have a common longer word in it that is no longer than both together. It is in no
/// row, since rows are closed under losses.
fn judged_by_sets(system: &System, rows: &[PlainRow]) -> Option<Judgement> {
    if !system.is_in_some_row(&system.start(), rows) {
        return Some(Judgement::NoStart);
    }
    if let Some(row) = rows
        .iter()
        .position(|(state, _)| system.bad.contains(state))
    {
        return Some(Judgement::BadRow { row });
    }
    for row in 0..rows.len() {
        for transition in 0..system.moves.len() {
            if leads_out(system, rows, row, transition)? {
                return Some(Judgement::NotClosed { row, transition });
            }
        }
    }
    Some(Judgement::Accepted)
}

/// Whether a move leads out of all rows from this one; `None` if there is too much to enumerate.
fn leads_out(system: &System, rows: &[PlainRow], row: usize, number: usize) -> Option<bool> {
    let (source, target, operation, channel, _) = system.moves[number];
    if source != rows[row].0 {
        return Some(false);
    }
    let longest = longest_needed(system, rows, target, (operation == 2).then_some(channel));
    let rounds = if operation == 1 && source == target {
        longest[channel]
    } else {
        1
    };
    for mut now in configurations_of(system, &rows[row], &longest)? {
        for _ in 0..rounds {
            let Some(next) = system.moved(&now, number) else {
                break;
            };
            if !system.is_in_some_row(&next, rows) {
                return Some(true);
            }
            now = next;
        }
    }
    Some(false)
}

/// For each channel the letters that a configuration outside all rows of the target may need, and
/// one more where one is received.
fn longest_needed(
    system: &System,
    rows: &[PlainRow],
    target: u16,
    received: Option<usize>,
) -> Vec<usize> {
    let needed = |channel: usize| {
        let there = rows.iter().filter(|(state, _)| *state == target);
        let letters: usize = there.map(|(_, products)| products[channel].len() + 1).sum();
        letters + usize::from(received == Some(channel))
    };
    (0..system.channels).map(needed).collect()
}

fn configurations_of(
    system: &System,
    row: &PlainRow,
    longest: &[usize],
) -> Option<Vec<Configuration>> {
    let mut all = vec![Vec::new()];
    for (product, &length) in row.1.iter().zip(longest) {
        if length > 10 {
            return None;
        }
        let mut words = words_up_to(system.messages, length);
        words.retain(|word| is_word(product, word));
        if all.len() * words.len() > 4000 {
            return None;
        }
        let longer = |before: &Vec<Vec<u8>>| -> Vec<Vec<Vec<u8>>> {
            let with = |word: &Vec<u8>| [&before[..], std::slice::from_ref(word)].concat();
            words.iter().map(with).collect()
        };
        all = all.iter().flat_map(longer).collect();
    }
    let state = row.0;
    Some(
        all.into_iter()
            .map(|contents| Configuration { state, contents })
            .collect(),
    )
}

/// A random list, or the list of a safe search with a row left out, doubled or changed.
fn some_list(random: &mut Random, table: &Table, bytes: &[u8]) -> Vec<u8> {
    let searched = searched(bytes, 40);
    if !matches!(searched.verdict, Verdict::Safe { rows } if rows <= 6) || random.chance(1, 4) {
        return random::list(random, table, 4, 2);
    }
    let list = written(bytes, &searched);
    let mut records: Vec<&[u8]> = Vec::new();
    let mut rest = &list[..];
    while !rest.is_empty() {
        let (record, later) = rest.split_at(4 + usize::from(rest[0]));
        records.push(record);
        rest = later;
    }
    match random.below(4) {
        0 => {
            records.remove(random.below(records.len()));
        }
        1 => {
            let first = records[0];
            records.insert(random.below(records.len() + 1), first);
        }
        2 => records.reverse(),
        _ => {}
    }
    records.concat()
}

#[test]
fn judge_is_the_answer_by_sets() {
    let mut random = Random::new(21);
    let mut seen = [0; 4];
    for _ in 0..20_000 {
        let shape = [Shape::Tiny, Shape::Resending][random.below(2)];
        let table = random::table_of(&mut random, shape);
        if table.channels > 2 || table.messages > 2 {
            continue;
        }
        let bytes = table.to_bytes();
        let system = System::of(&bytes);
        let list = some_list(&mut random, &table, &bytes);
        let rows = rows_of(&bytes, &list);
        let Some(expected) = judged_by_sets(&system, &rows) else {
            continue;
        };
        assert_eq!(judge(&bytes, &list), Ok(expected), "{table:?} {rows:x?}");
        seen[match expected {
            Judgement::NoStart => 0,
            Judgement::BadRow { .. } => 1,
            Judgement::NotClosed { .. } => 2,
            Judgement::Accepted => 3,
        }] += 1;
    }
    assert!(seen.iter().all(|&count| count > 100), "{seen:?}");
}

/// Acceptance does not depend on the order of the rows, nor on products being normal.
#[test]
fn products_need_not_be_normal() {
    let b = example_b();
    let list = [
        list_row(1, &["0?0?{0}*0?"]),
        list_row(0, &["{0}*{0}*0?"]),
        list_row(0, &[""]),
    ];
    assert_eq!(judge(&b, &list.concat()), Ok(Judgement::Accepted));
}

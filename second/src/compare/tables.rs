//! The comparison of the table check: good tables, and tables damaged in each way that the refusals
//! name.
//!
//! The first cases are the same for every seed: a small table damaged everywhere, and tables at and
//! past each limit. The later ones are random tables, good and damaged.

use super::{refusal, Comparison, Kind};
use crate::calls::Call;
use crate::random::{self, Random};
use crate::record::push_record;
use crate::table::{STATES_MAX, TRANSITIONS_MAX};
use std::sync::OnceLock;

pub const CHECK_TABLE: Comparison = Comparison {
    name: "check_table",
    cases: 120_000,
    call: check_table_call,
    kinds: &[
        Kind::new("good", 10, |_, reply| reply.answer == 0),
        Kind::new("cut short", 1, |_, reply| refusal(reply) == Some(1)),
        Kind::new("wrong kind", 1, |_, reply| refusal(reply) == Some(2)),
        Kind::new("wrong length", 1, |_, reply| refusal(reply) == Some(3)),
        Kind::new("out of range", 1, |_, reply| refusal(reply) == Some(4)),
        Kind::new("not rising", 1, |_, reply| refusal(reply) == Some(5)),
        Kind::new("too many", 1, |_, reply| refusal(reply) == Some(6)),
    ],
};

fn check_table_call(random: &mut Random, case: usize) -> Call {
    static FIXED: OnceLock<Vec<Vec<u8>>> = OnceLock::new();
    let fixed = FIXED.get_or_init(fixed_tables);
    Call::check_table(match fixed.get(case) {
        Some(table) => table.clone(),
        None => random_table(random),
    })
}

/// A fifth are good, most are damaged in one or two places, and some are near the limit of transitions.
fn random_table(random: &mut Random) -> Vec<u8> {
    let good = random::table(random).to_bytes();
    match random.below(50) {
        0..=9 => good,
        10 | 11 => {
            let over = random.below(3);
            let table = with_transitions(TRANSITIONS_MAX + over, &[bad(random.below(9) as u16)]);
            if random.chance(1, 2) {
                random::damaged(random, &table)
            } else {
                table
            }
        }
        _ => random::damaged(random, &good),
    }
}

/// Every table that is tried whatever the seed.
fn fixed_tables() -> Vec<Vec<u8>> {
    let small = small_table();
    let table = small.concat();
    let mut tables = vec![table.clone()];
    tables.extend((0..table.len()).map(|cut| table[..cut].to_vec()));
    tables.extend(every_byte_changed(&table));
    tables.extend(every_number_at_limits(&table));
    tables.extend(records_moved(&small));
    tables.extend(every_kind_and_length(&small));
    tables.extend(headers_at_limits());
    tables.extend(counts_at_limits());
    tables
}

/// 300 states, 3 channels, 5 messages and start 7; every operation; bad states with high bytes.
fn small_table() -> Vec<Vec<u8>> {
    vec![
        header(300, 3, 5, 7),
        transition(299, 298, [1, 2, 4, 99]),
        transition(7, 7, [1, 0, 0, 0]),
        transition(256, 255, [2, 1, 3, 255]),
        transition(0, 299, [0, 0, 0, 1]),
        bad(5),
        bad(255),
        bad(299),
    ]
}

fn header(states: u16, channels: u8, messages: u8, start: u16) -> Vec<u8> {
    let ([a, b], [c, d]) = (states.to_le_bytes(), start.to_le_bytes());
    record(1, &[a, b, channels, messages, c, d])
}

/// A transition with operation, channel, message and label.
fn transition(source: u16, target: u16, rest: [u8; 4]) -> Vec<u8> {
    let places = [source.to_le_bytes(), target.to_le_bytes()].concat();
    record(2, &[&places[..], &rest].concat())
}

fn bad(state: u16) -> Vec<u8> {
    record(3, &state.to_le_bytes())
}

/// A record with the payload's own length.
pub fn record(kind: u16, payload: &[u8]) -> Vec<u8> {
    let mut bytes = Vec::new();
    push_record(&mut bytes, kind, payload);
    bytes
}

/// The table or list with bytes put over it at a place.
fn changed(table: &[u8], place: usize, bytes: &[u8]) -> Vec<u8> {
    let mut changed = table.to_vec();
    changed[place..place + bytes.len()].copy_from_slice(bytes);
    changed
}

/// The table or list with each byte as each other.
pub fn every_byte_changed(table: &[u8]) -> impl Iterator<Item = Vec<u8>> + '_ {
    (0..table.len()).flat_map(move |place| (0..=255).map(move |to| changed(table, place, &[to])))
}

/// Two bytes at every place, also across fields, as each number that a test draws a line at.
fn every_number_at_limits(table: &[u8]) -> impl Iterator<Item = Vec<u8>> + '_ {
    let numbers = [
        0, 1, 7, 8, 255, 256, 298, 299, 300, 4095, 4096, 4097, 65_535u16,
    ];
    (0..table.len() - 1).flat_map(move |place| {
        numbers.map(move |number| changed(table, place, &number.to_le_bytes()))
    })
}

/// Two records exchanged, one record put before another once more, one left out.
pub fn records_moved(records: &[Vec<u8>]) -> Vec<Vec<u8>> {
    let mut tables = Vec::new();
    for one in 0..records.len() {
        for other in 0..records.len() {
            let mut swapped = records.to_vec();
            swapped.swap(one, other);
            tables.push(swapped.concat());
            let mut doubled = records.to_vec();
            doubled.insert(other, records[one].clone());
            tables.push(doubled.concat());
        }
        let mut without = records.to_vec();
        without.remove(one);
        tables.push(without.concat());
    }
    tables
}

/// Each record with each kind and each payload length, the payload all there or ending the table.
fn every_kind_and_length(records: &[Vec<u8>]) -> Vec<Vec<u8>> {
    let mut tables = Vec::new();
    for place in 0..records.len() {
        for kind in [0, 1, 2, 3, 4, 5, 16, 17, 257, 258, 259, 65_535] {
            for length in (0..12).chain([255, 256, 300]) {
                let mut payload = records[place][4..].to_vec();
                payload.resize(length, 0);
                let mut with = records.to_vec();
                with[place] = record(kind, &payload);
                tables.push(with.concat());
                let mut cut = with[..=place].concat();
                cut.pop();
                tables.push(cut);
            }
        }
    }
    tables
}

/// Every combination of counts at and past their limits, with a transition and a bad state that use
/// the last of each.
fn headers_at_limits() -> Vec<Vec<u8>> {
    let mut tables = Vec::new();
    for states in [0, 1, 2, 4095, 4096, 4097] {
        for channels in [0, 1, 3, 4, 5] {
            for messages in [0, 1, 14, 15, 16] {
                for start in [0, 1, 4095, 4096, 4097] {
                    let last = STATES_MAX - 1;
                    tables.push(
                        [
                            header(states, channels, messages, start),
                            transition(last, last, [2, 3, 14, 0]),
                            bad(last),
                        ]
                        .concat(),
                    );
                    tables.push(header(states, channels, messages, start));
                }
            }
        }
    }
    tables
}

/// 1,023 to 1,026 transitions and what may come behind them, and as many bad states as there can be.
fn counts_at_limits() -> Vec<Vec<u8>> {
    let send = transition(9, 9, [1, 0, 0, 0]);
    let wrong: [Vec<u8>; 7] = [
        vec![],
        bad(3),
        transition(10, 0, [0; 4]),
        record(2, &[0; 7]),
        record(9, &[0; 8]),
        send[..11].to_vec(),
        send[..3].to_vec(),
    ];
    let mut tables = Vec::new();
    for count in TRANSITIONS_MAX - 1..=TRANSITIONS_MAX + 2 {
        for last in &wrong {
            tables.push(with_transitions(count, std::slice::from_ref(last)));
        }
    }
    let last_of_all = transition(STATES_MAX - 1, 0, [2, 3, 14, 255]).repeat(TRANSITIONS_MAX);
    let bads: Vec<Vec<u8>> = (0..STATES_MAX).map(bad).collect();
    let longest = [header(STATES_MAX, 4, 15, 0), last_of_all, bads.concat()].concat();
    for behind in [vec![], bad(STATES_MAX - 1), bad(STATES_MAX), send, vec![0]] {
        tables.push([&longest[..], &behind].concat());
    }
    tables.push(longest[..longest.len() - 1].to_vec());
    tables
}

/// A table of 10 states with so many transitions, and records behind them.
fn with_transitions(count: usize, behind: &[Vec<u8>]) -> Vec<u8> {
    let transitions = transition(9, 9, [1, 0, 0, 0]).repeat(count);
    [header(10, 1, 1, 0), transitions, behind.concat()].concat()
}

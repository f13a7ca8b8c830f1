//! The comparison of the replay: the answer and its numbers.
//!
//! Runs come from the second program's search and are then changed or not, from walks that mostly
//! can be played, or from nowhere; some are as long as a run may be, or longer. The first cases are
//! the same for every seed: the examples with the empty run, every short run, and their own runs.

use super::searches::{chains, searched};
use super::{number, refusal, words, Comparison, Kind};
use crate::calls::Call;
use crate::random::{self, Random, Shape};
use crate::replay::RUN_WORDS_MAX;
use crate::run::LOST;
use crate::search::Verdict;
use crate::table::{Operation, Table, Transition};
use crate::work::{ROOM_MAX, ROW_WORDS};
use std::collections::VecDeque;
use std::sync::OnceLock;

pub const REPLAY: Comparison = Comparison {
    name: "replay",
    cases: 60_000,
    call: replay_call,
    kinds: &[
        Kind::new("reaches bad", 15, |_, reply| reply.answer == 0),
        Kind::new("ends elsewhere", 15, |_, reply| reply.answer == 1),
        Kind::new("stuck", 15, |_, reply| reply.answer == 2),
        Kind::new("table refused", 3, |call, reply| {
            refusal(reply).is_some() && words(call, 1).len() <= RUN_WORDS_MAX
        }),
        Kind::new("run refused", 1, |call, reply| {
            refusal(reply) == Some(6) && words(call, 1).len() > RUN_WORDS_MAX
        }),
        Kind::new("five steps or more to bad", 5, |call, reply| {
            reply.answer == 0 && words(call, 1).len() >= 5
        }),
        Kind::new("stuck after five steps", 2, |_, reply| {
            reply.answer == 2 && number(reply, 0) >= 5
        }),
        Kind::new("2,048 words played", 1, |call, reply| {
            reply.answer < 2 && words(call, 1).len() == RUN_WORDS_MAX
        }),
    ],
};

fn replay_call(random: &mut Random, case: usize) -> Call {
    static FIXED: OnceLock<Vec<(Vec<u8>, Vec<u16>)>> = OnceLock::new();
    let fixed = FIXED.get_or_init(fixed_cases);
    let (table, run) = match fixed.get(case) {
        Some(fixed) => fixed.clone(),
        None => random_case(random),
    };
    Call::replay(table, run)
}

// ---- the examples

const EXAMPLES: [&[u8]; 3] = [
    include_bytes!("../../../examples/a.table"),
    include_bytes!("../../../examples/alternating-bit.table"),
    include_bytes!("../../../examples/recall.table"),
];

/// Every run of up to three words of example A, lost or not, a transition past the last too; the runs
/// of the examples, whole and cut at each place; the longest runs that there are; and an empty table with a run that is too long.
fn fixed_cases() -> Vec<(Vec<u8>, Vec<u16>)> {
    let mut cases = vec![
        (vec![], vec![0; RUN_WORDS_MAX + 1]),
        (EXAMPLES[0].to_vec(), vec![0; RUN_WORDS_MAX]),
        (EXAMPLES[0].to_vec(), vec![0; RUN_WORDS_MAX + 1]),
    ];
    let mut short = vec![vec![]];
    for _ in 0..3 {
        let steps = (0..=3).flat_map(|step| [step, step | LOST]);
        let longer = |run: &Vec<u16>| {
            let with = |step| [&run[..], &[step]].concat();
            steps.clone().map(with).collect::<Vec<_>>()
        };
        let more: Vec<Vec<u16>> = short.iter().flat_map(longer).collect();
        short.extend(more);
    }
    short.sort();
    short.dedup();
    cases.extend(short.into_iter().map(|run| (EXAMPLES[0].to_vec(), run)));
    for chain in chains() {
        let run = found_run(&chain, ROOM_MAX).unwrap_or_default();
        cases.push((chain, run));
    }
    for example in EXAMPLES {
        let run = found_run(example, 256).unwrap_or_default();
        let cuts = (0..=run.len()).map(|steps| (example.to_vec(), run[..steps].to_vec()));
        cases.extend(cuts);
    }
    cases
}

/// The run that the second program finds with room for so many rows, if it finds the table unsafe.
fn found_run(table: &[u8], rows: usize) -> Option<Vec<u16>> {
    let searched = searched(table, vec![0; rows * ROW_WORDS]);
    match searched.verdict {
        Some(Verdict::Unsafe { steps, .. }) => Some(searched.run[..steps].to_vec()),
        _ => None,
    }
}

// ---- random runs

fn random_case(random: &mut Random) -> (Vec<u8>, Vec<u16>) {
    if random.chance(1, 16) {
        return long_case(random);
    }
    // Many tables of the hidden shape have long ways to a bad state.
    let table = match random.below(3) {
        0 => random::table_of(random, Shape::Hidden),
        _ => random::table(random),
    };
    let bytes = table.to_bytes();
    let found = match random.below(4) {
        0 => None,
        _ => found_run(&bytes, 48),
    };
    let run = match found {
        Some(run) if random.chance(2, 5) => run,
        Some(run) => changed(random, &table, run),
        None if random.chance(1, 10) => noise(random, &table),
        None => random::run(random, &table, 30),
    };
    match random.below(14) {
        0 => (random::damaged(random, &bytes), run),
        _ => (bytes, run),
    }
}

/// The run with one thing changed: shortened, extended, two steps exchanged, a step doubled, left
/// out or replaced, a loss where there was none or none where there was one.
fn changed(random: &mut Random, table: &Table, mut run: Vec<u16>) -> Vec<u16> {
    let more = noise(random, table);
    if run.is_empty() {
        return more;
    }
    let (one, other) = (random.below(run.len()), random.below(run.len()));
    match random.below(8) {
        0 | 1 => run.truncate(one),
        2 => run.extend(more),
        3 => run.swap(one, other),
        4 => run.insert(one, run[other]),
        5 => {
            run.remove(one);
        }
        6 => run[one] ^= LOST,
        _ => run[one] = more.first().copied().unwrap_or(LOST - 1),
    }
    run
}

/// A few words of any kind, mostly transitions of the table.
fn noise(random: &mut Random, table: &Table) -> Vec<u16> {
    let step = |random: &mut Random| match random.below(8) {
        0 => random.number() as u16,
        1 => random.below(table.transitions.len() + 2) as u16 | LOST,
        _ => random.below(table.transitions.len() + 2) as u16,
    };
    (0..random.below(5)).map(|_| step(random)).collect()
}

/// A run of about as many words as there may be, on a table where one state sends and receives
/// everything. Most runs can be played; the channels hold from a few messages to thousands.
fn long_case(random: &mut Random) -> (Vec<u8>, Vec<u16>) {
    let (channels, messages) = (random.between(1, 4) as u8, random.between(1, 3) as u8);
    let mut table = Table::new(2, channels, messages, 0);
    for channel in 0..channels {
        for message in 0..messages {
            add(&mut table, 0, Operation::Send { channel, message });
            add(&mut table, 0, Operation::Receive { channel, message });
        }
    }
    add(&mut table, 1, Operation::Quiet);
    table.set_bad(random.below(2) as u16);
    let length = RUN_WORDS_MAX - 1 + [0, 1, 1, 1, 2, 2, 3][random.below(7)];
    let mut run = long_run(random, &table, length);
    if random.chance(1, 3) {
        // The last step leads to the other state.
        run[length - 1] = table.transitions.len() as u16 - 1;
    }
    if random.chance(1, 5) {
        let place = random.below(length);
        run[place] = random.below(table.transitions.len() + 1) as u16 | LOST;
    }
    (table.to_bytes(), run)
}

fn add(table: &mut Table, target: u16, operation: Operation) {
    table.transitions.push(Transition {
        source: 0,
        target,
        operation,
        label: 0,
    });
}

/// Sends, some of them lost, and receives of what is at the head; how often depends on the run.
fn long_run(random: &mut Random, table: &Table, length: usize) -> Vec<u16> {
    let receives = random.below(7);
    let mut contents = vec![VecDeque::new(); table.channels.into()];
    let mut run = Vec::new();
    while run.len() < length {
        // A send and the receive of the same message stand next to each other.
        let number = 2 * random.below(table.transitions.len() / 2);
        let Operation::Send { channel, message } = table.transitions[number].operation else {
            panic!("every other transition is a send");
        };
        let channel = &mut contents[usize::from(channel)];
        if channel.front() == Some(&message) && random.chance(receives, 6) {
            channel.pop_front();
            run.push(number as u16 + 1);
        } else if random.chance(1, 20) {
            run.push(number as u16 | LOST);
        } else {
            channel.push_back(message);
            run.push(number as u16);
        }
    }
    run
}

//! The comparison of the search: verdict, numbers, and every word of the work table and of the run
//! buffer.
//!
//! The first cases are the same for every seed: the example tables, and tables that need all the rows
//! there may be, with work tables and run buffers about each length that decides. The later ones are random tables, a few of them damaged, with
//! rooms from 0 to 1,024. Both buffers are filled with a pattern first, so that a write shows.

use super::{number, refusal, words, Comparison, Kind};
use crate::calls::Call;
use crate::random::{self, Random, Shape};
use crate::search::{search, Verdict};
use crate::table::{Operation, Table, Transition};
use crate::work::{room, ROOM_MAX, ROW_WORDS};
use std::sync::OnceLock;

pub const SEARCH: Comparison = Comparison {
    name: "search",
    cases: 24_000,
    call: search_call,
    kinds: &[
        Kind::new("safe", 15, |_, reply| reply.answer == 0),
        Kind::new("unsafe", 15, |_, reply| reply.answer == 1),
        Kind::new("rows full", 10, |_, reply| reply.answer == 2),
        Kind::new("atoms full", 5, |_, reply| reply.answer == 3),
        Kind::new("table refused", 3, |_, reply| {
            matches!(refusal(reply), Some(1..=6))
        }),
        Kind::new("work table refused", 3, |_, reply| {
            refusal(reply) == Some(7)
        }),
        Kind::new("run buffer refused", 3, |_, reply| {
            refusal(reply) == Some(8)
        }),
        Kind::new("ten rows or more", 15, |_, reply| {
            reply.answer < 4 && number(reply, 0) >= 10
        }),
        Kind::new("five steps or more", 5, |_, reply| {
            reply.answer == 1 && number(reply, 1) >= 5
        }),
        Kind::new("run buffer just enough", 20, |call, reply| {
            reply.answer < 4 && words(call, 2).len() == 2 * room(words(call, 1).len())
        }),
        Kind::new("words behind the last row", 30, |call, reply| {
            reply.answer < 4 && words(call, 1).len() % ROW_WORDS != 0
        }),
        Kind::new("room over 256", 1, |call, reply| {
            reply.answer < 4 && room(words(call, 1).len()) > 256
        }),
    ],
};

fn search_call(random: &mut Random, case: usize) -> Call {
    static FIXED: OnceLock<Vec<Lengths>> = OnceLock::new();
    let fixed = FIXED.get_or_init(fixed_cases);
    let (table, work, run) = match fixed.get(case) {
        Some(fixed) => fixed.clone(),
        None => random_case(random),
    };
    let work = pattern(random, work);
    Call::search(table, work, pattern(random, run))
}

/// So many words, no two neighbours alike; each buffer has a pattern of its own.
pub fn pattern(random: &mut Random, words: usize) -> Vec<u16> {
    let first = random.number() as u16;
    let words = (0..words).map(|place| (place as u16).wrapping_mul(0x9E37).wrapping_add(first));
    words.collect()
}

// ---- rows and runs for other calls

/// What a search finds, and what it leaves in its buffers.
pub struct Searched {
    /// None where the search refuses.
    pub verdict: Option<Verdict>,
    pub work: Vec<u16>,
    pub run: Vec<u16>,
}

impl Searched {
    /// How many rows stand in the work table.
    pub fn rows(&self) -> usize {
        self.verdict.map_or(0, |verdict| verdict.rows())
    }
}

/// Searches the table in these words by the second program, with a run buffer that just does.
pub fn searched(table: &[u8], mut work: Vec<u16>) -> Searched {
    let mut run = vec![0; 2 * room(work.len())];
    let verdict = search(table, &mut work, &mut run).ok();
    Searched { verdict, work, run }
}

// ---- the examples and chains

pub const EXAMPLES: [&[u8]; 6] = [
    include_bytes!("../../../examples/a.table"),
    include_bytes!("../../../examples/b.table"),
    include_bytes!("../../../examples/c.table"),
    include_bytes!("../../../examples/alternating-bit.table"),
    include_bytes!("../../../examples/recall.table"),
    include_bytes!("../../../examples/recall-repaired.table"),
];

/// A table, and the lengths of the work table and of the run buffer.
type Lengths = (Vec<u8>, usize, usize);

/// Each example with every small room and some large ones, each chain with rooms about the largest,
/// and lengths about them all.
fn fixed_cases() -> Vec<Lengths> {
    let mut cases = Vec::new();
    for example in EXAMPLES {
        for rows in (0..=30).chain([64, 256, ROOM_MAX, ROOM_MAX + 1]) {
            cases.extend(lengths_about(example, rows));
        }
    }
    for chain in chains() {
        for rows in ROOM_MAX - 2..=ROOM_MAX + 1 {
            cases.extend(lengths_about(&chain, rows));
        }
    }
    cases
}

fn lengths_about(table: &[u8], rows: usize) -> [Lengths; 5] {
    let (work, run) = (rows * ROW_WORDS, 2 * rows.min(ROOM_MAX));
    [
        (work, run),
        (work + ROW_WORDS - 1, run),
        (work + 1, run + 1),
        (work.saturating_sub(1), run.saturating_sub(2)),
        (work, run.saturating_sub(1)),
    ]
    .map(|(work, run)| (table.to_vec(), work, run))
}

/// Tables that need about as many rows as there may be: a way of quiet steps, or of receives of what
/// the start resends. These have the longest runs, a kept send for each receive.
pub fn chains() -> Vec<Vec<u8>> {
    let (channel, message) = (0, 0);
    let send = Operation::Send { channel, message };
    let receive = Operation::Receive { channel, message };
    let mut tables = Vec::new();
    for steps in [1022, 1023, 1024] {
        for last_is_bad in [false, true] {
            tables.push(chain(&[], Operation::Quiet, steps, last_is_bad));
            tables.push(chain(&[send], receive, steps - 1, last_is_bad));
        }
    }
    tables
}

fn chain(at_start: &[Operation], step: Operation, steps: u16, last_is_bad: bool) -> Vec<u8> {
    let mut table = Table::new(steps + 1, 1, 1, 0);
    let loops = at_start.iter().map(|&operation| (0, 0, operation));
    let way = (0..steps).map(|state| (state, state + 1, step));
    for (source, target, operation) in loops.chain(way) {
        table.transitions.push(Transition {
            source,
            target,
            operation,
            label: 0,
        });
    }
    if last_is_bad {
        table.set_bad(steps);
    }
    table.to_bytes()
}

// ---- random tables

fn random_case(random: &mut Random) -> Lengths {
    let good = table_to_search(random).to_bytes();
    let table = if random.chance(1, 12) {
        random::damaged(random, &good)
    } else {
        good
    };
    let rows = rows_to_fit(random);
    let work = rows * ROW_WORDS + random.below(ROW_WORDS) * random.below(2);
    let enough = 2 * rows;
    let run = match random.below(20) {
        0 => random.below(enough + 1),
        1 => enough.saturating_sub(1),
        2..=8 => enough + random.below(40),
        _ => enough,
    };
    (table, work, run)
}

/// Shapes that fill products, or that have long runs, are drawn more often: many rooms are too small
/// for either.
fn table_to_search(random: &mut Random) -> Table {
    match random.below(10) {
        0..=2 => random::table_of(random, Shape::Circles),
        3 | 4 => random::table_of(random, Shape::Hidden),
        _ => random::table(random),
    }
}

/// Mostly few rows; seldom as many as there may be, since all words of them are compared.
fn rows_to_fit(random: &mut Random) -> usize {
    match random.below(100) {
        0..=4 => 0,
        5..=24 => random.between(1, 12),
        25..=74 => random.between(12, 64),
        75..=91 => random.between(64, 120),
        92..=96 => random.between(120, 256),
        _ => random.between(257, ROOM_MAX),
    }
}

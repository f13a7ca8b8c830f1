//! The comparison of the list writer: the answer, its numbers, and every byte lent for the list.
//!
//! Rows come from the second program's search, in a work table that held a pattern before. Words that
//! the writer must not look at are then filled, rows are spoilt, and the count of rows and the bytes
//! for the list are about those that decide. The first cases are the same for every seed: the rows of
//! each example with every count and about every length, each word of a row at every limit, and as
//! many rows as there may be.

use super::searches::{pattern, searched, EXAMPLES};
use super::{bytes, number, refusal, words, Comparison, Kind};
use crate::calls::{Call, Lent};
use crate::list::write_list;
use crate::product::{single, star, ATOMS_MAX};
use crate::random::{self, Random};
use crate::row::CHANNELS;
use crate::table::{Table, MESSAGES_MAX};
use crate::work::{count_place, room, row_at, ROOM_MAX, ROW_WORDS};
use std::ops::Range;
use std::sync::OnceLock;

pub const WRITE_LIST: Comparison = Comparison {
    name: "write_list",
    cases: 40_000,
    call: write_list_call,
    kinds: &[
        Kind::new("written", 30, |_, reply| reply.answer == 0),
        Kind::new("table refused", 3, |_, reply| {
            matches!(refusal(reply), Some(1..=6))
        }),
        Kind::new("count over the room", 3, |call, reply| {
            refusal(reply) == Some(9) && count(call) > room(words(call, 1).len()) as u64
        }),
        Kind::new("bad row", 15, |call, reply| {
            refusal(reply) == Some(9) && count(call) <= room(words(call, 1).len()) as u64
        }),
        Kind::new("bad row behind good ones", 5, |call, reply| {
            refusal(reply) == Some(9) && (1..count(call)).contains(&number(reply, 2))
        }),
        Kind::new("does not fit", 5, |_, reply| refusal(reply) == Some(10)),
        Kind::new("one byte short", 2, |call, reply| {
            refusal(reply) == Some(10) && number(reply, 2) == length(call) + 1
        }),
        Kind::new("just fits", 10, |call, reply| {
            reply.answer == 0 && length(call) > 0 && number(reply, 0) == length(call)
        }),
        Kind::new("bytes behind the list", 10, |call, reply| {
            reply.answer == 0 && number(reply, 0) < length(call)
        }),
        Kind::new("ten rows or more", 10, |call, reply| {
            reply.answer == 0 && count(call) >= 10
        }),
        Kind::new("over 256 rows", 1, |call, reply| {
            reply.answer == 0 && count(call) > 256
        }),
        Kind::new("words past a count", 10, |call, reply| {
            reply.answer == 0 && any_word(call, places_past_counts)
        }),
        Kind::new("channels that the table lacks", 10, |call, reply| {
            reply.answer == 0 && any_word(call, places_of_lacked)
        }),
    ],
};

/// How many rows are to be written.
fn count(call: &Call) -> u64 {
    match &call.lent[2] {
        Lent::Numbers(numbers) => numbers[0],
        lent => panic!("{lent:?} is no number"),
    }
}

/// How many bytes are lent for the list.
fn length(call: &Call) -> u64 {
    bytes(call, 3).len() as u64
}

/// Whether one of the words at these places of some row to be written is not 0. The table is good.
fn any_word(call: &Call, places: fn(usize, &[u16]) -> Vec<Range<usize>>) -> bool {
    let channels = usize::from(bytes(call, 0)[CHANNELS_PLACE]);
    let rows = words(call, 1).chunks_exact(ROW_WORDS);
    rows.take(count(call) as usize).any(|row| {
        let mut places = places(channels, row).into_iter().flatten();
        places.any(|place| row[place] != 0)
    })
}

/// Where a table has the number of its channels.
const CHANNELS_PLACE: usize = 6;

/// The atom places past the count of each of a table's channels, in a row that can be written.
fn places_past_counts(channels: usize, row: &[u16]) -> Vec<Range<usize>> {
    let past = |channel| {
        let atoms = count_place(channel) + 1;
        let counted = usize::from(row[atoms - 1]).min(ATOMS_MAX);
        atoms + counted..atoms + ATOMS_MAX
    };
    (0..channels).map(past).collect()
}

/// The places of the channels that a table with so many lacks, counts and all.
fn places_of_lacked(channels: usize, _row: &[u16]) -> Vec<Range<usize>> {
    vec![count_place(channels)..ROW_WORDS]
}

/// What is lent to a call, but for the bytes of the list, of which there are so many.
type Lengths = (Vec<u8>, Vec<u16>, u64, usize);

fn write_list_call(random: &mut Random, case: usize) -> Call {
    static FIXED: OnceLock<Vec<Lengths>> = OnceLock::new();
    let fixed = FIXED.get_or_init(fixed_cases);
    let (table, work, rows, length) = match fixed.get(case) {
        Some(fixed) => fixed.clone(),
        None => random_case(random),
    };
    let list = pattern(random, length).into_iter().map(|word| word as u8);
    Call::write_list(table, work, rows, list.collect())
}

/// How many bytes the list of the first rows has, or would have: 0 where they cannot be written.
fn needed(table: &[u8], work: &[u16], rows: u64) -> usize {
    match write_list(table, work, rows, &mut []) {
        Err(refusal) if refusal.number == 10 => refusal.place,
        _ => 0,
    }
}

// ---- the examples

fn fixed_cases() -> Vec<Lengths> {
    let mut cases = Vec::new();
    for example in EXAMPLES {
        let found = searched(example, vec![0; 30 * ROW_WORDS]);
        let (rows, work) = (found.rows(), found.work);
        for count in 0..=rows as u64 + 1 {
            cases.extend(lengths_about(example, &work, count));
        }
        // The room, one more, and numbers whose low bytes are a small count.
        for count in [30, 31, 1 << 32, 1 << 63 | 1, u64::MAX] {
            cases.push((example.to_vec(), work.clone(), count, 0));
        }
        cases.extend(words_at_limits(example, &work, rows));
    }
    cases.extend(rooms_at_limits());
    cases
}

/// No byte, and about as many as the list needs.
fn lengths_about(table: &[u8], work: &[u16], rows: u64) -> Vec<Lengths> {
    let needed = needed(table, work, rows);
    let lengths = [
        0,
        needed.saturating_sub(1),
        needed,
        needed + 1,
        needed + 300,
    ];
    let case = |length| (table.to_vec(), work.to_vec(), rows, length);
    lengths.map(case).into()
}

/// Each word of the second row as each number that a test draws a line at; it is the last row that is
/// asked for, so that a word of the row behind it is not looked at.
fn words_at_limits(table: &[u8], work: &[u16], rows: usize) -> Vec<Lengths> {
    let numbers = [
        1, 2, 3, 4, 24, 25, 256, 0x7FFF, 0x8000, 0x8001, 0x8003, 0x8004, 0xFFFF,
    ];
    let places = ROW_WORDS * rows.min(1)..ROW_WORDS * rows.min(2) + 1;
    let changed = |place: usize| {
        numbers.map(|number| {
            let mut changed = work.to_vec();
            changed[place] = number;
            let rows = rows.min(2) as u64;
            let length = needed(table, &changed, rows);
            (table.to_vec(), changed, rows, length)
        })
    };
    places.flat_map(changed).collect()
}

/// Rows of full products up to as many as there may be, with a word less than they need, and a row
/// or more behind them.
fn rooms_at_limits() -> Vec<Lengths> {
    let table = Table::new(2, 4, 15, 1).to_bytes();
    let mut row = [vec![1, 0, 0], vec![0x8001; CHANNELS * (ATOMS_MAX + 1)]].concat();
    (0..CHANNELS).for_each(|channel| row[count_place(channel)] = ATOMS_MAX as u16);
    let mut cases = Vec::new();
    for rows in [0, 1, 2, ROOM_MAX - 1, ROOM_MAX, ROOM_MAX + 1] {
        for words in [rows * ROW_WORDS, (rows * ROW_WORDS).saturating_sub(1)] {
            let work = row.repeat(rows)[..words].to_vec();
            for count in [rows.saturating_sub(1), rows, rows + 1] {
                let length = needed(&table, &work, count as u64);
                cases.push((table.clone(), work.clone(), count as u64, length));
            }
        }
    }
    cases
}

// ---- random rows

fn random_case(random: &mut Random) -> Lengths {
    let table = random::table(random);
    let good = table.to_bytes();
    let words = rows_to_fit(random) * ROW_WORDS + random.below(ROW_WORDS) * random.below(2);
    let found = searched(&good, pattern(random, words));
    let (mut rows, mut work) = (found.rows(), found.work);
    // Searches seldom make many rows.
    let often = if words > 256 * ROW_WORDS { 2 } else { 1 };
    if rows > 0 && random.chance(often, 3) {
        rows = fill_up(random, &mut work, rows);
    }
    if random.chance(2, 3) {
        fill_unseen(random, &table, &mut work, rows);
    }
    if rows > 0 && random.chance(2, 5) {
        spoil(random, &table, &mut work, rows);
    }
    let bytes = match random.below(12) {
        0 => random::damaged(random, &good),
        _ => good,
    };
    let count = count_to_write(random, rows, room(words));
    let length = length_about(random, needed(&bytes, &work, count));
    (bytes, work, count, length)
}

/// Mostly few rows; seldom as many as there may be, since all words of them are sent.
fn rows_to_fit(random: &mut Random) -> usize {
    match random.below(100) {
        0..=4 => 0,
        5..=29 => random.between(1, 10),
        30..=87 => random.between(10, 60),
        88..=92 => random.between(60, 256),
        _ => random.between(257, ROOM_MAX + 1),
    }
}

/// Fills the room with copies of the rows that there are, and says how many there are then.
fn fill_up(random: &mut Random, work: &mut [u16], rows: usize) -> usize {
    for row in rows..room(work.len()) {
        let from = random.below(rows) * ROW_WORDS;
        work.copy_within(from..from + ROW_WORDS, row * ROW_WORDS);
    }
    room(work.len())
}

/// Fills words that the writer must not look at in some of the rows: parent and transition, atom
/// places past a count, and channels that the table lacks.
fn fill_unseen(random: &mut Random, table: &Table, work: &mut [u16], rows: usize) {
    let channels = usize::from(table.channels);
    for row in work.chunks_exact_mut(ROW_WORDS).take(rows) {
        if random.chance(1, 4) {
            continue;
        }
        let unseen = match random.below(4) {
            0 => vec![1..3],
            1 => places_past_counts(channels, row),
            2 => places_of_lacked(channels, row),
            _ => [
                places_past_counts(channels, row),
                places_of_lacked(channels, row),
            ]
            .concat(),
        };
        for place in unseen.into_iter().flatten() {
            row[place] = random.number() as u16;
        }
    }
}

/// Puts a word that cannot be written into one row or two.
fn spoil(random: &mut Random, table: &Table, work: &mut [u16], rows: usize) {
    for _ in 0..random.between(1, 2) {
        let row = random.below(rows);
        let channel = random.below(table.channels.into());
        let counted = row_at(work, row).product(channel).len();
        let words = &mut work[row * ROW_WORDS..][..ROW_WORDS];
        let place = count_place(channel);
        match random.below(4) {
            0 => words[0] = table.states + random.below(3) as u16,
            1 => words[place] = [25, 26, 256, 65_535][random.below(4)],
            // Without a counted atom there is a count that says more than there are.
            _ if counted == 0 => words[place] = random.between(1, ATOMS_MAX) as u16,
            _ => words[place + 1 + random.below(counted)] = no_atom(random, table),
        }
    }
}

/// A word that is no atom of the table: no message, two messages without the star, or one that the
/// table lacks.
fn no_atom(random: &mut Random, table: &Table) -> u16 {
    if table.messages < MESSAGES_MAX && random.chance(1, 2) {
        let lacked = single(random.between(table.messages.into(), 14) as u8);
        return [lacked, star(lacked), star(lacked | 1)][random.below(3)];
    }
    [0, star(0), 0b101][random.below(3)]
}

/// Mostly the rows that there are; also fewer, more, more than there is room for, and far more.
fn count_to_write(random: &mut Random, rows: usize, room: usize) -> u64 {
    let count = match random.below(20) {
        0 => random.between(rows, room),
        1 => room + random.between(1, 3),
        2 => return random.number() | 1 << 40,
        3..=5 => random.below(rows + 1),
        _ => rows,
    };
    count as u64
}

/// About as many bytes as are needed. Where nothing can be written there are some all the same, since
/// none may be changed.
fn length_about(random: &mut Random, needed: usize) -> usize {
    match random.below(10) {
        _ if needed == 0 => random.below(300),
        0 => needed - 1,
        1 => random.below(needed),
        2..=5 => needed,
        _ => needed + random.between(1, 80),
    }
}

//! The comparison of the judge: the answer and its numbers.
//!
//! Lists come from the rows of the second program's search, or have any word in every channel of
//! each state. They are then changed or not: rows left out, doubled, moved, or split between two;
//! products widened, narrowed, or made longer with the same words; bytes damaged. Some lists come from
//! nowhere, and some are as long as a list may be, or longer. The first cases are the same for every
//! seed: the rules' example B, its list damaged everywhere, the rows of each example with one or two of
//! them changed, and lists at and past each limit.

use super::searches::{chains, searched, EXAMPLES};
use super::tables::{every_byte_changed, record, records_moved};
use super::{bytes, number, refusal, Comparison, Kind};
use crate::calls::{Call, Reply};
use crate::list::{push_row, read_list, ListRow, LIST_ROW, LIST_ROWS_MAX};
use crate::product::{is_star, messages_of, single, star, Product, ATOMS_MAX};
use crate::random::{self, Random};
use crate::record::HEAD_BYTES;
use crate::row::CHANNELS;
use crate::search::Verdict;
use crate::table::{Operation, Table, Transition};
use crate::work::{self, ROOM_MAX, ROW_WORDS};
use std::sync::OnceLock;

pub const JUDGE: Comparison = Comparison {
    name: "judge",
    cases: 60_000,
    call: judge_call,
    kinds: &[
        Kind::new("accepted", 15, |_, reply| reply.answer == 0),
        Kind::new("no start", 5, |_, reply| reply.answer == 1),
        Kind::new("bad row", 5, |_, reply| reply.answer == 2),
        Kind::new("not closed", 15, |_, reply| reply.answer == 3),
        Kind::new("table refused", 3, |_, reply| {
            refusal(reply).is_some() && number(reply, 1) == 0
        }),
        Kind::new("list cut short", 1, |_, reply| list_refused(reply, 1)),
        Kind::new("list of another kind", 1, |_, reply| list_refused(reply, 2)),
        Kind::new("row too short or long", 1, |_, reply| {
            list_refused(reply, 3)
        }),
        Kind::new("row out of range", 1, |_, reply| list_refused(reply, 4)),
        Kind::new("over 1,024 rows", 1, |_, reply| list_refused(reply, 6)),
        Kind::new("accepted, ten rows or more", 3, |call, reply| {
            reply.answer == 0 && rows(call).len() >= 10
        }),
        Kind::new("accepted, not normal", 3, |call, reply| {
            reply.answer == 0 && rows(call).iter().any(is_not_normal)
        }),
        Kind::new("accepted, 25 atoms in an outcome", 1, |call, reply| {
            reply.answer == 0 && has_full_outcome(call)
        }),
        Kind::new("about 1,024 rows judged", 1, |call, reply| {
            reply.answer < 4 && rows(call).len() >= LIST_ROWS_MAX - 1
        }),
        Kind::new("bad row behind another", 1, |_, reply| {
            reply.answer == 2 && number(reply, 0) > 0
        }),
        Kind::new("not closed behind row 4", 5, |_, reply| {
            reply.answer == 3 && number(reply, 0) > 4
        }),
        Kind::new("not closed behind transition 4", 5, |_, reply| {
            reply.answer == 3 && number(reply, 1) > 4
        }),
    ],
};

fn list_refused(reply: &Reply, refused: u64) -> bool {
    refusal(reply) == Some(refused) && number(reply, 1) == 1
}

/// The rows of a list that is judged.
fn rows(call: &Call) -> Vec<ListRow> {
    let table = Table::read(bytes(call, 0)).expect("a good table");
    read_list(&table, bytes(call, 1)).expect("a good list")
}

fn is_not_normal(row: &ListRow) -> bool {
    row.row().products.iter().any(|atoms| {
        let mut product = Product::copy_of(atoms);
        product.normalise();
        product.atoms().len() < atoms.len()
    })
}

/// Whether a row has a product of 24 atoms and a send that adds one more.
fn has_full_outcome(call: &Call) -> bool {
    let table = Table::read(bytes(call, 0)).expect("a good table");
    rows(call).iter().any(|row| {
        let row = row.row();
        table.transitions.iter().any(|moved| match moved.operation {
            Operation::Send { channel, .. } => {
                let atoms = row.products[usize::from(channel)].len();
                moved.source == row.state && atoms == ATOMS_MAX
            }
            _ => false,
        })
    })
}

/// A table and a list.
type Judged = (Vec<u8>, Vec<u8>);

fn judge_call(random: &mut Random, case: usize) -> Call {
    static FIXED: OnceLock<Vec<Judged>> = OnceLock::new();
    let fixed = FIXED.get_or_init(fixed_cases);
    let (table, list) = match fixed.get(case) {
        Some(fixed) => fixed.clone(),
        None => random_case(random),
    };
    Call::judge(table, list)
}

/// A row to be changed: its state, and a product for each channel of the table.
#[derive(Clone)]
struct Plain {
    state: u16,
    products: Vec<Vec<u16>>,
}

fn list_of(rows: &[Plain]) -> Vec<u8> {
    let mut bytes = Vec::new();
    for row in rows {
        push_row(&mut bytes, row.state, &row.products);
    }
    bytes
}

/// Whether the second program's search is safe, and the rows that it makes with room for so many.
fn found_rows(table: &Table, room: usize) -> (bool, Vec<Plain>) {
    let found = searched(&table.to_bytes(), vec![0; room * ROW_WORDS]);
    let plain = |words: work::RowWords| Plain {
        state: words.state(),
        products: (0..table.channels.into())
            .map(|channel| words.product(channel).to_vec())
            .collect(),
    };
    let is_safe = matches!(found.verdict, Some(Verdict::Safe { .. }));
    let rows = work::rows(&found.work).take(found.rows());
    (is_safe, rows.map(plain).collect())
}

// ---- example B, the other examples, and limits

/// The list that the rules give for example B, record by record.
const ROWS_OF_B: [&[u8]; 3] = [
    &[3, 0, 16, 0, 0, 0, 0],
    &[5, 0, 16, 0, 0, 0, 1, 1, 0x80],
    &[5, 0, 16, 0, 1, 0, 1, 1, 0x80],
];

fn fixed_cases() -> Vec<Judged> {
    let b = include_bytes!("../../../examples/b.table").to_vec();
    let list = ROWS_OF_B.concat();
    let mut lists = vec![
        list.clone(),
        ROWS_OF_B[..2].concat(),
        ROWS_OF_B[1..].concat(),
    ];
    lists.extend((0..list.len()).map(|cut| list[..cut].to_vec()));
    lists.extend(records_moved(&ROWS_OF_B.map(|row| row.to_vec())));
    lists.extend(rows_at_limits());
    lists.extend(counts_at_limits());
    lists.extend(every_byte_changed(&list));
    let mut cases: Vec<Judged> = lists.into_iter().map(|list| (b.clone(), list)).collect();
    for example in EXAMPLES {
        cases.extend(rows_moved(example));
    }
    // The table is read first, and of a good table the empty list is well formed.
    let bad_start = include_bytes!("../../../runs/bad-start.in").to_vec();
    cases.extend([(vec![], vec![0]), (bad_start, vec![])]);
    cases.extend(longest_lists());
    for chain in chains() {
        let table = Table::read(&chain).expect("a good table");
        cases.push((chain, list_of(&found_rows(&table, ROOM_MAX).1)));
    }
    cases
}

/// Payloads that end inside each field or behind the last, and numbers on both sides of each limit.
fn rows_at_limits() -> Vec<Vec<u8>> {
    let full = |count: u8, atoms: usize, atom: u16| {
        let atoms = atom.to_le_bytes().repeat(atoms);
        [&[0, 0, count][..], &atoms].concat()
    };
    let mut payloads = vec![
        vec![0; 0],
        vec![0],
        vec![9],
        vec![3, 0],
        vec![2, 0],
        vec![0, 0],
    ];
    for count in [0, 1, 2, 23, 24, 25, 255] {
        for atoms in [0, 1, 2, 23, 24, 25] {
            for atom in [0, 1, 2, 3, 4, 0x7FFF, 0x8000, 0x8001, 0x8003, 0x8004] {
                payloads.push(full(count, atoms, atom));
            }
        }
    }
    let with_byte_over: Vec<Vec<u8>> = payloads
        .iter()
        .map(|payload| [&payload[..], &[0]].concat())
        .collect();
    payloads.extend(with_byte_over);
    let records = payloads.iter().map(|payload| record(LIST_ROW, payload));
    records.collect()
}

/// 1,023 to 1,025 rows, and then something else.
fn counts_at_limits() -> Vec<Vec<u8>> {
    let row = ROWS_OF_B[0];
    let behind: [&[u8]; 6] = [
        &[],
        &row[..3],
        &row[..6],
        &[3, 0, 17, 0, 0, 0, 0],
        &[3, 0, 16, 0, 9, 9, 9],
        &[2, 0, 16, 0, 0, 0],
    ];
    let mut lists = Vec::new();
    for count in LIST_ROWS_MAX - 1..=LIST_ROWS_MAX + 1 {
        for last in behind {
            lists.push([&row.repeat(count)[..], last].concat());
        }
    }
    lists
}

/// The rows of a search, whole, without each of them, and with each two of them exchanged.
fn rows_moved(table: &[u8]) -> Vec<Judged> {
    let good = Table::read(table).expect("an example");
    let (_, rows) = found_rows(&good, 30);
    let mut lists = vec![list_of(&rows)];
    for one in 0..rows.len() {
        let mut without = rows.clone();
        without.remove(one);
        lists.push(list_of(&without));
        for other in 0..one {
            let mut exchanged = rows.clone();
            exchanged.swap(one, other);
            lists.push(list_of(&exchanged));
        }
    }
    lists
        .into_iter()
        .map(|list| (table.to_vec(), list))
        .collect()
}

/// As many rows as there may be, each with as many atoms as there may be: once closed under a send and a
/// receive on each channel, once not.
fn longest_lists() -> Vec<Judged> {
    let mut table = Table::new(4096, CHANNELS as u8, 15, 4095);
    for channel in 0..CHANNELS as u8 {
        for operation in [
            Operation::Send {
                channel,
                message: 14,
            },
            Operation::Receive {
                channel,
                message: 0,
            },
        ] {
            table.transitions.push(Transition {
                source: 4095,
                target: 4095,
                operation,
                label: 0,
            });
        }
    }
    let row = |atom: u16| Plain {
        state: 4095,
        products: vec![vec![atom; ATOMS_MAX]; CHANNELS],
    };
    let closed = vec![row(star(0x7FFF)); LIST_ROWS_MAX];
    let mut open = vec![row(single(0)); LIST_ROWS_MAX];
    open[0] = row(star(single(14)));
    [closed, open]
        .map(|rows| (table.to_bytes(), list_of(&rows)))
        .into()
}

// ---- random lists

/// Rows that a list to be judged comes from.
const ROOM: usize = 48;

fn random_case(random: &mut Random) -> Judged {
    let (table, found) = table_to_judge(random);
    let mut rows = match random.below(6) {
        _ if found.is_empty() => full_rows(random, &table),
        0 => full_rows(random, &table),
        _ => found,
    };
    for _ in 0..[0, 0, 1, 1, 1, 2, 4][random.below(7)] {
        change(random, &table, &mut rows);
    }
    let list = match random.below(40) {
        0..=2 => list_of(&repeated(random, &rows)),
        3..=6 => random::list(random, &table, 6, 4),
        _ => list_of(&rows),
    };
    let table = table.to_bytes();
    match random.below(28) {
        0 | 1 => (random::damaged(random, &table), list),
        2..=6 => (table, random::damaged(random, &list)),
        7 => (table, recounted(random, list)),
        _ => (table, list),
    }
}

/// The list with one atom more or less told for the first product than there are.
fn recounted(random: &mut Random, mut list: Vec<u8>) -> Vec<u8> {
    if let Some(count) = list.get_mut(HEAD_BYTES + 2) {
        *count = count.wrapping_add([1, 255][random.below(2)]);
    }
    list
}

/// A table and the rows of its search. Where that is safe the table is taken more often, since only
/// then the rows are accepted, and most often where they are many.
fn table_to_judge(random: &mut Random) -> (Table, Vec<Plain>) {
    loop {
        let table = random::table(random);
        let (is_safe, rows) = found_rows(&table, ROOM);
        let in_four = match (is_safe, rows.len()) {
            (true, 10..) => 4,
            (true, _) => 2,
            (false, _) => 1,
        };
        if random.chance(in_four, 4) {
            return (table, rows);
        }
    }
}

/// Each state with any word in every channel; the bad states seldom.
fn full_rows(random: &mut Random, table: &Table) -> Vec<Plain> {
    let with_bad = random.chance(1, 8);
    let states = (0..table.states).filter(|&state| with_bad || !table.is_bad(state));
    let all = star((1 << table.messages) - 1);
    let row = |state| Plain {
        state,
        products: vec![vec![all]; table.channels.into()],
    };
    states.take(LIST_ROWS_MAX).map(row).collect()
}

/// The rows again and again, up to about as many as there may be.
fn repeated(random: &mut Random, rows: &[Plain]) -> Vec<Plain> {
    let count = LIST_ROWS_MAX - 1 + random.below(4);
    rows.iter().cycle().take(count).cloned().collect()
}

/// Changes one thing. Rows that are doubled or moved, and products that only become longer, are accepted
/// as they were; most other changes open a list, take its start or make a row bad.
fn change(random: &mut Random, table: &Table, rows: &mut Vec<Plain>) {
    if rows.is_empty() {
        return;
    }
    let (one, other) = (random.below(rows.len()), random.below(rows.len()));
    let channel = random.below(table.channels.into());
    match random.below(20) {
        0 | 1 => {
            rows.remove(one);
        }
        2 | 3 => rows.insert(other, rows[one].clone()),
        4 => rows.swap(one, other),
        5 => rows.reverse(),
        6 => widen(random, table, &mut rows[one].products[channel]),
        7 => narrow(random, &mut rows[one].products[channel]),
        8..=12 => lengthen(random, rows),
        13 => split(random, rows, one, channel),
        14 => rows[one].state = random.below(table.states.into()) as u16,
        15..=18 => {
            let bad: Vec<u16> = table.bad_states().collect();
            if !bad.is_empty() {
                rows[one].state = bad[random.below(bad.len())];
            }
        }
        _ => rows.retain(|row| row.state != table.start),
    }
    rows.truncate(LIST_ROWS_MAX);
}

/// An atom more, or one that has more words.
fn widen(random: &mut Random, table: &Table, product: &mut Vec<u16>) {
    let atom = random::atom(random, table.messages);
    let place = random.below(product.len() + 1);
    if place < product.len() && random.chance(1, 2) {
        product[place] = star(messages_of(product[place] | atom));
    } else if product.len() < ATOMS_MAX {
        product.insert(place, atom);
    }
}

/// An atom less, or one that has fewer words.
fn narrow(random: &mut Random, product: &mut Vec<u16>) {
    if product.is_empty() {
        return;
    }
    let place = random.below(product.len());
    if is_star(product[place]) && random.chance(1, 2) {
        product[place] = random::single_of(random, product[place]);
    } else {
        product.remove(place);
    }
}

/// Atoms next to a star that has all their messages, in each product that has one: some, or as many as
/// there may be. The words stay the same.
fn lengthen(random: &mut Random, rows: &mut [Plain]) {
    let fully = random.chance(1, 2);
    for product in rows.iter_mut().flat_map(|row| &mut row.products) {
        let Some(place) = product.iter().position(|&atom| is_star(atom)) else {
            continue;
        };
        let most = ATOMS_MAX - product.len();
        let more = if fully {
            most
        } else {
            most.min(random.below(3))
        };
        for _ in 0..more {
            let atom = random::atom_of_star(random, product[place]);
            product.insert(place + 1, atom);
        }
    }
}

/// A row as two, each with all of one channel and with nothing of another: together they have every
/// word of each channel, but neither has the row.
fn split(random: &mut Random, rows: &mut Vec<Plain>, one: usize, channel: usize) {
    let mut half = rows[one].clone();
    half.products[channel].clear();
    let next = (channel + 1) % half.products.len();
    rows[one].products[next].clear();
    rows.insert(random.below(rows.len() + 1), half);
}

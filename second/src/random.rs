//! Seeded random things for tests and comparisons: atoms, products, tables, lists, runs, damage.
//!
//! The same seed gives the same things everywhere. Tables come in shapes, chosen so that every
//! verdict turns up often.

use crate::list::push_row;
use crate::product::{is_star, messages_of, single, star};
use crate::record::HEAD_BYTES;
use crate::run::LOST;
use crate::table::{Operation, Table, Transition, MESSAGES_MAX};
use std::collections::VecDeque;

/// A small generator (splitmix64).
pub struct Random {
    state: u64,
}

impl Random {
    pub fn new(seed: u64) -> Random {
        Random { state: seed }
    }

    pub fn number(&mut self) -> u64 {
        self.state = self.state.wrapping_add(0x9E37_79B9_7F4A_7C15);
        let mut z = self.state;
        z = (z ^ (z >> 30)).wrapping_mul(0xBF58_476D_1CE4_E5B9);
        z = (z ^ (z >> 27)).wrapping_mul(0x94D0_49BB_1331_11EB);
        z ^ (z >> 31)
    }

    /// A number below `end`, which is not 0.
    pub fn below(&mut self, end: usize) -> usize {
        (self.number() % end as u64) as usize
    }

    /// A number from `first` to `last`.
    pub fn between(&mut self, first: usize, last: usize) -> usize {
        first + self.below(last - first + 1)
    }

    /// True in `part` of `whole` cases.
    pub fn chance(&mut self, part: usize, whole: usize) -> bool {
        self.below(whole) < part
    }

    pub fn byte(&mut self) -> u8 {
        self.number() as u8
    }

    fn small(&mut self, end: u8) -> u8 {
        self.below(end.into()) as u8
    }

    fn state_of(&mut self, table: &Table) -> u16 {
        self.below(table.states.into()) as u16
    }
}

/// An atom over messages 0 to `messages - 1`: half singles, half stars, small sets more often.
pub fn atom(random: &mut Random, messages: u8) -> u16 {
    let first = single(random.small(messages));
    if random.chance(1, 2) {
        return first;
    }
    let mut set = first;
    while random.chance(2, 5) {
        set |= single(random.small(messages));
    }
    star(set)
}

/// A product of 0 to `atoms_max` atoms.
pub fn product(random: &mut Random, messages: u8, atoms_max: usize) -> Vec<u16> {
    let count = random.between(0, atoms_max);
    (0..count).map(|_| atom(random, messages)).collect()
}

/// A product that is often contained in `q`, and often only just not: atoms of `q` left out,
/// doubled, narrowed, now and then changed. At most `atoms_max` atoms.
pub fn product_near(random: &mut Random, q: &[u16], messages: u8, atoms_max: usize) -> Vec<u16> {
    let mut near = Vec::new();
    for &f in q {
        match random.below(12) {
            0..=2 => {}
            3 => near.push(atom(random, messages)),
            4 => near.extend([f, f]),
            5 => near.push(single(f.trailing_zeros() as u8)),
            _ => near.push(f),
        }
    }
    near.truncate(atoms_max);
    near
}

/// A product that is contained in `q`: singles kept or left out, stars taken apart into atoms with
/// messages of theirs. At most `atoms_max` atoms.
pub fn product_below(random: &mut Random, q: &[u16], atoms_max: usize) -> Vec<u16> {
    let mut below = Vec::new();
    for &f in q {
        if !is_star(f) {
            below.extend(Some(f).filter(|_| random.chance(3, 4)));
            continue;
        }
        for _ in 0..random.below(4) {
            below.push(atom_of_star(random, f));
        }
    }
    below.truncate(atoms_max);
    below
}

/// An atom that means no more than this star.
pub fn atom_of_star(random: &mut Random, f: u16) -> u16 {
    let one = single_of(random, f);
    match random.below(3) {
        0 => one,
        1 => f,
        _ => star(one | messages_of(f) & random.number() as u16),
    }
}

/// The single of one of an atom's messages.
pub fn single_of(random: &mut Random, atom: u16) -> u16 {
    loop {
        let one = single(random.small(MESSAGES_MAX));
        if atom & one != 0 {
            return one;
        }
    }
}

/// What a random table looks like.
#[derive(Clone, Copy, Debug, PartialEq, Eq)]
pub enum Shape {
    /// A few states; small enough to explore by hand.
    Tiny,
    /// Resending by self-loops, as most protocols do it.
    Resending,
    /// Sends in circles of several states, which fill products or rows.
    Circles,
    /// Two machines that talk over two channels, multiplied out.
    TwoMachines,
    /// Many states, channels, messages and transitions.
    Wide,
    /// A hidden way to a bad state, by receiving in order what was sent; sometimes spoilt.
    Hidden,
    /// A long way of hundreds of states, with turnings.
    Long,
}

pub const SHAPES: [Shape; 7] = [
    Shape::Tiny,
    Shape::Resending,
    Shape::Circles,
    Shape::TwoMachines,
    Shape::Wide,
    Shape::Hidden,
    Shape::Long,
];

/// A good table of any shape; the long ones are rarer, since they take longer.
pub fn table(random: &mut Random) -> Table {
    let shape = SHAPES[random.below(SHAPES.len())];
    match shape {
        Shape::Long if random.chance(4, 5) => table_of(random, Shape::Tiny),
        _ => table_of(random, shape),
    }
}

/// A good table of a given shape.
pub fn table_of(random: &mut Random, shape: Shape) -> Table {
    match shape {
        Shape::Tiny => plain_table(random, (1, 4), (1, 2), (1, 3), (0, 10), 4),
        Shape::Resending => resending(random),
        Shape::Circles => circles(random),
        Shape::TwoMachines => two_machines(random),
        Shape::Wide => plain_table(random, (8, 60), (1, 4), (1, 15), (30, 160), 5),
        Shape::Hidden => hidden(random),
        Shape::Long => long(random),
    }
}

/// The first and the last number of a range to draw from.
type Span = (usize, usize);

/// A table whose counts lie in the given spans and whose transitions may lead anywhere.
fn plain_table(
    random: &mut Random,
    states: Span,
    channels: Span,
    messages: Span,
    transitions: Span,
    self_loops_in_ten: usize,
) -> Table {
    let mut table = empty_table(random, states, channels, messages);
    for _ in 0..random.between(transitions.0, transitions.1) {
        let source = random.state_of(&table);
        let operation = operation(random, &table, [2, 4, 4]);
        let is_send = matches!(operation, Operation::Send { .. });
        let target = if is_send && random.chance(self_loops_in_ten, 10) {
            source
        } else {
            random.state_of(&table)
        };
        push(random, &mut table, source, target, operation);
    }
    some_bad(random, &mut table);
    table
}

fn empty_table(random: &mut Random, states: Span, channels: Span, messages: Span) -> Table {
    let states = random.between(states.0, states.1) as u16;
    let channels = random.between(channels.0, channels.1) as u8;
    let messages = random.between(messages.0, messages.1) as u8;
    let start = random.below(states.into()) as u16;
    Table::new(states, channels, messages, start)
}

/// An operation; the weights are those of quiet, send and receive.
fn operation(random: &mut Random, table: &Table, weights: [usize; 3]) -> Operation {
    let (channel, message) = (random.small(table.channels), random.small(table.messages));
    let drawn = random.below(weights.iter().sum());
    if drawn < weights[0] {
        Operation::Quiet
    } else if drawn < weights[0] + weights[1] {
        Operation::Send { channel, message }
    } else {
        Operation::Receive { channel, message }
    }
}

fn push(random: &mut Random, table: &mut Table, source: u16, target: u16, operation: Operation) {
    let label = if random.chance(1, 4) {
        random.byte()
    } else {
        0
    };
    table.transitions.push(Transition {
        source,
        target,
        operation,
        label,
    });
}

/// Marks none, one or a few states bad; the start seldom.
fn some_bad(random: &mut Random, table: &mut Table) {
    for _ in 0..random.below(4) {
        let state = random.state_of(table);
        if state != table.start || random.chance(1, 10) {
            table.set_bad(state);
        }
    }
}

/// States that each resend something, joined by receives.
fn resending(random: &mut Random) -> Table {
    let mut table = empty_table(random, (3, 8), (1, 3), (2, 4));
    for state in 0..table.states {
        for _ in 0..random.below(3) {
            let send = operation(random, &table, [0, 1, 0]);
            push(random, &mut table, state, state, send);
        }
        for _ in 0..random.between(1, 2) {
            let target = random.state_of(&table);
            let receive = operation(random, &table, [1, 1, 6]);
            push(random, &mut table, state, target, receive);
        }
    }
    some_bad(random, &mut table);
    table
}

/// A circle of sends through all states, with short cuts and a few receives.
fn circles(random: &mut Random) -> Table {
    let mut table = empty_table(random, (2, 4), (1, 3), (1, 3));
    for state in 0..table.states {
        let next = (state + 1) % table.states;
        let send = operation(random, &table, [1, 6, 0]);
        push(random, &mut table, state, next, send);
    }
    for _ in 0..random.below(4) {
        let (source, target) = (random.state_of(&table), random.state_of(&table));
        let turning = operation(random, &table, [1, 3, 2]);
        push(random, &mut table, source, target, turning);
    }
    if random.chance(1, 4) {
        some_bad(random, &mut table);
    }
    table
}

/// One side of [`two_machines`]: where each move leads from, to, and what it does.
type Machine = Vec<(u16, u16, Operation)>;

/// Two machines, each sending on its own channel and receiving on the other's.
fn two_machines(random: &mut Random) -> Table {
    let (first, second) = (random.between(2, 4) as u16, random.between(2, 4) as u16);
    let messages = random.between(1, 3) as u8;
    let first_moves = machine(random, first, messages, 0);
    let second_moves = machine(random, second, messages, 1);
    let mut table = Table::new(first * second, 2, messages, 0);
    for &(source, target, operation) in &first_moves {
        for other in 0..second {
            let (from, to) = (source * second + other, target * second + other);
            push(random, &mut table, from, to, operation);
        }
    }
    for &(source, target, operation) in &second_moves {
        for other in 0..first {
            let (from, to) = (other * second + source, other * second + target);
            push(random, &mut table, from, to, operation);
        }
    }
    some_bad(random, &mut table);
    table
}

fn machine(random: &mut Random, states: u16, messages: u8, own_channel: u8) -> Machine {
    let mut moves = Vec::new();
    for source in 0..states {
        for _ in 0..random.between(1, 3) {
            let message = random.small(messages);
            let elsewhere = random.below(states.into()) as u16;
            moves.push(match random.below(6) {
                0 => (source, elsewhere, Operation::Quiet),
                1 => (source, elsewhere, send(own_channel, message)),
                2 | 3 => (source, source, send(own_channel, message)),
                _ => (source, elsewhere, receive(1 - own_channel, message)),
            });
        }
    }
    moves
}

fn send(channel: u8, message: u8) -> Operation {
    Operation::Send { channel, message }
}

fn receive(channel: u8, message: u8) -> Operation {
    Operation::Receive { channel, message }
}

/// A way through the states in order to a bad last one. Each receive takes a message that a run can
/// have waiting; in a third of the tables one step is then changed, which may block the way.
fn hidden(random: &mut Random) -> Table {
    let mut table = empty_table(random, (5, 16), (1, 2), (2, 4));
    table.start = 0;
    let mut waiting = vec![Vec::new(); table.channels.into()];
    for state in 0..table.states - 1 {
        if random.chance(1, 3) {
            let (channel, message) = (random.small(table.channels), random.small(table.messages));
            let times = random.between(1, 3);
            waiting[usize::from(channel)].extend(vec![message; times]);
            push(random, &mut table, state, state, send(channel, message));
        }
        let step = hidden_step(random, &table, &mut waiting);
        push(random, &mut table, state, state + 1, step);
    }
    if random.chance(1, 3) {
        let changed = random.below(table.transitions.len());
        table.transitions[changed].operation = operation(random, &table, [1, 2, 5]);
    }
    for _ in 0..random.below(4) {
        let (source, target) = (random.state_of(&table), random.state_of(&table));
        let turning = operation(random, &table, [1, 2, 6]);
        push(random, &mut table, source, target.min(source), turning);
    }
    table.set_bad(table.states - 1);
    table
}

/// A step of the hidden way; `waiting` is what can wait in each channel, and is kept up to date.
fn hidden_step(random: &mut Random, table: &Table, waiting: &mut [Vec<u8>]) -> Operation {
    let channel = random.small(table.channels);
    let contents = &mut waiting[usize::from(channel)];
    if !contents.is_empty() && random.chance(3, 5) {
        // What stands before the message is lost.
        let place = random.below(contents.len().min(2));
        let message = contents[place];
        contents.drain(..=place);
        return receive(channel, message);
    }
    if random.chance(1, 5) {
        return Operation::Quiet;
    }
    let message = random.small(table.messages);
    contents.push(message);
    send(channel, message)
}

/// A way through the states in order with few sends, some resending, and turnings that mostly
/// receive; up to 1,024 transitions.
fn long(random: &mut Random) -> Table {
    let states = if random.chance(2, 3) {
        (30, 200)
    } else {
        (200, 1000)
    };
    let mut table = empty_table(random, states, (1, 4), (1, 15));
    if random.chance(1, 20) {
        table = Table::new(4096, table.channels, table.messages, 0);
    }
    table.start = 0;
    let way = table.states.min(1000);
    let sends = random.below(4);
    for state in 0..way - 1 {
        let step = operation(random, &table, [usize::from(way) / 8, sends, 0]);
        push(random, &mut table, state, state + 1, step);
    }
    for _ in 0..random.below(3) {
        let state = random.state_of(&table);
        let send = operation(random, &table, [0, 1, 0]);
        push(random, &mut table, state, state, send);
    }
    // Without ways back no content grows for ever, so that long searches come to an end too.
    let ways_back = random.chance(1, 3);
    let most = 1024 - table.transitions.len();
    for _ in 0..random.between(0, most) {
        let (one, other) = (random.state_of(&table), random.state_of(&table));
        let turning = operation(random, &table, [1, 1, 40]);
        let (source, target) = if ways_back {
            (one, other)
        } else {
            (one.min(other), one.max(other))
        };
        push(random, &mut table, source, target, turning);
    }
    if random.chance(1, 3) {
        table.set_bad(table.states - 1);
    }
    table
}

/// A well-formed list for a table: rows in random states with small products, now and then the start.
pub fn list(random: &mut Random, table: &Table, rows_max: usize, atoms_max: usize) -> Vec<u8> {
    let mut bytes = Vec::new();
    for _ in 0..random.between(0, rows_max) {
        let state = if random.chance(1, 3) {
            table.start
        } else {
            random.state_of(table)
        };
        let products: Vec<Vec<u16>> = (0..table.channels)
            .map(|_| product(random, table.messages, atoms_max))
            .collect();
        push_row(&mut bytes, state, &products);
    }
    bytes
}

/// Run words that mostly can be played, with some losses and a few slips; half of those that come to
/// a bad state end there.
pub fn run(random: &mut Random, table: &Table, steps_max: usize) -> Vec<u16> {
    let steps = random.between(0, steps_max);
    walk(random, table, steps, 1)
}

/// Such a run of so many steps, or fewer where it cannot go on, with that many slips to thirty steps.
pub fn walk(random: &mut Random, table: &Table, steps: usize, slips: usize) -> Vec<u16> {
    let mut words = Vec::new();
    let mut state = table.start;
    let mut contents = vec![VecDeque::new(); table.channels.into()];
    for _ in 0..steps {
        let slip = random.chance(slips, 30);
        let fits = |transition: &Transition| match transition.operation {
            Operation::Receive { channel, message } => {
                slip || contents[usize::from(channel)].front() == Some(&message)
            }
            _ => true,
        };
        let choices: Vec<usize> = (0..table.transitions.len())
            .filter(|&number| table.transitions[number].source == state)
            .filter(|&number| fits(&table.transitions[number]))
            .collect();
        if choices.is_empty() {
            if slip {
                words.push(random.number() as u16);
            }
            break;
        }
        let number = choices[random.below(choices.len())];
        let mut lost = slip && random.chance(1, 3);
        match table.transitions[number].operation {
            Operation::Quiet => {}
            Operation::Receive { channel, .. } => {
                contents[usize::from(channel)].pop_front();
            }
            Operation::Send { channel, message } => {
                lost = random.chance(1, 4);
                if !lost {
                    contents[usize::from(channel)].push_back(message);
                }
            }
        }
        words.push(number as u16 | if lost { LOST } else { 0 });
        state = table.transitions[number].target;
        if table.is_bad(state) && random.chance(1, 2) {
            break;
        }
    }
    words
}

/// Bytes of a table or list with one or two things spoiled; now and then nothing but noise.
pub fn damaged(random: &mut Random, bytes: &[u8]) -> Vec<u8> {
    if random.chance(1, 20) {
        return (0..random.below(40)).map(|_| random.byte()).collect();
    }
    let mut damaged = bytes.to_vec();
    for _ in 0..random.between(1, 2) {
        damaged = damaged_once(random, &damaged);
    }
    damaged
}

fn damaged_once(random: &mut Random, bytes: &[u8]) -> Vec<u8> {
    let mut records = records_of(bytes);
    if records.is_empty() {
        return vec![random.byte(); random.below(8)];
    }
    let (one, other) = (random.below(records.len()), random.below(records.len()));
    let place = random.below(records[one].len());
    match random.below(10) {
        0 => return bytes[..random.below(bytes.len())].to_vec(),
        1 => records[one][place] = random.byte(),
        2 => records[one][place] ^= 1 << random.below(8),
        3 => records[one][place] = records[one][place].wrapping_add(1),
        4 => records.swap(one, other),
        5 => {
            let doubled = records[one].clone();
            records.insert(other, doubled);
        }
        6 => {
            records.remove(one);
        }
        7 => records[one].push(random.byte()),
        8 => {
            // The last record again: a bad state that does not rise, or one row too many.
            let times = if random.chance(1, 10) { 1024 } else { 1 };
            let last = records[records.len() - 1].clone();
            records.push(last.repeat(times));
        }
        // Another kind, so that it is unknown or out of turn.
        _ => {
            let kind = [1, 2, 3, 4, 16][random.below(5)];
            if let Some(low) = records[one].get_mut(2) {
                *low = kind;
            }
        }
    }
    records.concat()
}

/// The bytes cut into records, the last one perhaps short.
pub fn records_of(bytes: &[u8]) -> Vec<Vec<u8>> {
    let mut records = Vec::new();
    let mut rest = bytes;
    while !rest.is_empty() {
        let length = match rest {
            [low, high, ..] => HEAD_BYTES + usize::from(u16::from_le_bytes([*low, *high])),
            _ => rest.len(),
        };
        let (record, later) = rest.split_at(length.min(rest.len()));
        records.push(record.to_vec());
        rest = later;
    }
    records
}

//! The tables that are timed: protocols of the papers, tables that fill all rows, the longest ones.

use crate::compare::chains;
use crate::random::Random;
use crate::table::{
    Operation, Table, Transition, CHANNELS_MAX, MESSAGES_MAX, STATES_MAX, TRANSITIONS_MAX,
};

/// A table and what it is called in the results.
pub struct Named {
    pub name: String,
    pub table: Vec<u8>,
}

fn named(name: impl Into<String>, table: Vec<u8>) -> Named {
    let name = name.into();
    Named { name, table }
}

pub const ALTERNATING_BIT: &[u8] = include_bytes!("../../../examples/alternating-bit.table");
pub const RECALL: &[u8] = include_bytes!("../../../examples/recall.table");

/// All of them, in the order of the results.
pub fn tables() -> Vec<Named> {
    let mut tables = vec![
        named("alternating bit", ALTERNATING_BIT.to_vec()),
        named("recall", RECALL.to_vec()),
    ];
    for (resent, which) in [(Resent::Any, "any"), (Resent::Oldest, "oldest")] {
        for numbers in 2..=WINDOW_MAX {
            let table = sliding_window(numbers, resent).to_bytes();
            let name = format!("sliding window, {numbers} numbers, {which} resent");
            tables.push(named(name, table));
        }
    }
    for seed in 1..=3 {
        let table = dense(seed).to_bytes();
        tables.push(named(format!("dense, seed {seed}"), table));
    }
    let [.., quiet_chain, receiving_chain] = &chains()[..] else {
        panic!("there are chains");
    };
    tables.push(named("chain of quiet moves", quiet_chain.clone()));
    tables.push(named("chain of receives", receiving_chain.clone()));
    tables.push(named("longest table, start good", longest(1).to_bytes()));
    tables.push(named("longest table", longest(0).to_bytes()));
    tables
}

/// With more sequence numbers than this a sliding window has over 1,024 transitions.
pub const WINDOW_MAX: u16 = 4;

const MESSAGES: u8 = 0;
const ACKNOWLEDGEMENTS: u8 = 1;

/// Which of the messages that are not acknowledged a sender sends again and again.
#[derive(Clone, Copy, Debug, PartialEq, Eq)]
pub enum Resent {
    /// Any of them, and this is how they are sent at all.
    Any,
    /// The oldest; each is sent once when the sender takes it.
    Oldest,
}

/// The sliding-window protocol of 004, section 6, with so many sequence numbers: a sender's window of
/// one less, a receiver's of one, watched by a counter of what is on its way, which is bad where it
/// leaves its range. An acknowledgement stands for all before it. A message that nobody waits for is
/// left to be lost.
///
/// The counter is what the sender took less what the receiver handed over, so it follows from both
/// but for the bad states, which are one here.
pub fn sliding_window(numbers: u16, resent: Resent) -> Table {
    let bad = 2 * numbers * numbers * numbers;
    let mut table = Table::new(bad + 1, 2, numbers as u8, 0);
    for place in 0..bad {
        for (there, operation) in Window::at(place, numbers).moves(resent) {
            table.transitions.push(Transition {
                source: place,
                target: there.map_or(bad, Window::place),
                operation,
                label: 0,
            });
        }
    }
    table.set_bad(bad);
    table
}

/// A state of the sliding window.
#[derive(Clone, Copy)]
struct Window {
    numbers: u16,
    /// The oldest message that is not acknowledged, and how many there are.
    oldest: u16,
    open: u16,
    /// The message that the receiver waits for, or holds and has not handed over yet.
    expected: u16,
    holds: bool,
}

impl Window {
    fn at(place: u16, numbers: u16) -> Window {
        Window {
            numbers,
            oldest: place / 2 / numbers / numbers,
            open: place / 2 / numbers % numbers,
            expected: place / 2 % numbers,
            holds: place % 2 == 1,
        }
    }

    fn place(self) -> u16 {
        ((self.oldest * self.numbers + self.open) * self.numbers + self.expected) * 2
            + u16::from(self.holds)
    }

    /// How many messages the sender took that the receiver did not hand over.
    fn on_the_way(self) -> u16 {
        (self.oldest + self.open + self.numbers - self.expected) % self.numbers
    }

    /// Where each move leads, and what it does; `None` is the bad state.
    fn moves(self, resent: Resent) -> Vec<(Option<Window>, Operation)> {
        let mut moves = Vec::new();
        let number = |number: u16| number % self.numbers;
        let send = |channel, number: u16| Operation::Send {
            channel,
            message: number as u8,
        };
        let receive = |channel, number: u16| Operation::Receive {
            channel,
            message: number as u8,
        };
        let most = self.numbers - 1;
        if self.open < most {
            let taken = Window {
                open: self.open + 1,
                ..self
            };
            let take = match resent {
                Resent::Any => Operation::Quiet,
                Resent::Oldest => send(MESSAGES, number(self.oldest + self.open)),
            };
            moves.push(((self.on_the_way() < most).then_some(taken), take));
        }
        let again = match resent {
            Resent::Any => self.open,
            Resent::Oldest => self.open.min(1),
        };
        for known in 0..again {
            moves.push((Some(self), send(MESSAGES, number(self.oldest + known))));
        }
        for known in 0..self.open {
            let last = number(self.oldest + known);
            let acknowledged = Window {
                oldest: number(last + 1),
                open: self.open - known - 1,
                ..self
            };
            moves.push((Some(acknowledged), receive(ACKNOWLEDGEMENTS, last)));
        }
        if self.holds {
            let handed_over = Window {
                expected: number(self.expected + 1),
                holds: false,
                ..self
            };
            let something = self.on_the_way() > 0;
            moves.push((something.then_some(handed_over), Operation::Quiet));
        } else {
            let holding = Window {
                holds: true,
                ..self
            };
            let before = number(self.expected + most);
            moves.push((Some(self), send(ACKNOWLEDGEMENTS, before)));
            moves.push((Some(holding), receive(MESSAGES, self.expected)));
        }
        moves
    }
}

/// As many transitions as there may be between few states, on 4 channels with 15 messages; half of them
/// receive. Nothing is bad, and the rows that a search makes fill all there is room for.
pub fn dense(seed: u64) -> Table {
    let random = &mut Random::new(seed);
    let mut table = Table::new(DENSE_STATES, CHANNELS_MAX, MESSAGES_MAX, 0);
    for _ in 0..TRANSITIONS_MAX {
        let [source, target] = [(); 2].map(|()| random.below(DENSE_STATES.into()) as u16);
        let channel = random.below(CHANNELS_MAX.into()) as u8;
        let message = random.below(MESSAGES_MAX.into()) as u8;
        let operation = match random.below(10) {
            0 => Operation::Quiet,
            1..=4 => Operation::Send { channel, message },
            _ => Operation::Receive { channel, message },
        };
        table.transitions.push(Transition {
            source,
            target,
            operation,
            label: 0,
        });
    }
    table
}

const DENSE_STATES: u16 = 48;

/// A table of 1,024 transitions whose states are all bad from `first_bad` on; with 0 the longest of
/// all.
fn longest(first_bad: u16) -> Table {
    let mut table = Table::new(STATES_MAX, 4, 15, 0);
    let turning = Transition {
        source: 0,
        target: 0,
        operation: Operation::Quiet,
        label: 0,
    };
    table.transitions = vec![turning; TRANSITIONS_MAX];
    for state in first_bad..STATES_MAX {
        table.set_bad(state);
    }
    table
}

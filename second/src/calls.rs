//! Calls of the C library as values: what is lent to a function, what it answers, what it leaves.
//!
//! A function is added here in three places: its number, the call that is made of its arguments, and
//! how the second program answers it.

use crate::answers::{
    lcs_check_table, lcs_contained, lcs_judge, lcs_normal, lcs_receive, lcs_replay, lcs_search,
    lcs_write_list, Answer,
};
use std::{fmt, io};

/// A function of the C library. Its number is its place in the driver's table.
#[derive(Clone, Copy, Debug, PartialEq, Eq)]
pub enum Function {
    Contained = 0,
    Normal = 1,
    Receive = 2,
    CheckTable = 3,
    Search = 4,
    Replay = 5,
    WriteList = 6,
    Judge = 7,
}

/// What is lent to a call. A plain number is one of `Numbers`.
#[derive(Clone, Debug, PartialEq, Eq)]
pub enum Lent {
    Bytes(Vec<u8>),
    Words(Vec<u16>),
    Numbers(Vec<u64>),
}

/// Bytes as they stand, words as four hex digits each, numbers as decimal ones.
impl fmt::Display for Lent {
    fn fmt(&self, out: &mut fmt::Formatter) -> fmt::Result {
        match self {
            Lent::Bytes(bytes) => bytes.iter().try_for_each(|byte| write!(out, "{byte:02x}")),
            Lent::Words(words) => words.iter().try_for_each(|word| write!(out, "{word:04x} ")),
            Lent::Numbers(numbers) => numbers
                .iter()
                .try_for_each(|number| write!(out, "{number} ")),
        }
    }
}

/// A function and what is lent to it, as it is before the call.
#[derive(Clone, Debug, PartialEq, Eq)]
pub struct Call {
    pub function: Function,
    pub lent: Vec<Lent>,
}

/// What came of a call.
#[derive(Clone, Debug, PartialEq, Eq)]
pub struct Reply {
    pub answer: u32,
    /// What was lent, as the call left it: every place.
    pub lent: Vec<Lent>,
    /// Whether memory just outside the lent places was written.
    pub wrote_outside: bool,
}

/// Whoever answers calls: the proved library behind its driver, or a stand-in in tests.
pub trait Library {
    /// The replies to these calls, in order.
    fn replies(&mut self, calls: &[Call]) -> io::Result<Vec<Reply>>;
}

/// What stands in the three places for an answer's numbers before a call, which must fill them all.
fn not_filled() -> Lent {
    Lent::Numbers(vec![0xDEAD_BEEF_0BAD_F00D; 3])
}

impl Call {
    pub fn contained(p: Vec<u16>, q: Vec<u16>) -> Call {
        Call::of(Function::Contained, vec![Lent::Words(p), Lent::Words(q)])
    }

    pub fn normal(p: Vec<u16>) -> Call {
        Call::of(Function::Normal, vec![Lent::Words(p)])
    }

    pub fn receive(p: Vec<u16>, message: u8) -> Call {
        let message = Lent::Numbers(vec![message.into()]);
        Call::of(Function::Receive, vec![Lent::Words(p), message])
    }

    pub fn check_table(table: Vec<u8>) -> Call {
        let lent = vec![Lent::Bytes(table), not_filled()];
        Call::of(Function::CheckTable, lent)
    }

    pub fn search(table: Vec<u8>, work: Vec<u16>, run: Vec<u16>) -> Call {
        let (work, run) = (Lent::Words(work), Lent::Words(run));
        let lent = vec![Lent::Bytes(table), work, run, not_filled()];
        Call::of(Function::Search, lent)
    }

    pub fn replay(table: Vec<u8>, run: Vec<u16>) -> Call {
        let lent = vec![Lent::Bytes(table), Lent::Words(run), not_filled()];
        Call::of(Function::Replay, lent)
    }

    pub fn write_list(table: Vec<u8>, work: Vec<u16>, rows: u64, list: Vec<u8>) -> Call {
        let (work, rows) = (Lent::Words(work), Lent::Numbers(vec![rows]));
        let lent = vec![
            Lent::Bytes(table),
            work,
            rows,
            Lent::Bytes(list),
            not_filled(),
        ];
        Call::of(Function::WriteList, lent)
    }

    pub fn judge(table: Vec<u8>, list: Vec<u8>) -> Call {
        let lent = vec![Lent::Bytes(table), Lent::Bytes(list), not_filled()];
        Call::of(Function::Judge, lent)
    }

    fn of(function: Function, lent: Vec<Lent>) -> Call {
        Call { function, lent }
    }

    /// The second program's own reply.
    pub fn reply(&self) -> Reply {
        let mut lent = self.lent.clone();
        let answer = match (self.function, &mut lent[..]) {
            (Function::Contained, [Lent::Words(p), Lent::Words(q)]) => lcs_contained(p, q),
            (Function::Normal, [Lent::Words(p)]) => lcs_normal(p),
            // A message is one byte.
            (Function::Receive, [Lent::Words(p), Lent::Numbers(n)]) => lcs_receive(p, n[0] as u8),
            (Function::CheckTable, [Lent::Bytes(table), Lent::Numbers(out)]) => {
                filled(out, lcs_check_table(table))
            }
            (
                Function::Search,
                [Lent::Bytes(table), Lent::Words(work), Lent::Words(run), Lent::Numbers(out)],
            ) => filled(out, lcs_search(table, work, run)),
            (Function::Replay, [Lent::Bytes(table), Lent::Words(run), Lent::Numbers(out)]) => {
                filled(out, lcs_replay(table, run))
            }
            (
                Function::WriteList,
                [Lent::Bytes(table), Lent::Words(work), Lent::Numbers(rows), Lent::Bytes(list), Lent::Numbers(out)],
            ) => filled(out, lcs_write_list(table, work, rows[0], list)),
            (Function::Judge, [Lent::Bytes(table), Lent::Bytes(list), Lent::Numbers(out)]) => {
                filled(out, lcs_judge(table, list))
            }
            (function, lent) => panic!("{function:?} does not take {lent:?}"),
        };
        Reply {
            answer,
            lent,
            wrote_outside: false,
        }
    }
}

/// The answer's code, when its numbers are put where they belong.
fn filled(out: &mut [u64], (code, numbers): Answer) -> u32 {
    out.copy_from_slice(&numbers);
    code
}

//! Every answer as the numbers the C library gives, so that the two can be compared one to one.
//!
//! A call answers a code and three numbers; unused ones are 0. Code 4 is a refusal: its number, the
//! input's number and the place.

use crate::judge::{judge, Judgement};
use crate::list::write_list;
use crate::product::{contained, is_atom, received, Product, OUTCOME_ATOMS_MAX};
use crate::refusal::Refusal;
use crate::replay::{replay, Replay};
use crate::search::{search, Verdict};
use crate::table::{Table, MESSAGES_MAX};

/// The code and the three numbers of an answer.
pub type Answer = (u32, [u64; 3]);

/// Words that are no product: one is no atom, or there are over 25.
pub const NO_PRODUCT: u32 = 65_535;
/// A receive that is impossible.
pub const IMPOSSIBLE: u32 = 65_534;

fn answer(code: u32, numbers: [usize; 3]) -> Answer {
    (code, numbers.map(|number| number as u64))
}

fn or_refused<T>(result: Result<T, Refusal>, good: impl Fn(T) -> Answer) -> Answer {
    match result {
        Ok(value) => good(value),
        Err(refusal) => {
            let (number, input) = (refusal.number, refusal.input.number());
            answer(4, [number.into(), input.into(), refusal.place])
        }
    }
}

pub fn lcs_check_table(table: &[u8]) -> Answer {
    or_refused(Table::read(table), |table| {
        let bad = table.bad_states().count();
        answer(0, [table.states.into(), table.transitions.len(), bad])
    })
}

pub fn lcs_search(table: &[u8], work: &mut [u16], run: &mut [u16]) -> Answer {
    or_refused(search(table, work, run), |verdict| match verdict {
        Verdict::Safe { rows } => answer(0, [rows, 0, 0]),
        Verdict::Unsafe { rows, steps } => answer(1, [rows, steps, 0]),
        Verdict::RowsFull {
            rows,
            row,
            transition,
        } => answer(2, [rows, row, transition]),
        Verdict::AtomsFull {
            rows,
            row,
            transition,
        } => answer(3, [rows, row, transition]),
    })
}

pub fn lcs_write_list(table: &[u8], work: &[u16], rows: u64, list: &mut [u8]) -> Answer {
    or_refused(write_list(table, work, rows, list), |bytes| {
        answer(0, [bytes, 0, 0])
    })
}

pub fn lcs_judge(table: &[u8], list: &[u8]) -> Answer {
    or_refused(judge(table, list), |judgement| match judgement {
        Judgement::Accepted => answer(0, [0; 3]),
        Judgement::NoStart => answer(1, [0; 3]),
        Judgement::BadRow { row } => answer(2, [row, 0, 0]),
        Judgement::NotClosed { row, transition } => answer(3, [row, transition, 0]),
    })
}

pub fn lcs_replay(table: &[u8], run: &[u16]) -> Answer {
    or_refused(replay(table, run), |replay| match replay {
        Replay::ReachesBad { steps } => answer(0, [steps, 0, 0]),
        Replay::EndsElsewhere { state } => answer(1, [state.into(), 0, 0]),
        Replay::Stuck { step } => answer(2, [step, 0, 0]),
    })
}

/// 1 yes, 0 no, 2 if one of the two is no product.
pub fn lcs_contained(p: &[u16], q: &[u16]) -> u32 {
    if !is_product(p) || !is_product(q) {
        return 2;
    }
    contained(p, q).into()
}

/// Puts the normal form at the front of `p` and gives its count; the later places keep their values.
pub fn lcs_normal(p: &mut [u16]) -> u32 {
    if !is_product(p) {
        return NO_PRODUCT;
    }
    let mut product = Product::copy_of(p);
    product.normalise();
    put_in_front(p, product.atoms())
}

/// Puts what a receive leaves at the front of `p` and gives its count.
pub fn lcs_receive(p: &mut [u16], message: u8) -> u32 {
    if !is_product(p) {
        return NO_PRODUCT;
    }
    if message >= MESSAGES_MAX {
        return IMPOSSIBLE;
    }
    match received(p, message).map(Product::copy_of) {
        Some(left) => put_in_front(p, left.atoms()),
        None => IMPOSSIBLE,
    }
}

fn is_product(words: &[u16]) -> bool {
    words.len() <= OUTCOME_ATOMS_MAX && words.iter().all(|&word| is_atom(word, MESSAGES_MAX))
}

fn put_in_front(p: &mut [u16], atoms: &[u16]) -> u32 {
    p[..atoms.len()].copy_from_slice(atoms);
    // At most 25.
    atoms.len() as u32
}

//! The judge: does a list of rows hold the start, nothing bad, and every move from it?
//!
//! It takes nothing on trust: not who made the list, not that products are normal.

use crate::list::{read_list, ListRow};
use crate::refusal::Refusal;
use crate::table::Table;

#[derive(Clone, Copy, Debug, PartialEq, Eq)]
pub enum Judgement {
    NoStart,
    BadRow {
        row: usize,
    },
    /// The outcome of this row and transition is contained in no single row of the list.
    NotClosed {
        row: usize,
        transition: usize,
    },
    Accepted,
}

/// Judges a list for a table.
pub fn judge(table: &[u8], list: &[u8]) -> Result<Judgement, Refusal> {
    let table = Table::read(table)?;
    let rows = read_list(&table, list)?;
    Ok(judge_rows(&table, &rows))
}

/// The first of the four answers that holds.
fn judge_rows(table: &Table, rows: &[ListRow]) -> Judgement {
    // Every product has the empty word, so any row in the start state has the start.
    if !rows.iter().any(|row| row.row().state == table.start) {
        return Judgement::NoStart;
    }
    if let Some(row) = rows.iter().position(|row| table.is_bad(row.row().state)) {
        return Judgement::BadRow { row };
    }
    for row in 0..rows.len() {
        if let Some(transition) = open_transition(table, rows, row) {
            return Judgement::NotClosed { row, transition };
        }
    }
    Judgement::Accepted
}

/// The lowest transition that leads out of the list from this row.
fn open_transition(table: &Table, rows: &[ListRow], row: usize) -> Option<usize> {
    let from = rows[row].row();
    table.transitions.iter().position(|transition| {
        transition.source == from.state
            && from.outcome(transition).is_some_and(|outcome| {
                let outcome = outcome.row();
                !rows
                    .iter()
                    .any(|other| outcome.is_contained_in(&other.row()))
            })
    })
}

//! The search: rows in the order they are made, and for each its transitions in file order.

use crate::product::ATOMS_MAX;
use crate::refusal::Refusal;
use crate::row::Row;
use crate::run::rebuild_run;
use crate::table::Table;
use crate::work::{self, ROW_WORDS};

/// How a search ends. `rows` are the rows made, which stand in the work table.
#[derive(Clone, Copy, Debug, PartialEq, Eq)]
pub enum Verdict {
    Safe {
        rows: usize,
    },
    /// The run's words stand at the front of the run buffer.
    Unsafe {
        rows: usize,
        steps: usize,
    },
    /// No room for the outcome of this row and transition.
    RowsFull {
        rows: usize,
        row: usize,
        transition: usize,
    },
    /// More than 24 atoms in a product of the outcome of this row and transition.
    AtomsFull {
        rows: usize,
        row: usize,
        transition: usize,
    },
}

impl Verdict {
    /// The rows made.
    pub fn rows(&self) -> usize {
        match *self {
            Verdict::Safe { rows }
            | Verdict::Unsafe { rows, .. }
            | Verdict::RowsFull { rows, .. }
            | Verdict::AtomsFull { rows, .. } => rows,
        }
    }
}

/// Searches a table file over lent words. Rows go to `work`, and with an unsafe verdict the run
/// goes to `run`; no other word is touched.
pub fn search(table: &[u8], work: &mut [u16], run: &mut [u16]) -> Result<Verdict, Refusal> {
    search_table(&Table::read(table)?, work, run)
}

/// The same for a table that is read already. A work table (7) or run buffer (8) that is too short
/// comes before any verdict.
pub fn search_table(table: &Table, work: &mut [u16], run: &mut [u16]) -> Result<Verdict, Refusal> {
    let room = work::room(work.len());
    if room == 0 {
        return Err(Refusal::work_too_short(work.len()));
    }
    if run.len() < 2 * room {
        return Err(Refusal::run_too_short(run.len()));
    }
    Ok(verdict(table, work, room, run))
}

/// The search proper. `work` has `room` rows or more, `run` twice as many words.
fn verdict(table: &Table, work: &mut [u16], room: usize, run: &mut [u16]) -> Verdict {
    if table.is_bad(table.start) {
        return Verdict::Unsafe { rows: 0, steps: 0 };
    }
    work::write_row(work, &Row::empty(table.start), work::NONE, work::NONE);
    let mut rows = 1;
    let mut row = 0;
    while row < rows {
        let state = work::row_at(work, row).state();
        for (transition, moved) in table.transitions.iter().enumerate() {
            if moved.source != state {
                continue;
            }
            let (made, free) = work.split_at_mut(rows * ROW_WORDS);
            let Some(mut outcome) = work::row_at(made, row).row().outcome(moved) else {
                continue;
            };
            outcome.normalise();
            // The order of these tests is the rules' order: bad before contained, both before full.
            if outcome.is_bad(table) {
                let steps = rebuild_run(table, made, row, transition, run);
                return Verdict::Unsafe { rows, steps };
            }
            let outcome = outcome.row();
            if is_contained_in_one(made, &outcome) {
                continue;
            }
            if outcome.products.iter().any(|p| p.len() > ATOMS_MAX) {
                return Verdict::AtomsFull {
                    rows,
                    row,
                    transition,
                };
            }
            if rows == room {
                return Verdict::RowsFull {
                    rows,
                    row,
                    transition,
                };
            }
            // Rows and transitions are at most 1,024, so both fit in a word.
            work::write_row(free, &outcome, row as u16, transition as u16);
            rows += 1;
        }
        row += 1;
    }
    Verdict::Safe { rows }
}

/// Whether one row alone contains the outcome; the first that does ends the look. States are
/// compared first, so that the atoms of other states' rows are never read.
fn is_contained_in_one(made: &[u16], outcome: &Row) -> bool {
    work::rows(made)
        .any(|words| words.state() == outcome.state && outcome.is_contained_in(&words.row()))
}

//! What the checking program prints for the bytes it reads.

use crate::refusal::Refusal;
use crate::run::LOST;
use crate::search::{search_table, Verdict};
use crate::table::{Operation, Table, TABLE_BYTES_MAX};
use crate::work::ROW_WORDS;

/// Rows the checking program has room for.
pub const PROGRAM_ROOM: usize = 256;

/// The whole output for a table. Every line ends in a newline.
pub fn check(table: &[u8]) -> String {
    if table.len() > TABLE_BYTES_MAX {
        return "too long\n".to_string();
    }
    let table = match Table::read(table) {
        Ok(table) => table,
        Err(refusal) => return refused_line(&refusal),
    };
    let mut work = vec![0; PROGRAM_ROOM * ROW_WORDS];
    let mut run = vec![0; 2 * PROGRAM_ROOM];
    match search_table(&table, &mut work, &mut run) {
        Err(refusal) => refused_line(&refusal),
        Ok(Verdict::Safe { rows }) => format!("safe rows {rows}\n"),
        Ok(Verdict::RowsFull {
            row, transition, ..
        }) => format!("rows full at {row} {transition}\n"),
        Ok(Verdict::AtomsFull {
            row, transition, ..
        }) => format!("atoms full at {row} {transition}\n"),
        Ok(Verdict::Unsafe { rows, steps }) => {
            let first = format!("unsafe rows {rows} steps {steps}\n");
            let lines = run[..steps].iter().map(|&word| step_line(&table, word));
            first + &lines.collect::<String>()
        }
    }
}

/// The line for a refusal: number and place, never the input.
pub fn refused_line(refusal: &Refusal) -> String {
    format!("refused {} at {}\n", refusal.number, refusal.place)
}

/// The line of a step: the transition's number and what became of its message. The word is one of
/// a run that the search rebuilt.
fn step_line(table: &Table, word: u16) -> String {
    let number = word & !LOST;
    let happened = match table.transitions[usize::from(number)].operation {
        Operation::Quiet => "quiet",
        Operation::Receive { .. } => "receive",
        Operation::Send { .. } if word & LOST != 0 => "lost",
        Operation::Send { .. } => "kept",
    };
    format!("{number} {happened}\n")
}

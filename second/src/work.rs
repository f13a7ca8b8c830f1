//! The work table: rows laid out in lent words, 103 to a row.
//!
//! State, parent row, transition, then for each of 4 channels a count and 24 atoms. Everything that
//! knows this layout is in this file.

use crate::product::ATOMS_MAX;
use crate::row::{Row, CHANNELS};

/// Words to a row.
pub const ROW_WORDS: usize = 3 + CHANNELS * CHANNEL_WORDS;
/// More rows than this are never made.
pub const ROOM_MAX: usize = 1024;
/// Parent and transition of row 0.
pub const NONE: u16 = 65_535;

const CHANNEL_WORDS: usize = 1 + ATOMS_MAX;
const STATE: usize = 0;
const PARENT: usize = 1;
const TRANSITION: usize = 2;

/// The whole rows that fit in so many words.
pub fn room(words: usize) -> usize {
    (words / ROW_WORDS).min(ROOM_MAX)
}

/// The rows that stand at the front of the work table, each as its words.
pub fn rows(work: &[u16]) -> impl Iterator<Item = RowWords<'_>> {
    work.chunks_exact(ROW_WORDS).map(RowWords)
}

/// The words of one row; the row must be within the room.
pub fn row_at(work: &[u16], row: usize) -> RowWords<'_> {
    RowWords(&work[row * ROW_WORDS..][..ROW_WORDS])
}

/// The 103 words of one row.
#[derive(Clone, Copy)]
pub struct RowWords<'a>(&'a [u16]);

impl<'a> RowWords<'a> {
    pub fn state(self) -> u16 {
        self.0[STATE]
    }

    /// The row this row was made from.
    pub fn parent(self) -> usize {
        usize::from(self.0[PARENT])
    }

    /// The transition this row was made by.
    pub fn transition(self) -> usize {
        usize::from(self.0[TRANSITION])
    }

    /// The count as it stands; in words that are no row it may be anything.
    pub fn count(self, channel: usize) -> usize {
        usize::from(self.0[count_place(channel)])
    }

    /// The counted atoms of a channel, never more than 24.
    pub fn product(self, channel: usize) -> &'a [u16] {
        let first = count_place(channel) + 1;
        &self.0[first..first + self.count(channel).min(ATOMS_MAX)]
    }

    pub fn row(self) -> Row<'a> {
        Row {
            state: self.state(),
            products: [0, 1, 2, 3].map(|channel| self.product(channel)),
        }
    }
}

/// Writes a row at the front of `words`, all 103 words of it. No product has more than 24 atoms.
pub fn write_row(words: &mut [u16], row: &Row, parent: u16, transition: u16) {
    let words = &mut words[..ROW_WORDS];
    words.fill(0);
    words[STATE] = row.state;
    words[PARENT] = parent;
    words[TRANSITION] = transition;
    for (channel, product) in row.products.iter().enumerate() {
        let place = count_place(channel);
        words[place] = product.len() as u16;
        words[place + 1..][..product.len()].copy_from_slice(product);
    }
}

/// Where a row has the count of a channel; its atoms stand behind it.
pub fn count_place(channel: usize) -> usize {
    3 + channel * CHANNEL_WORDS
}

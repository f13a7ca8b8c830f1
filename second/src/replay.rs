//! The replay: plays a run step by step on plain contents.

use crate::refusal::{Input, Refusal};
use crate::row::CHANNELS;
use crate::run::LOST;
use crate::table::{Operation, Table};
use std::collections::VecDeque;

/// A run has at most this many words.
pub const RUN_WORDS_MAX: usize = 2048;

#[derive(Clone, Copy, Debug, PartialEq, Eq)]
pub enum Replay {
    ReachesBad { steps: usize },
    EndsElsewhere { state: u16 },
    Stuck { step: usize },
}

/// Replays a run on a table. All words are played; the last state decides.
pub fn replay(table: &[u8], run: &[u16]) -> Result<Replay, Refusal> {
    let table = Table::read(table)?;
    if run.len() > RUN_WORDS_MAX {
        return Err(Refusal::too_many(Input::Run, 0));
    }
    let mut player = Player {
        table: &table,
        state: table.start,
        contents: Default::default(),
    };
    if let Some(step) = run.iter().position(|&word| player.play(word).is_none()) {
        return Ok(Replay::Stuck { step });
    }
    Ok(if table.is_bad(player.state) {
        Replay::ReachesBad { steps: run.len() }
    } else {
        Replay::EndsElsewhere {
            state: player.state,
        }
    })
}

/// A configuration that moves.
struct Player<'a> {
    table: &'a Table,
    state: u16,
    contents: [VecDeque<u8>; CHANNELS],
}

impl Player<'_> {
    /// Plays one run word; `None` if it is stuck there.
    fn play(&mut self, word: u16) -> Option<()> {
        let lost = word & LOST != 0;
        let transition = self.table.transitions.get(usize::from(word & !LOST))?;
        if transition.source != self.state {
            return None;
        }
        match transition.operation {
            Operation::Send { channel, message } => {
                // A lost message is gone at its send.
                if !lost {
                    self.contents[usize::from(channel)].push_back(message);
                }
            }
            // Only a send can mark a loss.
            _ if lost => return None,
            Operation::Receive { channel, message } => {
                let contents = &mut self.contents[usize::from(channel)];
                if contents.front() != Some(&message) {
                    return None;
                }
                contents.pop_front();
            }
            Operation::Quiet => {}
        }
        self.state = transition.target;
        Some(())
    }
}

//! The run of an unsafe verdict, rebuilt from the end with every channel empty.

use crate::row::CHANNELS;
use crate::table::{Operation, Table, Transition};
use crate::work;
use std::collections::VecDeque;

/// Added to a transition number in a run word: the message sent was lost.
pub const LOST: u16 = 32_768;

/// Writes the run that ends with `transition` from `row` to the front of `run` and gives its length.
///
/// A run is never longer than twice the rows made, so it fits: moves on the path are no more than
/// the rows, and the kept self-loop sends no more than the receives.
pub fn rebuild_run(
    table: &Table,
    work: &[u16],
    row: usize,
    transition: usize,
    run: &mut [u16],
) -> usize {
    let mut back = Backwards {
        needed: Default::default(),
        run,
        steps: 0,
    };
    let (mut row, mut transition) = (row, transition);
    loop {
        // Transition numbers are below 1,024.
        back.step(&table.transitions[transition], transition as u16);
        if row == 0 {
            break;
        }
        let words = work::row_at(work, row);
        (row, transition) = (words.parent(), words.transition());
    }
    let steps = back.steps;
    run[..steps].reverse();
    steps
}

/// A run being built from its end.
struct Backwards<'a> {
    /// What must wait in each channel for the steps already written.
    needed: [VecDeque<u8>; CHANNELS],
    /// The steps found so far, last step first.
    run: &'a mut [u16],
    steps: usize,
}

impl Backwards<'_> {
    fn step(&mut self, transition: &Transition, number: u16) {
        match transition.operation {
            Operation::Quiet => self.write(number),
            Operation::Receive { channel, message } => {
                self.needed[usize::from(channel)].push_front(message);
                self.write(number);
            }
            Operation::Send { channel, message } if transition.is_self_loop_send() => {
                while self.drops_from_end(channel, message) {
                    self.write(number);
                }
            }
            Operation::Send { channel, message } => {
                let kept = self.drops_from_end(channel, message);
                self.write(if kept { number } else { number + LOST });
            }
        }
    }

    /// Drops the message from the end of its channel's needed word, if it stands there.
    fn drops_from_end(&mut self, channel: u8, message: u8) -> bool {
        let word = &mut self.needed[usize::from(channel)];
        let stands = word.back() == Some(&message);
        if stands {
            word.pop_back();
        }
        stands
    }

    fn write(&mut self, word: u16) {
        self.run[self.steps] = word;
        self.steps += 1;
    }
}

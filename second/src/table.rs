//! The table file: one header, then transitions, then bad states.

use crate::record::{push_record, u16_at, Head, Reader, HEAD_BYTES};
use crate::refusal::{Input, Refusal};

pub const STATES_MAX: u16 = 4096;
pub const CHANNELS_MAX: u8 = 4;
pub const MESSAGES_MAX: u8 = 15;
pub const TRANSITIONS_MAX: usize = 1024;
/// The longest legal table: a header, 1,024 transitions and 4,096 bad states.
pub const TABLE_BYTES_MAX: usize = 36_874;

const HEADER: u16 = 1;
const TRANSITION: u16 = 2;
const BAD_STATE: u16 = 3;

/// What a move does to the channels.
#[derive(Clone, Copy, Debug, PartialEq, Eq)]
pub enum Operation {
    Quiet,
    Send { channel: u8, message: u8 },
    Receive { channel: u8, message: u8 },
}

#[derive(Clone, Copy, Debug, PartialEq, Eq)]
pub struct Transition {
    pub source: u16,
    pub target: u16,
    pub operation: Operation,
    /// Free for the user; 0 is no label.
    pub label: u8,
}

impl Transition {
    /// A send that may go round any number of times.
    pub fn is_self_loop_send(&self) -> bool {
        self.source == self.target && matches!(self.operation, Operation::Send { .. })
    }
}

/// A good table.
#[derive(Clone, Debug, PartialEq, Eq)]
pub struct Table {
    pub states: u16,
    pub channels: u8,
    pub messages: u8,
    pub start: u16,
    pub transitions: Vec<Transition>,
    /// One place for each state.
    bad: Vec<bool>,
}

impl Table {
    /// A table without transitions and bad states.
    pub fn new(states: u16, channels: u8, messages: u8, start: u16) -> Table {
        Table {
            states,
            channels,
            messages,
            start,
            transitions: Vec::new(),
            bad: vec![false; usize::from(states)],
        }
    }

    pub fn is_bad(&self, state: u16) -> bool {
        self.bad.get(usize::from(state)) == Some(&true)
    }

    /// Marks a state as bad. A state the table lacks cannot be bad.
    pub fn set_bad(&mut self, state: u16) {
        if let Some(place) = self.bad.get_mut(usize::from(state)) {
            *place = true;
        }
    }

    /// The bad states, rising.
    pub fn bad_states(&self) -> impl Iterator<Item = u16> + '_ {
        (0..self.states).filter(|&state| self.is_bad(state))
    }

    /// Reads a table file, or refuses it.
    pub fn read(bytes: &[u8]) -> Result<Table, Refusal> {
        let mut reader = Reader::new(bytes, Input::Table);
        let mut table = read_header(&mut reader)?;
        let mut last_bad = None;
        while !reader.at_end() {
            let head = reader.head()?;
            match head.kind {
                TRANSITION if last_bad.is_none() => {
                    let payload = payload_of_length(&mut reader, head, 8)?;
                    table.add_transition(head.start, payload)?;
                }
                BAD_STATE => {
                    let payload = payload_of_length(&mut reader, head, 2)?;
                    last_bad = Some(table.add_bad_state(head.start, payload, last_bad)?);
                }
                _ => return Err(Refusal::wrong_kind(Input::Table, head.start)),
            }
        }
        Ok(table)
    }

    /// Count (6) is tested before the ranges (4).
    fn add_transition(&mut self, record_start: usize, payload: &[u8]) -> Result<(), Refusal> {
        if self.transitions.len() >= TRANSITIONS_MAX {
            return Err(Refusal::too_many(Input::Table, record_start));
        }
        let (source, target) = (u16_at(payload, 0), u16_at(payload, 2));
        let (channel, message) = (payload[5], payload[6]);
        let (channels, messages) = match payload[4] {
            // A quiet transition has channel 0 and message 0.
            0 => (1, 1),
            _ => (self.channels, self.messages),
        };
        in_range(source < self.states, record_start, 0)?;
        in_range(target < self.states, record_start, 2)?;
        let operation = match payload[4] {
            0 => Operation::Quiet,
            1 => Operation::Send { channel, message },
            2 => Operation::Receive { channel, message },
            _ => return Err(wrong_payload_field(record_start, 4)),
        };
        in_range(channel < channels, record_start, 5)?;
        in_range(message < messages, record_start, 6)?;
        self.transitions.push(Transition {
            source,
            target,
            operation,
            label: payload[7],
        });
        Ok(())
    }

    /// Range (4) is tested before rising (5).
    fn add_bad_state(
        &mut self,
        record_start: usize,
        payload: &[u8],
        last_bad: Option<u16>,
    ) -> Result<u16, Refusal> {
        let state = u16_at(payload, 0);
        in_range(state < self.states, record_start, 0)?;
        if last_bad.is_some_and(|last| state <= last) {
            return Err(Refusal::not_rising(Input::Table, record_start));
        }
        self.set_bad(state);
        Ok(state)
    }

    /// The table file of this table.
    pub fn to_bytes(&self) -> Vec<u8> {
        let mut bytes = Vec::new();
        let [states, start] = [self.states, self.start].map(u16::to_le_bytes);
        let header = [
            states[0],
            states[1],
            self.channels,
            self.messages,
            start[0],
            start[1],
        ];
        push_record(&mut bytes, HEADER, &header);
        for transition in &self.transitions {
            push_record(&mut bytes, TRANSITION, &transition_payload(transition));
        }
        for state in self.bad_states() {
            push_record(&mut bytes, BAD_STATE, &state.to_le_bytes());
        }
        bytes
    }
}

/// The first record. The table must have one, so an empty table is one cut short.
fn read_header(reader: &mut Reader) -> Result<Table, Refusal> {
    let head = reader.head()?;
    if head.kind != HEADER {
        return Err(Refusal::wrong_kind(Input::Table, head.start));
    }
    let payload = payload_of_length(reader, head, 6)?;
    let (states, start) = (u16_at(payload, 0), u16_at(payload, 4));
    let (channels, messages) = (payload[2], payload[3]);
    in_range((1..=STATES_MAX).contains(&states), head.start, 0)?;
    in_range((1..=CHANNELS_MAX).contains(&channels), head.start, 2)?;
    in_range((1..=MESSAGES_MAX).contains(&messages), head.start, 3)?;
    in_range(start < states, head.start, 4)?;
    Ok(Table::new(states, channels, messages, start))
}

/// The length (3) is tested before the payload is there (1).
fn payload_of_length<'a>(
    reader: &mut Reader<'a>,
    head: Head,
    length: usize,
) -> Result<&'a [u8], Refusal> {
    if head.length != length {
        return Err(Refusal::wrong_length(Input::Table, head.start));
    }
    reader.payload(head)
}

fn in_range(holds: bool, record_start: usize, payload_offset: usize) -> Result<(), Refusal> {
    if holds {
        Ok(())
    } else {
        Err(wrong_payload_field(record_start, payload_offset))
    }
}

fn wrong_payload_field(record_start: usize, payload_offset: usize) -> Refusal {
    Refusal::wrong_field(Input::Table, record_start, HEAD_BYTES + payload_offset)
}

fn transition_payload(transition: &Transition) -> [u8; 8] {
    let source = transition.source.to_le_bytes();
    let target = transition.target.to_le_bytes();
    let (operation, channel, message) = match transition.operation {
        Operation::Quiet => (0, 0, 0),
        Operation::Send { channel, message } => (1, channel, message),
        Operation::Receive { channel, message } => (2, channel, message),
    };
    let label = transition.label;
    [
        source[0], source[1], target[0], target[1], operation, channel, message, label,
    ]
}

//! Records: a two-byte payload length, a two-byte kind, the payload; all numbers little-endian.

use crate::refusal::{Input, Refusal};

/// Bytes before a payload.
pub const HEAD_BYTES: usize = 4;

/// The first four bytes of a record, and where it starts.
#[derive(Clone, Copy, Debug, PartialEq, Eq)]
pub struct Head {
    pub start: usize,
    pub length: usize,
    pub kind: u16,
}

/// Lent bytes and the place of the next record.
pub struct Reader<'a> {
    bytes: &'a [u8],
    next: usize,
    input: Input,
}

impl<'a> Reader<'a> {
    pub fn new(bytes: &'a [u8], input: Input) -> Reader<'a> {
        Reader {
            bytes,
            next: 0,
            input,
        }
    }

    pub fn at_end(&self) -> bool {
        self.next >= self.bytes.len()
    }

    /// The head of the next record. The reader stays where it is: tables and lists test different
    /// things between head and payload.
    pub fn head(&self) -> Result<Head, Refusal> {
        match self.bytes.get(self.next..self.next + HEAD_BYTES) {
            Some(head) => Ok(Head {
                start: self.next,
                length: usize::from(u16_at(head, 0)),
                kind: u16_at(head, 2),
            }),
            None => Err(Refusal::cut_short(self.input, self.next)),
        }
    }

    /// The payload that belongs to the head just read. The reader goes on to the next record.
    pub fn payload(&mut self, head: Head) -> Result<&'a [u8], Refusal> {
        let first = head.start + HEAD_BYTES;
        let end = first + head.length;
        let payload = self
            .bytes
            .get(first..end)
            .ok_or(Refusal::cut_short(self.input, head.start))?;
        self.next = end;
        Ok(payload)
    }
}

/// The number in the two bytes at `offset`, which must be there.
pub fn u16_at(bytes: &[u8], offset: usize) -> u16 {
    u16::from_le_bytes([bytes[offset], bytes[offset + 1]])
}

/// Adds a record at the end of `bytes`. A payload is at most 65,535 bytes long.
pub fn push_record(bytes: &mut Vec<u8>, kind: u16, payload: &[u8]) {
    let length = u16::try_from(payload.len()).unwrap_or(u16::MAX);
    bytes.extend_from_slice(&length.to_le_bytes());
    bytes.extend_from_slice(&kind.to_le_bytes());
    bytes.extend_from_slice(&payload[..usize::from(length)]);
}

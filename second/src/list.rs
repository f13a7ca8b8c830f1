//! Proof lists: records of kind 16, each a state and a product for each channel of the table.

use crate::product::{is_atom, Product, ATOMS_MAX};
use crate::record::{push_record, u16_at, Head, Reader, HEAD_BYTES};
use crate::refusal::{Input, Refusal};
use crate::row::{Row, CHANNELS};
use crate::table::Table;
use crate::work::{self, RowWords};

/// The kind of a list record.
pub const LIST_ROW: u16 = 16;
/// A list has at most this many rows.
pub const LIST_ROWS_MAX: usize = 1024;

/// A row that was read from a list. Its products need not be normal.
#[derive(Clone, Copy, Debug)]
pub struct ListRow {
    state: u16,
    products: [Product; CHANNELS],
}

impl ListRow {
    pub fn row(&self) -> Row<'_> {
        Row {
            state: self.state,
            products: self.products.each_ref().map(Product::atoms),
        }
    }
}

/// Reads a list for a table, or refuses it. The empty list is well formed.
pub fn read_list(table: &Table, bytes: &[u8]) -> Result<Vec<ListRow>, Refusal> {
    let mut reader = Reader::new(bytes, Input::List);
    let mut rows = Vec::new();
    while !reader.at_end() {
        let head = reader.head()?;
        if head.kind != LIST_ROW {
            return Err(Refusal::wrong_kind(Input::List, head.start));
        }
        let payload = reader.payload(head)?;
        if rows.len() >= LIST_ROWS_MAX {
            return Err(Refusal::too_many(Input::List, head.start));
        }
        rows.push(read_row(table, head, payload)?);
    }
    Ok(rows)
}

/// Fields are tested as they are met, so a wrong number (4) comes before a missing later one (3).
fn read_row(table: &Table, head: Head, payload: &[u8]) -> Result<ListRow, Refusal> {
    let mut fields = Fields {
        head,
        payload,
        next: 0,
    };
    let mut row = ListRow {
        state: fields.number(|state| state < table.states)?,
        products: [Product::EMPTY; CHANNELS],
    };
    for product in &mut row.products[..usize::from(table.channels)] {
        let count = fields.byte(|count| usize::from(count) <= ATOMS_MAX)?;
        for _ in 0..count {
            product.add(fields.number(|atom| is_atom(atom, table.messages))?);
        }
    }
    if fields.next == payload.len() {
        Ok(row)
    } else {
        Err(Refusal::wrong_length(Input::List, head.start))
    }
}

/// The fields of one list record, met in file order.
struct Fields<'a> {
    head: Head,
    payload: &'a [u8],
    next: usize,
}

impl Fields<'_> {
    fn byte(&mut self, good: impl Fn(u8) -> bool) -> Result<u8, Refusal> {
        let value = self.take(1)?[0];
        self.tested(value, 1, good(value))
    }

    fn number(&mut self, good: impl Fn(u16) -> bool) -> Result<u16, Refusal> {
        let value = u16_at(self.take(2)?, 0);
        self.tested(value, 2, good(value))
    }

    fn take(&mut self, bytes: usize) -> Result<&[u8], Refusal> {
        let field = self.payload.get(self.next..self.next + bytes);
        self.next += bytes;
        field.ok_or(Refusal::wrong_length(Input::List, self.head.start))
    }

    /// The field just taken, if it is good.
    fn tested<T>(&self, value: T, bytes: usize, good: bool) -> Result<T, Refusal> {
        if good {
            return Ok(value);
        }
        let field = HEAD_BYTES + self.next - bytes;
        Err(Refusal::wrong_field(Input::List, self.head.start, field))
    }
}

/// Adds the record of a row at the end of `bytes`: its state, and a product for each channel of the
/// table. Whether it is a good row is not asked; a product has under 256 atoms.
pub fn push_row(bytes: &mut Vec<u8>, state: u16, products: &[Vec<u16>]) {
    let mut payload = state.to_le_bytes().to_vec();
    for atoms in products {
        payload.push(atoms.len() as u8);
        payload.extend(atoms.iter().flat_map(|atom| atom.to_le_bytes()));
    }
    push_record(bytes, LIST_ROW, &payload);
}

/// Writes the first `rows` rows of a work table as a list to the front of `list` and gives the
/// bytes written; the bytes past them keep their values.
pub fn write_list(
    table: &[u8],
    work: &[u16],
    rows: u64,
    list: &mut [u8],
) -> Result<usize, Refusal> {
    let table = Table::read(table)?;
    let room = work::room(work.len());
    let rows = match usize::try_from(rows) {
        Ok(rows) if rows <= room => rows,
        _ => return Err(Refusal::wrong_row(room)),
    };
    let rows = || work::rows(work).take(rows);
    if let Some(wrong) = rows().position(|words| !is_row(&table, words)) {
        return Err(Refusal::wrong_row(wrong));
    }
    let needed = rows().map(|words| record_bytes(&table, words)).sum();
    if needed > list.len() {
        return Err(Refusal::list_too_long(needed));
    }
    let mut rest = list;
    for words in rows() {
        let (record, later) = rest.split_at_mut(record_bytes(&table, words));
        write_record(&table, words, record);
        rest = later;
    }
    Ok(needed)
}

/// Whether the words are a row of this table. Atom places past a count, channels the table lacks,
/// parent and transition are not looked at.
fn is_row(table: &Table, words: RowWords) -> bool {
    words.state() < table.states
        && (0..usize::from(table.channels)).all(|channel| {
            words.count(channel) <= ATOMS_MAX
                && words
                    .product(channel)
                    .iter()
                    .all(|&atom| is_atom(atom, table.messages))
        })
}

fn record_bytes(table: &Table, words: RowWords) -> usize {
    let products: usize = (0..usize::from(table.channels))
        .map(|channel| 1 + 2 * words.count(channel))
        .sum();
    HEAD_BYTES + 2 + products
}

/// Fills `record` with the record of a row; it is exactly as long as the record.
fn write_record(table: &Table, words: RowWords, record: &mut [u8]) {
    // A payload has at most 2 + 4 * 49 bytes, a count is at most 24.
    let length = (record.len() - HEAD_BYTES) as u16;
    let mut places = record.iter_mut();
    let mut put = |bytes: &[u8]| {
        for (&byte, place) in bytes.iter().zip(&mut places) {
            *place = byte;
        }
    };
    put(&length.to_le_bytes());
    put(&LIST_ROW.to_le_bytes());
    put(&words.state().to_le_bytes());
    for channel in 0..usize::from(table.channels) {
        put(&[words.count(channel) as u8]);
        for atom in words.product(channel) {
            put(&atom.to_le_bytes());
        }
    }
}

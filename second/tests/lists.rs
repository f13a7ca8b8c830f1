//! Lists: what the writer writes, the reader reads back.

mod common;

use common::*;
use second::list::{read_list, write_list};
use second::random::{self, Random};
use second::row::Row;
use second::table::Table;
use second::work::{write_row, ROW_WORDS};

/// Rows with any products, normal or not, in tables of any counts. Parent and transition are noise.
#[test]
fn any_rows_read_back_as_they_were_written() {
    let mut random = Random::new(61);
    for _ in 0..1000 {
        let (channels, messages) = (random.between(1, 4), random.between(1, 15) as u8);
        let table = Table::new(4096, channels as u8, messages, 0);
        let mut work = Vec::new();
        let mut rows: Vec<PlainRow> = Vec::new();
        for _ in 0..random.below(20) {
            let state = random.below(4096) as u16;
            let mut products = vec![Vec::new(); 4];
            products[..channels].fill_with(|| random::product(&mut random, messages, 24));
            let mut row = Row::empty(state);
            for (place, product) in row.products.iter_mut().zip(&products) {
                *place = product;
            }
            let mut words = [UNTOUCHED; ROW_WORDS];
            write_row(
                &mut words,
                &row,
                random.number() as u16,
                random.number() as u16,
            );
            work.extend(words);
            rows.push((state, products));
        }
        let mut list = vec![0xEE; 20 * 202 + 7];
        let bytes = write_list(&table.to_bytes(), &work, rows.len() as u64, &mut list);
        let (list, rest) = list.split_at(bytes.expect("proper rows"));
        assert!(rest.iter().all(|&byte| byte == 0xEE));
        let read = read_list(&table, list).expect("a written list");
        let read: Vec<PlainRow> = read
            .iter()
            .map(|row| {
                let row = row.row();
                (row.state, row.products.map(<[u16]>::to_vec).to_vec())
            })
            .collect();
        assert_eq!(read, rows);
    }
}

/// The bytes of a list, field by field, for a row on two channels.
#[test]
fn a_list_row_in_bytes() {
    let row = list_row(0x0102, &["0?{1,8}*", ""]);
    assert_eq!(row, hex("0800 1000 0201 02 0100 0281 00"));
}

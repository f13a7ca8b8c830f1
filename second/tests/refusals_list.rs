//! Refusals of a list: each number, its place, and the order of the tests.

mod common;

use common::*;
use second::judge::{judge, Judgement};
use second::refusal::{Input, Refusal};

/// 300 states, 2 channels, 3 messages; nothing moves and nothing is bad.
fn still() -> Vec<u8> {
    table([300, 2, 3, 0], &[])
}

/// A good row of 14 bytes: state 0, channel 0 has one atom, channel 1 two.
fn good_row() -> Vec<u8> {
    let row = list_row(0, &["1?", "2?{0,2}*"]);
    assert_eq!(row.len(), 14);
    row
}

fn refused_list(table: &[u8], list: &[u8], number: u8, place: usize) {
    let refusal = Refusal {
        number,
        input: Input::List,
        place,
    };
    assert_eq!(judge(table, list), Err(refusal), "{list:?}");
}

/// The payload is refused, both as the first record and behind a good one.
fn refused_payload(payload: &[u8], number: u8) {
    let bytes = record(16, payload);
    refused_list(&still(), &bytes, number, 0);
    refused_list(&still(), &[good_row(), bytes].concat(), number, 14);
}

fn good(list: &[u8]) {
    assert_eq!(judge(&still(), list), Ok(Judgement::Accepted), "{list:?}");
}

#[test]
fn a_list_cut_at_any_byte() {
    let list = good_row().repeat(3);
    for cut in 0..list.len() {
        if cut == 0 {
            // The empty list is well formed.
            assert_eq!(judge(&still(), &[]), Ok(Judgement::NoStart));
        } else if cut % 14 == 0 {
            good(&list[..cut]);
        } else {
            refused_list(&still(), &list[..cut], 1, cut / 14 * 14);
        }
    }
}

#[test]
fn only_kind_16_is_known() {
    let payload = &good_row()[4..];
    for kind in [0, 1, 2, 3, 15, 17, 256 + 16, 65_535] {
        let list = [good_row(), record(kind, payload)].concat();
        refused_list(&still(), &list, 2, 14);
    }
}

#[test]
fn rows_1024_and_1025() {
    let row = list_row(0, &["", ""]);
    let many = |last: &[u8]| [row.repeat(1024), last.to_vec()].concat();
    let place = 1024 * 8;
    good(&many(&[]));
    refused_list(&still(), &many(&row), 6, place);
    // Row 1,025 with something else wrong: kind and payload are tested before the count.
    refused_list(&still(), &many(&record(2, &[])), 2, place);
    refused_list(&still(), &many(&row[..7]), 1, place);
    refused_list(&still(), &many(&row[..3]), 1, place);
    refused_list(&still(), &many(&record(16, &[255, 255])), 6, place);
    refused_list(&still(), &many(&record(16, &[])), 6, place);
}

#[test]
fn a_state_in_range() {
    good(&[list_row(0, &["", ""]), list_row(299, &["", ""])].concat());
    refused_payload(&[0x2C, 1, 0, 0], 4);
    refused_payload(&[255, 255, 0, 0], 4);
    // Even if nothing follows.
    refused_payload(&[0x2C, 1], 4);
}

#[test]
fn a_payload_that_ends_early() {
    refused_payload(&[], 3);
    refused_payload(&[0], 3);
    refused_payload(&[255], 3);
    refused_payload(&[0, 0], 3);
    refused_payload(&[0, 0, 0], 3);
    refused_payload(&[0, 0, 1], 3);
    refused_payload(&[0, 0, 1, 1], 3);
    refused_payload(&[0, 0, 1, 1, 0], 3);
    refused_payload(&[0, 0, 0, 2, 1, 0], 3);
    refused_payload(&[0, 0, 0, 2, 1, 0, 1], 3);
    refused_payload(&[0, 0, 24], 3);
    // Every cut of a good payload that the length agrees with.
    let payload = &good_row()[4..];
    for cut in 0..payload.len() {
        refused_payload(&payload[..cut], 3);
    }
}

#[test]
fn bytes_over() {
    let payload = &good_row()[4..];
    for over in 1..5 {
        refused_payload(&[payload, &vec![0; over]].concat(), 3);
    }
    // A wrong atom is met before the bytes over.
    refused_payload(&[0, 0, 1, 0, 0, 0, 9], 4);
}

#[test]
fn counts_up_to_24() {
    let atoms = |count: u8| [1, 0].repeat(count.into());
    let with = |count| [&[0, 0, count][..], &atoms(count), &[0]].concat();
    good(&record(16, &with(24)));
    refused_payload(&with(25), 4);
    refused_payload(&with(255), 4);
    // A count over 24 is 4 even with no atoms; on the second channel too.
    refused_payload(&[0, 0, 25], 4);
    refused_payload(&[0, 0, 0, 25], 4);
}

#[test]
fn atoms() {
    let with = |atom: u16| {
        let [low, high] = atom.to_le_bytes();
        vec![0, 0, 0, 2, 1, 0, low, high]
    };
    for right in [1, 2, 4, 0x8001, 0x8002, 0x8003, 0x8007] {
        good(&record(16, &with(right)));
    }
    // No message; two without a star; messages the table lacks.
    for wrong in [
        0, 3, 5, 7, 0x8000, 8, 0x4000, 0x8008, 0x800F, 0xC001, 0x7FFF, 0xFFFF,
    ] {
        refused_payload(&with(wrong), 4);
    }
    // All 15 messages are known to a table that has them.
    let all = table([1, 1, 15, 0], &[]);
    let list = record(16, &[0, 0, 2, 0, 0x40, 0xFF, 0xFF]);
    assert_eq!(judge(&all, &list), Ok(Judgement::Accepted));
}

/// Fields are tested as they are met.
#[test]
fn the_order_of_the_tests_within_a_row() {
    // A bad atom that is there comes before a missing later one, and the other way round.
    refused_payload(&[0, 0, 2, 0, 0], 4);
    refused_payload(&[0, 0, 2, 1, 0, 9], 3);
    // A wrong state before a missing count, a wrong atom before a wrong later count.
    refused_payload(&[255, 255, 99], 4);
    refused_payload(&[0, 0, 1, 3, 0, 99], 4);
    // Four bytes, kind, payload.
    let behind = |bytes: &[u8]| [&good_row()[..], bytes].concat();
    refused_list(&still(), &behind(&[4, 0, 9]), 1, 14);
    refused_list(&still(), &behind(&[4, 0, 9, 0]), 2, 14);
    refused_list(&still(), &behind(&[4, 0, 16, 0, 255, 255]), 1, 14);
}

#[test]
fn the_table_decides_how_many_products_a_row_has() {
    for channels in 1..=4 {
        let table = table([1, channels, 1, 0], &[]);
        for products in 1..=4 {
            let list = list_row(0, &vec!["0?"; products]);
            if products == channels {
                assert_eq!(judge(&table, &list), Ok(Judgement::Accepted));
            } else {
                refused_list(&table, &list, 3, 0);
            }
        }
    }
}

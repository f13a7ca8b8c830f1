//! Refusals of the table: each number, its place, and the order of the tests.

mod common;

use common::*;
use second::judge::judge;
use second::list::write_list;
use second::output::check;
use second::refusal::{Input, Refusal};
use second::replay::replay;
use second::search::search;
use second::table::Table;

/// A header: 300 states, 3 channels, 5 messages, start 7. The next record starts at 10.
const HEADER: [u8; 6] = [0x2C, 1, 3, 5, 7, 0];
/// A send from 299 to 298 on channel 2 of message 4.
const SEND: [u8; 8] = [0x2B, 1, 0x2A, 1, 1, 2, 4, 99];

fn bad(state: u16) -> Vec<u8> {
    record(3, &state.to_le_bytes())
}

fn header_and(records: &[Vec<u8>]) -> Vec<u8> {
    [record(1, &HEADER), records.concat()].concat()
}

/// Every call refuses the table in the same way, before it looks at anything else, and writes nothing.
fn refused(bytes: &[u8], number: u8, place: usize) {
    let refusal = Refusal {
        number,
        input: Input::Table,
        place,
    };
    assert_eq!(Table::read(bytes), Err(refusal), "{bytes:?}");
    let (mut work, mut run) = (vec![UNTOUCHED; 102], vec![UNTOUCHED; 1]);
    let mut list = [0xEE; 9];
    assert_eq!(search(bytes, &mut work, &mut run), Err(refusal));
    assert_eq!(write_list(bytes, &work, 5, &mut list), Err(refusal));
    assert_eq!(judge(bytes, &[1]), Err(refusal));
    assert_eq!(replay(bytes, &[0; 2049]), Err(refusal));
    assert!(work.iter().chain(&run).all(|&word| word == UNTOUCHED));
    assert_eq!(list, [0xEE; 9]);
    assert_eq!(check(bytes), format!("refused {number} at {place}\n"));
}

fn good(bytes: &[u8]) {
    let table = Table::read(bytes).expect("a good table");
    assert_eq!(table.to_bytes(), bytes);
}

#[test]
fn a_table_cut_at_any_byte() {
    let bytes = example_a();
    let starts = [0, 10, 22, 34, 46];
    for cut in 0..bytes.len() {
        if cut > 0 && starts.contains(&cut) {
            good(&bytes[..cut]);
        } else {
            let start = starts.into_iter().rev().find(|&start| start <= cut);
            refused(&bytes[..cut], 1, start.expect("a start"));
        }
    }
    good(&bytes);
}

#[test]
fn stray_bytes_at_the_end() {
    for stray in 1..4 {
        refused(&[example_a(), vec![0xFF; stray]].concat(), 1, 52);
    }
}

#[test]
fn the_first_record_is_a_header_and_no_other_is() {
    refused(&record(2, &SEND), 2, 0);
    refused(&record(3, &[0, 0]), 2, 0);
    refused(&record(0, &HEADER), 2, 0);
    refused(&header_and(&[record(1, &HEADER)]), 2, 10);
    refused(&header_and(&[record(2, &SEND), record(1, &HEADER)]), 2, 22);
}

#[test]
fn unknown_kinds() {
    for kind in [0, 4, 5, 16, 256 + 2, 512 + 3, 65_535] {
        refused(&header_and(&[record(kind, &SEND)]), 2, 10);
        refused(&header_and(&[bad(1), record(kind, &[2, 0])]), 2, 16);
    }
}

#[test]
fn a_transition_after_a_bad_state() {
    refused(&header_and(&[bad(1), record(2, &SEND)]), 2, 16);
}

#[test]
fn wrong_lengths() {
    for length in (0..20).chain([255, 256 + 6, 30_000]) {
        let payload = vec![0; length];
        if length != 6 {
            refused(&record(1, &payload), 3, 0);
        }
        if length != 8 {
            refused(&header_and(&[record(2, &payload)]), 3, 10);
        }
        if length != 2 {
            refused(&header_and(&[record(3, &payload)]), 3, 10);
        }
    }
}

#[test]
fn header_numbers() {
    let header = |states: u16, channels, messages, start: u16| {
        let ([a, b], [c, d]) = (states.to_le_bytes(), start.to_le_bytes());
        record(1, &[a, b, channels, messages, c, d])
    };
    good(&header(1, 1, 1, 0));
    good(&header(4096, 4, 15, 4095));
    good(&header(257, 1, 1, 256));
    for wrong in [
        header(0, 1, 1, 0),
        header(4097, 1, 1, 0),
        header(65_535, 1, 1, 0),
        header(1, 0, 1, 0),
        header(1, 5, 1, 0),
        header(1, 255, 1, 0),
        header(1, 1, 0, 0),
        header(1, 1, 16, 0),
        header(1, 1, 255, 0),
        header(1, 1, 1, 1),
        header(4096, 1, 1, 4096),
        header(300, 1, 1, 65_535),
    ] {
        refused(&wrong, 4, 0);
    }
}

#[test]
fn transition_numbers() {
    good(&header_and(&[record(2, &SEND)]));
    // Field by field: a value at the limit that is refused, and one below it that is not.
    let cases: [(usize, u8, u8); 5] = [
        (0, 0x2C, 0x2B), // source 300, 299
        (2, 0x2C, 0x2B), // target
        (4, 3, 2),       // operation
        (5, 3, 2),       // channel
        (6, 5, 4),       // message
    ];
    for (place, wrong, right) in cases {
        let with = |value| {
            let mut payload = SEND;
            payload[place] = value;
            header_and(&[record(2, &SEND), record(2, &payload)])
        };
        refused(&with(wrong), 4, 22);
        refused(&with(255), 4, 22);
        good(&with(right));
    }
    // High bytes count too.
    for place in [1, 3] {
        let mut payload = SEND;
        payload[place] = 2;
        refused(&header_and(&[record(2, &payload)]), 4, 10);
    }
    // The label is free.
    for label in 0..=255 {
        let mut payload = SEND;
        payload[7] = label;
        good(&header_and(&[record(2, &payload)]));
    }
}

#[test]
fn a_quiet_transition_has_channel_0_and_message_0() {
    let quiet = |channel, message| {
        let payload = [0, 0, 1, 0, 0, channel, message, 3];
        header_and(&[record(2, &payload)])
    };
    good(&quiet(0, 0));
    refused(&quiet(1, 0), 4, 10);
    refused(&quiet(0, 1), 4, 10);
    refused(&quiet(2, 4), 4, 10);
}

#[test]
fn bad_states_in_range_and_rising() {
    good(&header_and(&[bad(0), bad(1), bad(299)]));
    refused(&header_and(&[bad(300)]), 4, 10);
    refused(&header_and(&[bad(5), bad(65_535)]), 4, 16);
    refused(&header_and(&[bad(5), bad(5)]), 5, 16);
    refused(&header_and(&[bad(5), bad(6), bad(4)]), 5, 22);
    refused(&header_and(&[bad(0), bad(0)]), 5, 16);
    // High bytes count: 256 rises over 255.
    good(&header_and(&[bad(255), bad(256)]));
    refused(&header_and(&[bad(256), bad(255)]), 5, 16);
}

#[test]
fn transitions_1024_and_1025() {
    let with = |count: usize, last: Vec<u8>| {
        let transitions = record(2, &SEND).repeat(count);
        [record(1, &HEADER), transitions, last].concat()
    };
    let place_of_1025 = 10 + 1024 * 12;
    good(&with(1024, vec![]));
    good(&with(1024, bad(3)));
    refused(&with(1025, vec![]), 6, place_of_1025);
    refused(&with(1025, bad(3)), 6, place_of_1025);
    // Transition 1,025 with something else wrong.
    refused(&with(1024, record(2, &SEND[..7])), 3, place_of_1025);
    refused(
        &with(1024, record(2, &SEND)[..11].to_vec()),
        1,
        place_of_1025,
    );
    refused(
        &with(1024, record(2, &SEND)[..3].to_vec()),
        1,
        place_of_1025,
    );
    refused(&with(1024, record(2, &[255; 8])), 6, place_of_1025);
    refused(&with(1024, record(7, &SEND)), 2, place_of_1025);
}

/// Two things wrong in one record: the one that is tested first is named.
#[test]
fn the_order_of_the_tests_within_a_record() {
    // Four bytes, then kind, length, payload.
    refused(&[6, 0, 9], 1, 0);
    refused(&[7, 0, 9, 0], 2, 0);
    refused(&[7, 0, 1, 0], 3, 0);
    refused(&[6, 0, 1, 0, 0], 1, 0);
    refused(&header_and(&[record(7, &[0; 3])]), 2, 10);
    // A wrong length is seen before the payload is missing.
    refused(&header_and(&[record(2, &SEND)[..9].to_vec()]), 1, 10);
    refused(&header_and(&[vec![9, 0, 2, 0]]), 3, 10);
    refused(&header_and(&[vec![255, 255, 3, 0, 1]]), 3, 10);
    // A transition after a bad state is out of turn, whatever else is wrong with it.
    refused(&header_and(&[bad(1), record(2, &[255; 5])]), 2, 16);
    refused(&header_and(&[bad(1), record(1, &[])]), 2, 16);
    // A bad state both out of range and not rising.
    refused(&header_and(&[bad(299), bad(300)]), 4, 16);
    refused(&header_and(&[bad(299), record(3, &[1])]), 3, 16);
    // The first wrong record is named, not the worst.
    refused(&header_and(&[bad(300), record(9, &[])]), 4, 10);
}

#[test]
fn the_longest_table() {
    let header = record(1, &[0, 0x10, 4, 15, 0, 0]);
    let transitions = record(2, &[0xFF, 0x0F, 0, 0, 2, 3, 14, 255]).repeat(1024);
    let bads: Vec<Vec<u8>> = (0..4096).map(bad).collect();
    let longest = [header, transitions, bads.concat()].concat();
    assert_eq!(longest.len(), 36_874);
    good(&longest);
    assert_eq!(check(&longest), "unsafe rows 0 steps 0\n");
    // There is no 6 for bad states: one more cannot rise.
    let longer = [&longest[..], &bad(4095)].concat();
    assert_eq!(
        Table::read(&longer).map_err(|r| (r.number, r.place)),
        Err((5, 36_874))
    );
    assert_eq!(check(&longer), "too long\n");
    assert_eq!(check(&[&longest[..], &[0]].concat()), "too long\n");
    // Without its first bad state it is searched.
    let start_not_bad = [&longest[..10 + 1024 * 12], &longest[10 + 1024 * 12 + 6..]].concat();
    assert_eq!(check(&start_not_bad), "safe rows 1\n");
}

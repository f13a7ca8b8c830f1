//! The comparisons: a library that answers rightly passes, and each slip in one is found.

mod common;

use common::{numbers, product, words, Changed};
use second::calls::{Call, Function, Lent, Reply};
use second::compare::{Comparison, Wanted, CHECK_TABLE, COMPARISONS};
use second::list::read_list;
use second::product::contained;
use second::random::{self, Random};
use second::row::Row;
use second::table::{Table, Transition};

fn named(name: &str) -> &'static Comparison {
    COMPARISONS
        .iter()
        .find(|comparison| comparison.name == name)
        .expect("a comparison")
}

/// Whether all is well, and what is printed.
fn compared(
    comparison: &Comparison,
    cases: usize,
    change: fn(&Call, &mut Reply),
) -> (bool, String) {
    let mut out = Vec::new();
    let well = comparison.run(&mut Changed(change), cases, 7, &mut out);
    let out = String::from_utf8(out).expect("plain text");
    (well.expect("replies"), out)
}

fn found(name: &str, change: fn(&Call, &mut Reply)) {
    let (well, out) = compared(named(name), 3000, change);
    assert!(!well, "{name}: {out}");
    assert!(out.contains("differs\n"), "{out}");
}

fn words_mut(lent: &mut Lent) -> &mut Vec<u16> {
    match lent {
        Lent::Words(words) => words,
        _ => panic!("{lent:?} are no words"),
    }
}

fn bytes_mut(lent: &mut Lent) -> &mut Vec<u8> {
    match lent {
        Lent::Bytes(bytes) => bytes,
        _ => panic!("{lent:?} are no bytes"),
    }
}

#[test]
fn right_answers_pass_and_every_kind_turns_up() {
    for comparison in COMPARISONS {
        let (well, out) = compared(comparison, comparison.cases, |_, _| {});
        assert!(well, "{out}");
        let (name, cases) = (comparison.name, comparison.cases);
        let line = format!("compare {name}: {cases} compared, 0 differ (seed 7)\n");
        assert!(out.ends_with(&line), "{out}");
    }
    let pairs: usize = COMPARISONS.iter().map(|comparison| comparison.cases).sum();
    assert!(pairs >= 100_000 && CHECK_TABLE.cases >= 100_000);
}

#[test]
fn a_case_depends_on_seed_and_number_only() {
    let contained = named("contained");
    assert_eq!(contained.case(3, 40), contained.case(3, 40));
    assert_ne!(contained.case(3, 40), contained.case(3, 41));
    assert_ne!(contained.case(3, 40), contained.case(4, 40));
    assert_ne!(contained.case(3, 41), contained.case(4, 40));
}

#[test]
fn a_difference_is_printed_with_all_that_names_it() {
    let (well, out) = compared(named("normal"), 600, |_, reply| reply.answer += 1);
    assert!(!well);
    assert_eq!(out.matches("differs\n").count(), 3);
    assert!(out.starts_with("compare normal: case 0 of seed 7 differs\n  function Normal\n"));
    assert!(out.ends_with("compare normal: 600 compared, 600 differ (seed 7)\n"));
}

#[test]
fn replies_of_one_kind_only_are_too_few() {
    let mut one_kind = Comparison {
        call: |_, _| Call::contained(product("0?"), product("1?")),
        ..*named("contained")
    };
    one_kind.cases = 1000;
    let (well, out) = compared(&one_kind, 1000, |_, _| {});
    assert!(!well);
    assert!(out.contains("yes 0 % (TOO FEW, 20 % are wanted)"), "{out}");
    // A few cases asked for by hand need not be fair.
    assert!(compared(&one_kind, 999, |_, _| {}).0);
}

#[test]
fn a_write_anywhere_is_found() {
    for name in ["contained", "receive", "normal", "add"] {
        found(name, |_, reply| reply.wrote_outside = true);
        // The last lent word, which is far behind what most calls write.
        found(name, |_, reply| {
            if let Some(last) = words_mut(&mut reply.lent[0]).last_mut() {
                *last ^= 0x4000;
            }
        });
    }
}

/// The slip of taking {0}* for contained in a long enough run of 0?.
#[test]
fn a_star_in_singles_is_found() {
    found("contained", |call, reply| {
        let (p, q) = (words(&call.lent[0]), words(&call.lent[1]));
        if p.len() == 1 && reply.answer == 0 && contained(&[p[0] & 0x7FFF], q) {
            reply.answer = 1;
        }
    });
}

/// The slip of receiving from the first atom only.
#[test]
fn a_receive_from_the_first_atom_only_is_found() {
    found("receive", |call, reply| {
        let Lent::Numbers(message) = &call.lent[1] else {
            return;
        };
        let p = words(&call.lent[0]);
        let has = |atom: &u16| *atom >> message[0].min(15) & 1 == 1;
        if reply.answer < 65_534 && !p.first().is_some_and(has) {
            reply.answer = 65_534;
            reply.lent = call.lent.clone();
        }
    });
}

/// 65,535 comes before 65,534: words that are no product are refused whatever the message.
#[test]
fn the_wrong_one_of_two_refusals_is_found() {
    found("receive", |call, reply| {
        if let (65_535, Lent::Numbers(message)) = (reply.answer, &call.lent[1]) {
            if message[0] > 14 {
                reply.answer = 65_534;
            }
        }
    });
}

#[test]
fn removing_once_only_is_found() {
    found("normal", |call, reply| {
        let p = words(&call.lent[0]);
        let removed = p.len().saturating_sub(reply.answer as usize);
        if reply.answer < 65_535 && removed > 1 {
            reply.answer += 1;
        }
    });
}

#[test]
fn slips_of_the_table_check_are_found() {
    let slip = |change: fn(&Call, &mut Reply)| {
        let (well, out) = compared(&CHECK_TABLE, CHECK_TABLE.cases, change);
        assert!(!well, "{out}");
    };
    // A number left unfilled.
    slip(|call, reply| {
        if let (0, Lent::Numbers(before)) = (reply.answer, &call.lent[1]) {
            let before = before[2];
            numbers(reply)[2] = before;
        }
    });
    // A limit off by one: 1,025 transitions taken for good.
    slip(|call, reply| {
        let Lent::Bytes(table) = &call.lent[0] else {
            return;
        };
        if refused(reply, 6) && table.len() == 10 + 1025 * 12 {
            reply.answer = 0;
        }
    });
    // A place off by a record.
    slip(|_, reply| {
        if refused(reply, 5) {
            numbers(reply)[2] -= 6;
        }
    });
}

fn refused(reply: &mut Reply, number: u64) -> bool {
    reply.answer == 4 && numbers(reply)[0] == number
}

#[test]
fn slips_of_the_search_are_found() {
    found("search", |_, reply| reply.wrote_outside = true);
    // Rows and steps exchanged.
    found("search", |_, reply| {
        if reply.answer == 1 {
            numbers(reply).swap(0, 1);
        }
    });
    // A word behind the last row.
    found("search", |_, reply| {
        let rows = numbers(reply)[0] as usize;
        if reply.answer < 4 {
            if let Some(behind) = words_mut(&mut reply.lent[1]).get_mut(103 * rows) {
                *behind = 0;
            }
        }
    });
    // The last word of the run buffer, which no run ever needs.
    found("search", |_, reply| {
        if let Some(last) = words_mut(&mut reply.lent[2]).last_mut() {
            *last ^= 1;
        }
    });
    // A loss that is not marked.
    found("search", |_, reply| {
        let steps = numbers(reply)[1] as usize;
        if reply.answer == 1 {
            for word in &mut words_mut(&mut reply.lent[2])[..steps] {
                *word &= 0x7FFF;
            }
        }
    });
    // A run buffer that is one word short taken for long enough.
    found("search", |call, reply| {
        let room = (words(&call.lent[1]).len() / 103).min(1024);
        if refused(reply, 8) && words(&call.lent[2]).len() + 1 == 2 * room {
            reply.answer = 0;
        }
    });
}

#[test]
fn slips_of_the_replay_are_found() {
    found("replay", |_, reply| reply.wrote_outside = true);
    // The steps told for the state.
    found("replay", |call, reply| {
        if reply.answer == 1 {
            numbers(reply)[0] = words(&call.lent[1]).len() as u64;
        }
    });
    // Steps numbered from 1.
    found("replay", |_, reply| {
        if reply.answer == 2 {
            numbers(reply)[0] += 1;
        }
    });
    // A run of 2,049 words taken.
    found("replay", |call, reply| {
        if refused(reply, 6) && words(&call.lent[1]).len() == 2049 {
            reply.answer = 0;
        }
    });
}

#[test]
fn slips_of_the_writer_are_found() {
    found("write_list", |_, reply| reply.wrote_outside = true);
    // A byte behind the list.
    found("write_list", |_, reply| {
        let bytes = numbers(reply)[0] as usize;
        if reply.answer == 0 {
            if let Some(behind) = bytes_mut(&mut reply.lent[3]).get_mut(bytes) {
                *behind ^= 1;
            }
        }
    });
    // The record of a row with another kind.
    found("write_list", |_, reply| {
        if reply.answer == 0 && numbers(reply)[0] > 0 {
            bytes_mut(&mut reply.lent[3])[2] = 3;
        }
    });
    // A count over the room placed at the count.
    found("write_list", |call, reply| {
        let room = (words(&call.lent[1]).len() / 103).min(1024) as u64;
        if refused(reply, 9) && count(call) > room {
            numbers(reply)[2] = count(call);
        }
    });
    // A count of which only the low half is read.
    found("write_list", |call, reply| {
        if refused(reply, 9) && count(call) == 1 << 32 {
            reply.answer = 0;
        }
    });
    // A list that just fits refused.
    found("write_list", |call, reply| {
        let bytes = numbers(reply)[0];
        let fits = matches!(&call.lent[3], Lent::Bytes(list) if list.len() as u64 == bytes);
        if reply.answer == 0 && fits {
            reply.answer = 4;
        }
    });
}

/// How many rows the writer is to write.
fn count(call: &Call) -> u64 {
    match &call.lent[2] {
        Lent::Numbers(numbers) => numbers[0],
        lent => panic!("{lent:?} is no number"),
    }
}

#[test]
fn slips_of_the_judge_are_found() {
    found("judge", |_, reply| reply.wrote_outside = true);
    // A list without the start accepted.
    found("judge", |_, reply| {
        if reply.answer == 1 {
            reply.answer = 0;
        }
    });
    // Rows trusted, whoever made them.
    found("judge", |_, reply| {
        if reply.answer == 3 {
            reply.answer = 0;
            numbers(reply).fill(0);
        }
    });
    // Row and transition exchanged.
    found("judge", |_, reply| {
        if reply.answer == 3 {
            numbers(reply).swap(0, 1);
        }
    });
    // The refusal of a list told as one of the table.
    found("judge", |_, reply| {
        if reply.answer == 4 {
            numbers(reply)[1] = 0;
        }
    });
    // Row 1,025 taken.
    found("judge", |_, reply| {
        if refused(reply, 6) {
            reply.answer = 0;
            numbers(reply).fill(0);
        }
    });
}

/// Example B's list, without its last row, and without its first.
#[test]
fn the_list_of_example_b_is_judged_first() {
    let judged = |case| {
        let mut reply = named("judge").case(1, case).reply();
        (reply.answer, numbers(&mut reply).clone())
    };
    assert_eq!(judged(0), (0, vec![0, 0, 0]));
    assert_eq!(judged(1), (3, vec![1, 1, 0]));
    assert_eq!(judged(2), (0, vec![0, 0, 0]));
}

/// The slip of letting two rows have an outcome between them, each some of its channels.
#[test]
fn two_rows_between_them_are_found() {
    let (well, out) = compared(named("judge"), 20_000, |call, reply| {
        if reply.answer == 3 && is_closed_between_rows(call) {
            reply.answer = 0;
            numbers(reply).fill(0);
        }
    });
    assert!(!well, "{out}");
}

fn is_closed_between_rows(call: &Call) -> bool {
    let [Lent::Bytes(table), Lent::Bytes(list), _] = &call.lent[..] else {
        panic!("no table and list");
    };
    let table = Table::read(table).expect("a good table");
    let list = read_list(&table, list).expect("a good list");
    let rows: Vec<Row> = list.iter().map(|row| row.row()).collect();
    let has = |outcome: &Row, channel: usize| {
        let like = rows.iter().filter(|row| row.state == outcome.state);
        like.map(|row| row.products[channel])
            .any(|product| contained(outcome.products[channel], product))
    };
    let is_settled = |row: &Row, transition: &Transition| {
        transition.source != row.state
            || row.outcome(transition).map_or(true, |outcome| {
                (0..4).all(|channel| has(&outcome.row(), channel))
            })
    };
    let mut rows_and_moves = rows
        .iter()
        .flat_map(|row| table.transitions.iter().map(move |moved| (row, moved)));
    rows_and_moves.all(|(row, moved)| is_settled(row, moved))
}

#[test]
fn every_call_of_a_comparison_is_its_own_function() {
    let function = |name| named(name).case(1, 0).function;
    assert_eq!(function("contained"), Function::Contained);
    assert_eq!(function("receive"), Function::Receive);
    assert_eq!(function("normal"), Function::Normal);
    assert_eq!(function("add"), Function::Normal);
    assert_eq!(function("search"), Function::Search);
    assert_eq!(function("replay"), Function::Replay);
    assert_eq!(function("write_list"), Function::WriteList);
    assert_eq!(function("judge"), Function::Judge);
    assert_eq!(CHECK_TABLE.case(1, 0).function, Function::CheckTable);
}

#[test]
fn products_below_are_contained() {
    let mut random = Random::new(48);
    for _ in 0..5000 {
        let messages = random.between(1, 15) as u8;
        let q = random::product(&mut random, messages, 25);
        let p = random::product_below(&mut random, &q, 25);
        assert!(p.len() <= 25 && contained(&p, &q), "{p:x?} {q:x?}");
    }
}

#[test]
fn the_words_of_the_command_line() {
    let all = Wanted {
        names: vec![],
        cases: None,
        seed: 1,
    };
    assert_eq!(Wanted::from_words(&[]), Some(all));
    let some = Wanted {
        names: vec!["add".to_string(), "normal".to_string()],
        cases: Some(10),
        seed: 5,
    };
    let words = ["add", "--cases", "10", "normal", "--seed", "5"];
    assert_eq!(Wanted::from_words(&words), Some(some));
    for wrong in [
        &["ad"][..],
        &["--cases"],
        &["--cases", "x"],
        &["--seed", "-1"],
    ] {
        assert_eq!(Wanted::from_words(wrong), None);
    }
}

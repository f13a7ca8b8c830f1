//! The examples that the rules work by hand.

mod common;

use common::*;
use second::judge::{judge, Judgement};
use second::output::check;
use second::product::{contained, received, Product};
use second::refusal::{Input, Refusal};
use second::search::{search, Verdict};

#[test]
fn contained_cases() {
    let cases = [
        ("0?1?", "0?1?0?", true),
        ("1?0?", "0?1?", false),
        ("0?0?", "{0}*", true),
        ("{0}*", "0?0?", false),
        ("{0}*{1}*", "{0,1}*", true),
        ("{0,1}*", "{0}*{1}*", false),
        ("", "", true),
        ("0?", "", false),
    ];
    for (p, q, expected) in cases {
        assert_eq!(contained(&product(p), &product(q)), expected, "{p} in {q}");
    }
}

#[test]
fn receive_cases() {
    let cases = [
        (1, "0?{1}*0?", Some("{1}*0?")),
        (0, "0?1?", Some("1?")),
        (1, "0?", None),
    ];
    for (message, p, expected) in cases {
        let left = received(&product(p), message).map(<[u16]>::to_vec);
        assert_eq!(left, expected.map(product), "{message} from {p}");
    }
}

#[test]
fn normal_cases() {
    for (p, expected) in [("{0}*1?{0,1}*", "{0,1}*"), ("0?0?", "0?0?")] {
        let mut normal = Product::copy_of(&product(p));
        normal.normalise();
        assert_eq!(normal.atoms(), product(expected), "{p}");
    }
}

#[test]
fn example_a_in_bytes_and_print() {
    let bytes = hex(
        "06000100 030001020000, 08000200 0000000001000000, 08000200 0000010001000100,
         08000200 0100020002000000, 02000300 0200",
    );
    assert_eq!(bytes, example_a());
    assert_eq!(
        check(&bytes),
        "unsafe rows 4 steps 3\n0 kept\n1 lost\n2 receive\n"
    );
}

/// A's rows, worked by hand: the start; its star; then state 1 from row 0 and from row 1. Row 2 takes
/// nothing, row 3 has a 0 to take.
#[test]
fn example_a_word_by_word() {
    let a = searched(&example_a(), 256);
    let rows: [(u16, u16, u16, &str); 4] = [
        (0, 65_535, 65_535, ""),
        (0, 0, 0, "{0}*"),
        (1, 0, 1, "1?"),
        (1, 1, 1, "{0}*1?"),
    ];
    let mut expected = vec![UNTOUCHED; 256 * 103];
    for (row, words) in rows.into_iter().zip(expected.chunks_mut(103)) {
        let (state, parent, transition, atoms) = row;
        let atoms = product(atoms);
        words.fill(0);
        words[..4].copy_from_slice(&[state, parent, transition, atoms.len() as u16]);
        words[4..4 + atoms.len()].copy_from_slice(&atoms);
    }
    assert_eq!(a.work, expected);
    let mut run = vec![UNTOUCHED; 512];
    run[..3].copy_from_slice(&[0, 32_768 + 1, 2]);
    assert_eq!(a.run, run);
}

#[test]
fn example_b_search_and_list() {
    let table = example_b();
    assert_eq!(check(&table), "safe rows 3\n");
    let b = searched(&table, 256);
    let list = hex("03001000 000000, 05001000 0000010180, 05001000 0100010180");
    assert_eq!(written(&table, &b), list);
    let judged = |list: &[u8]| judge(&table, list).expect("a good list");
    assert_eq!(judged(&list), Judgement::Accepted);
    let not_closed = Judgement::NotClosed {
        row: 1,
        transition: 1,
    };
    assert_eq!(judged(&list[..16]), not_closed);
    assert_eq!(judged(&list[7..]), Judgement::Accepted);
}

#[test]
fn example_b_with_room_for_two() {
    let full = Verdict::RowsFull {
        rows: 2,
        row: 1,
        transition: 1,
    };
    assert_eq!(searched(&example_b(), 2).verdict, full);
}

#[test]
fn example_c_fills_atoms_or_rows() {
    let atoms_full = Verdict::AtomsFull {
        rows: 25,
        row: 24,
        transition: 0,
    };
    let rows_full = Verdict::RowsFull {
        rows: 24,
        row: 23,
        transition: 1,
    };
    assert_eq!(searched(&example_c(), 25).verdict, atoms_full);
    assert_eq!(searched(&example_c(), 24).verdict, rows_full);
    assert_eq!(check(&example_c()), "atoms full at 24 0\n");
}

#[test]
fn fifteen_messages_pass_and_sixteen_do_not() {
    let header = |messages| record(1, &[1, 0, 1, messages, 0, 0]);
    assert_eq!(check(&header(15)), "safe rows 1\n");
    assert_eq!(check(&header(16)), "refused 4 at 0\n");
}

#[test]
fn a_work_table_of_103_words_passes_and_of_102_does_not() {
    let quiet = table([1, 1, 1, 0], &[]);
    let mut run = [UNTOUCHED; 2];
    let with_words = |words: usize, run: &mut [u16]| search(&quiet, &mut vec![0; words], run);
    assert_eq!(with_words(103, &mut run), Ok(Verdict::Safe { rows: 1 }));
    let refused = Refusal {
        number: 7,
        input: Input::Lent,
        place: 102,
    };
    assert_eq!(with_words(102, &mut run), Err(refused));
}

#[test]
fn slip_receiving_only_from_the_first_atom() {
    assert_eq!(received(&product("0?1?2?"), 2), Some(&[][..]));
}

/// One row has the outcome's channel 0, another its channel 1; neither has both.
#[test]
fn slip_two_rows_covering_one_outcome_between_them() {
    let lines = ["0 -> 0 send 0 0", "0 -> 0 send 1 0"];
    let loops = table([1, 2, 1, 0], &lines);
    assert_eq!(searched(&loops, 256).verdict, Verdict::Safe { rows: 4 });
    let list = [list_row(0, &["{0}*", ""]), list_row(0, &["", "{0}*"])].concat();
    let not_closed = Judgement::NotClosed {
        row: 0,
        transition: 1,
    };
    assert_eq!(judge(&loops, &list), Ok(not_closed));
}

#[test]
fn slip_testing_for_room_before_bad() {
    let table = table([2, 1, 1, 0], &["0 -> 1 quiet", "bad 1"]);
    let found = Verdict::Unsafe { rows: 1, steps: 1 };
    assert_eq!(searched(&table, 1).verdict, found);
}

#[test]
fn slip_the_judge_trusting_rows_of_a_search() {
    // The rows of a full search are a search's own, and yet not closed.
    let c = example_c();
    let list = written(&c, &searched(&c, 25));
    let not_closed = Judgement::NotClosed {
        row: 24,
        transition: 0,
    };
    assert_eq!(judge(&c, &list), Ok(not_closed));
}

#[test]
fn slip_a_star_in_a_long_run_of_singles() {
    assert!(!contained(&product("{0}*"), &product("0?").repeat(25)));
    assert!(contained(&product("0?").repeat(25), &product("{0}*")));
}

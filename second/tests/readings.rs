//! Points of the rules that can be misread: one test for each. Those about the order of refusals
//! stand with the refusals.

mod common;

use common::*;
use second::judge::{judge, Judgement};
use second::output::check;
use second::product::Product;
use second::refusal::{Input, Refusal};
use second::replay::{replay, Replay};
use second::row::Row;
use second::run::rebuild_run;
use second::search::{search, Verdict};
use second::table::Table;
use second::work::{write_row, NONE};

fn products_of(searched: &Searched) -> Vec<Vec<u16>> {
    searched
        .rows()
        .into_iter()
        .map(|row| row.1[0].clone())
        .collect()
}

// ---- moves and outcomes ----

#[test]
fn a_self_loop_send_has_only_its_star_outcome() {
    let searched = searched(&table([1, 1, 1, 0], &["0 -> 0 send 0 0"]), 9);
    assert_eq!(products_of(&searched), [product(""), product("{0}*")]);
}

#[test]
fn self_loop_receive_and_quiet_are_plain_moves() {
    let lines = [
        "0 -> 1 send 0 0",
        "1 -> 2 send 0 1",
        "2 -> 2 receive 0 0",
        "2 -> 2 quiet",
        "2 -> 3 receive 0 0",
    ];
    let searched = searched(&table([4, 1, 2, 0], &lines), 9);
    // The receive takes 0 once and leaves 1?, which row 2 has; the quiet move adds nothing.
    let expected = ["", "0?", "0?1?", "1?"].map(product);
    assert_eq!(products_of(&searched), expected);
}

/// A chain of 23 sends of messages 1 and 2 in turn, then state 23 resends 0 and sends it once more.
fn chain_that_ends_in_a_star(last: &str) -> Vec<u8> {
    let sends: Vec<String> = (0..23)
        .map(|state| format!("{state} -> {} send 0 {}", state + 1, 1 + state % 2))
        .collect();
    let mut lines: Vec<&str> = sends.iter().map(String::as_str).collect();
    lines.extend(["23 -> 23 send 0 0", last]);
    table([26, 1, 3, 0], &lines)
}

#[test]
fn the_normalised_outcome_is_tested_for_24_atoms() {
    // 24 atoms, the last a star that has 0, and then 0: still 24.
    let fits = searched(&chain_that_ends_in_a_star("23 -> 24 send 0 0"), 99);
    assert_eq!(fits.verdict, Verdict::Safe { rows: 27 });
    assert_eq!(products_of(&fits)[26].len(), 24);
    // Another message does not fit.
    let full = Verdict::AtomsFull {
        rows: 26,
        row: 24,
        transition: 24,
    };
    let does_not = searched(&chain_that_ends_in_a_star("23 -> 24 send 0 1"), 99);
    assert_eq!(does_not.verdict, full);
}

#[test]
fn removal_goes_on_backwards() {
    let mut normal = Product::copy_of(&product("0?0?0?{0}*"));
    normal.normalise();
    assert_eq!(normal.atoms(), product("{0}*"));
}

#[test]
fn the_row_being_handled_is_already_there() {
    let searched = searched(&table([1, 1, 1, 0], &["0 -> 0 quiet"]), 1);
    assert_eq!(searched.verdict, Verdict::Safe { rows: 1 });
}

#[test]
fn bad_comes_before_atoms_full() {
    // State 24 has 24 atoms; one more would be too many, but the target is bad.
    let sends: Vec<String> = (0..25)
        .map(|state| format!("{state} -> {} send 0 {}", state + 1, state % 2))
        .collect();
    let mut lines: Vec<&str> = sends.iter().map(String::as_str).collect();
    lines.push("bad 25");
    let found = Verdict::Unsafe {
        rows: 25,
        steps: 25,
    };
    assert_eq!(searched(&table([26, 1, 2, 0], &lines), 25).verdict, found);
    lines.pop();
    let full = Verdict::AtomsFull {
        rows: 25,
        row: 24,
        transition: 24,
    };
    assert_eq!(searched(&table([26, 1, 2, 0], &lines), 25).verdict, full);
}

#[test]
fn contained_comes_before_atoms_full() {
    // State 25 gets {0}* early; the 25 singles that a chain of sends brings it later are all in it.
    let mut lines = vec!["0 -> 25 quiet".to_string(), "25 -> 25 send 0 0".to_string()];
    lines.extend((0..25).map(|state| format!("{state} -> {} send 0 0", state + 1)));
    let safe = searched(&table([26, 1, 1, 0], &as_lines(&lines)), 200);
    assert_eq!(safe.verdict, Verdict::Safe { rows: 27 });
    assert_eq!(products_of(&safe).iter().map(Vec::len).max(), Some(24));
    // Without the resending they are too many.
    lines[1] = "25 -> 25 quiet".to_string();
    let full = Verdict::AtomsFull {
        rows: 26,
        row: 25,
        transition: 26,
    };
    let searched = searched(&table([26, 1, 1, 0], &as_lines(&lines)), 200);
    assert_eq!(searched.verdict, full);
}

fn as_lines(lines: &[String]) -> Vec<&str> {
    lines.iter().map(String::as_str).collect()
}

#[test]
fn atoms_full_comes_before_rows_full() {
    // Row 25 would find neither atoms nor room.
    let full = searched(&example_c(), 25).verdict;
    assert!(matches!(full, Verdict::AtomsFull { rows: 25, .. }));
}

#[test]
fn contained_comes_before_rows_full() {
    let lines = ["0 -> 0 send 0 0", "0 -> 0 send 0 0"];
    let searched = searched(&table([1, 1, 1, 0], &lines), 2);
    assert_eq!(searched.verdict, Verdict::Safe { rows: 2 });
}

#[test]
fn an_earlier_transition_without_room_ends_the_search_before_a_later_bad_one() {
    let lines = ["0 -> 1 quiet", "0 -> 2 quiet", "bad 2"];
    let full = Verdict::RowsFull {
        rows: 1,
        row: 0,
        transition: 0,
    };
    assert_eq!(searched(&table([3, 1, 1, 0], &lines), 1).verdict, full);
}

// ---- answers ----

#[test]
fn the_row_named_is_the_one_whose_move_met_it() {
    // Row 1 (state 1) has no move; row 2 (state 2) finds no room.
    let lines = ["0 -> 1 quiet", "0 -> 2 quiet", "2 -> 3 quiet"];
    let chain = table([4, 1, 1, 0], &lines);
    let full = Verdict::RowsFull {
        rows: 3,
        row: 2,
        transition: 2,
    };
    assert_eq!(searched(&chain, 3).verdict, full);
}

#[test]
fn short_buffers_come_before_a_bad_start() {
    let bad_start = table([1, 1, 1, 0], &["bad 0"]);
    let refused = |number, place| {
        Err(Refusal {
            number,
            input: Input::Lent,
            place,
        })
    };
    let searched = |words: usize, run: usize| {
        let (mut work, mut run) = (vec![UNTOUCHED; words], vec![UNTOUCHED; run]);
        let answer = search(&bad_start, &mut work, &mut run);
        assert!(work.iter().chain(&run).all(|&word| word == UNTOUCHED));
        answer
    };
    assert_eq!(searched(102, 0), refused(7, 102));
    assert_eq!(searched(103, 1), refused(8, 1));
    // The run is empty, and no row is made.
    assert_eq!(searched(103, 2), Ok(Verdict::Unsafe { rows: 0, steps: 0 }));
}

#[test]
fn room_is_never_over_1024() {
    let quiet = table([1, 1, 1, 0], &[]);
    let mut work = vec![0; 1025 * 103];
    let answer = search(&quiet, &mut work, &mut [0; 2048]);
    assert_eq!(answer, Ok(Verdict::Safe { rows: 1 }));
    let refused = Refusal {
        number: 8,
        input: Input::Lent,
        place: 2047,
    };
    assert_eq!(search(&quiet, &mut work, &mut [0; 2047]), Err(refused));
}

#[test]
fn row_1025_finds_no_room() {
    let lines: Vec<String> = (1..=1024)
        .map(|state| format!("0 -> {state} quiet"))
        .collect();
    let fan = table([1025, 1, 1, 0], &as_lines(&lines));
    let full = Verdict::RowsFull {
        rows: 1024,
        row: 0,
        transition: 1023,
    };
    assert_eq!(searched(&fan, 2000).verdict, full);
}

#[test]
fn part_rows_do_not_count_as_room() {
    let mut work = vec![UNTOUCHED; 2 * 103 + 102];
    let answer = search(&example_b(), &mut work, &mut [0; 4]);
    let full = Verdict::RowsFull {
        rows: 2,
        row: 1,
        transition: 1,
    };
    assert_eq!(answer, Ok(full));
    assert!(work[206..].iter().all(|&word| word == UNTOUCHED));
}

#[test]
fn the_program_prints_each_kind_of_first_line() {
    assert_eq!(check(&[]), "refused 1 at 0\n");
    assert_eq!(
        check(&table([1, 1, 1, 0], &["bad 0"])),
        "unsafe rows 0 steps 0\n"
    );
    let lines = ["0 -> 1 quiet label 7", "bad 1"];
    let quiet = table([2, 1, 1, 0], &lines);
    assert_eq!(check(&quiet), "unsafe rows 1 steps 1\n0 quiet\n");
    let lines: Vec<String> = (1..=256)
        .map(|state| format!("0 -> {state} quiet"))
        .collect();
    let fan = table([257, 1, 1, 0], &as_lines(&lines));
    assert_eq!(check(&fan), "rows full at 0 255\n");
    let fan = table([257, 1, 1, 0], &as_lines(&lines[1..]));
    assert_eq!(check(&fan), "safe rows 256\n");
}

#[test]
fn too_long_comes_before_any_look_at_the_records() {
    assert_eq!(check(&[0xFF; 36_875]), "too long\n");
    assert_eq!(check(&[0xFF; 36_874]), "refused 2 at 0\n");
}

// ---- the run ----

#[test]
fn a_plain_send_is_kept_where_the_needed_word_ends_in_it() {
    // Either send could serve; going back, the later one is met first.
    let lines = [
        "0 -> 1 send 0 0",
        "1 -> 2 send 0 0",
        "2 -> 3 receive 0 0",
        "bad 3",
    ];
    let searched = searched(&table([4, 1, 1, 0], &lines), 9);
    assert_eq!(searched.steps(), [32_768, 1, 2]);
}

#[test]
fn a_self_loop_send_gives_as_many_words_as_are_needed() {
    let lines = [
        "0 -> 0 send 0 0",
        "0 -> 1 receive 0 0",
        "1 -> 2 receive 0 0",
        "2 -> 3 receive 0 0",
        "bad 3",
    ];
    let searched = searched(&table([4, 1, 1, 0], &lines), 9);
    assert_eq!(searched.steps(), [0, 0, 0, 1, 2, 3]);
}

#[test]
fn a_self_loop_row_on_the_way_may_give_no_words() {
    let lines = ["0 -> 0 send 0 0", "0 -> 1 quiet", "bad 1"];
    let table = Table::read(&table([2, 1, 1, 0], &lines)).expect("a good table");
    // Rows as no search would leave them: row 0 has met the bad state itself.
    let mut work = [0; 206];
    let star = product("{0}*");
    let mut looped = Row::empty(0);
    looped.products[0] = &star;
    write_row(&mut work, &Row::empty(0), NONE, NONE);
    write_row(&mut work[103..], &looped, 0, 0);
    let mut run = [UNTOUCHED; 4];
    assert_eq!(rebuild_run(&table, &work, 1, 1, &mut run), 1);
    assert_eq!(run, [1, UNTOUCHED, UNTOUCHED, UNTOUCHED]);
}

#[test]
fn only_trailing_messages_are_stripped_from_the_needed_word() {
    // Needed at the end of the sends: 0 1 0 0. The loop gives the last two, the sends before it 0 1.
    let lines = [
        "0 -> 1 send 0 0",
        "1 -> 2 send 0 1",
        "2 -> 2 send 0 0",
        "2 -> 3 receive 0 0",
        "3 -> 4 receive 0 1",
        "4 -> 5 receive 0 0",
        "5 -> 6 receive 0 0",
        "bad 6",
    ];
    let searched = searched(&table([7, 1, 2, 0], &lines), 99);
    assert_eq!(searched.steps(), [0, 1, 2, 2, 3, 4, 5, 6]);
}

// ---- the judge ----

#[test]
fn the_empty_list_is_no_start_even_where_the_start_is_bad() {
    let bad_start = table([1, 1, 1, 0], &["bad 0"]);
    assert_eq!(judge(&bad_start, &[]), Ok(Judgement::NoStart));
    assert_eq!(judge(&example_b(), &[]), Ok(Judgement::NoStart));
}

#[test]
fn any_row_in_the_start_state_has_the_start() {
    let one = table([2, 1, 1, 0], &[]);
    assert_eq!(judge(&one, &list_row(0, &["0?"])), Ok(Judgement::Accepted));
    assert_eq!(judge(&one, &list_row(1, &[""])), Ok(Judgement::NoStart));
}

#[test]
fn no_start_comes_before_bad_row() {
    let list = list_row(2, &[""]);
    assert_eq!(judge(&example_b(), &list), Ok(Judgement::NoStart));
}

#[test]
fn a_bad_row_anywhere_comes_before_closedness() {
    // Row 0 is not closed, row 2 is bad, and so is row 3.
    let list = [(0, ""), (0, ""), (2, ""), (2, "")].map(|(state, p)| list_row(state, &[p]));
    let answer = judge(&example_b(), &list.concat());
    assert_eq!(answer, Ok(Judgement::BadRow { row: 2 }));
}

#[test]
fn a_possible_move_into_a_bad_state_is_not_closed_and_an_impossible_one_is_nothing() {
    let lines = ["0 -> 1 receive 0 0", "bad 1"];
    let receives = table([2, 1, 1, 0], &lines);
    let judged = |p| judge(&receives, &list_row(0, &[p]));
    let not_closed = Judgement::NotClosed {
        row: 0,
        transition: 0,
    };
    assert_eq!(judged("0?"), Ok(not_closed));
    assert_eq!(judged(""), Ok(Judgement::Accepted));
}

#[test]
fn the_lowest_row_and_then_the_lowest_transition_is_named() {
    let lines = [
        "1 -> 1 send 0 0",
        "0 -> 1 quiet",
        "1 -> 0 send 0 0",
        "0 -> 1 send 0 0",
    ];
    let table = table([2, 1, 1, 0], &lines);
    let named = |list: &[Vec<u8>], row, transition| {
        let answer = Judgement::NotClosed { row, transition };
        assert_eq!(judge(&table, &list.concat()), Ok(answer));
    };
    let (start, other) = (list_row(0, &["{0}*"]), list_row(1, &[""]));
    named(&[start.clone(), other.clone()], 0, 1);
    named(&[other, start], 0, 0);
}

#[test]
fn there_is_no_atoms_full_in_the_judge() {
    // 24 atoms and a plain send make 25, contained in a star or in no row.
    let send = table([2, 1, 2, 0], &["0 -> 1 send 0 1"]);
    let long = "0?1?".repeat(12);
    let closed = [list_row(0, &[&long]), list_row(1, &["{0,1}*"])].concat();
    assert_eq!(judge(&send, &closed), Ok(Judgement::Accepted));
    let open = [list_row(0, &[&long]), list_row(1, &[&long])].concat();
    let not_closed = Judgement::NotClosed {
        row: 0,
        transition: 0,
    };
    assert_eq!(judge(&send, &open), Ok(not_closed));
}

#[test]
fn the_judge_takes_a_self_loop_send_with_its_star() {
    let one = table([1, 1, 1, 0], &["0 -> 0 send 0 0"]);
    let not_closed = Judgement::NotClosed {
        row: 0,
        transition: 0,
    };
    let list = [list_row(0, &[""]), list_row(0, &["0?"])].concat();
    assert_eq!(judge(&one, &list), Ok(not_closed));
    assert_eq!(
        judge(&one, &list_row(0, &["{0}*"])),
        Ok(Judgement::Accepted)
    );
}

// ---- the replay ----

#[test]
fn replay_is_stuck_at_the_first_step_that_cannot_be() {
    let a = example_a();
    let stuck = |run: &[u16], step| {
        assert_eq!(replay(&a, run), Ok(Replay::Stuck { step }), "{run:?}");
    };
    stuck(&[0, 3], 1); // no such transition
    stuck(&[16_384], 0);
    stuck(&[0, 0x4000 | 1], 1);
    stuck(&[0x7FFF], 0);
    stuck(&[0xFFFF], 0);
    stuck(&[0, 2], 1); // source is not the present state
    stuck(&[0, 1, 32_768 + 2], 2); // a loss on a receive
    stuck(&[32_768, 1, 2], 2); // 1 is at the head
    stuck(&[32_768, 32_768 + 1, 2], 2); // nothing is at the head
    stuck(&[0, 1, 2, 2], 3); // past a bad state
    let quiet = table([1, 1, 1, 0], &["0 -> 0 quiet", "bad 0"]);
    assert_eq!(replay(&quiet, &[32_768]), Ok(Replay::Stuck { step: 0 }));
}

#[test]
fn the_last_state_decides() {
    let lines = ["0 -> 1 quiet", "1 -> 0 quiet", "bad 1"];
    let back = table([2, 1, 1, 0], &lines);
    assert_eq!(replay(&back, &[0]), Ok(Replay::ReachesBad { steps: 1 }));
    assert_eq!(
        replay(&back, &[0, 1]),
        Ok(Replay::EndsElsewhere { state: 0 })
    );
    assert_eq!(
        replay(&back, &[0, 1, 0]),
        Ok(Replay::ReachesBad { steps: 3 })
    );
}

#[test]
fn the_empty_run_reaches_bad_if_the_start_is_bad() {
    let bad_start = table([1, 1, 1, 0], &["bad 0"]);
    assert_eq!(replay(&bad_start, &[]), Ok(Replay::ReachesBad { steps: 0 }));
    assert_eq!(
        replay(&example_a(), &[]),
        Ok(Replay::EndsElsewhere { state: 0 })
    );
}

#[test]
fn contents_need_not_be_empty_at_the_end_of_a_replay() {
    let run = [0, 0, 0, 1, 2];
    assert_eq!(
        replay(&example_a(), &run),
        Ok(Replay::ReachesBad { steps: 5 })
    );
}

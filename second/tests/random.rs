//! The random makers: the same seed gives the same, every verdict and answer is well represented, and
//! whatever they damage has an answer.

mod common;

use common::*;
use second::answers;
use second::judge::{judge, Judgement};
use second::output::check;
use second::product::is_atom;
use second::random::{self, Random, SHAPES};
use second::replay::{replay, Replay};
use second::search::Verdict;
use second::table::{Table, TABLE_BYTES_MAX};
use std::collections::HashMap;

fn name(verdict: Verdict) -> &'static str {
    match verdict {
        Verdict::Safe { .. } => "safe",
        Verdict::Unsafe { .. } => "unsafe",
        Verdict::RowsFull { .. } => "rows full",
        Verdict::AtomsFull { .. } => "atoms full",
    }
}

#[test]
fn the_same_seed_gives_the_same() {
    let drawn = |seed| {
        let mut random = Random::new(seed);
        (random.number(), random::table(&mut random))
    };
    assert_eq!(drawn(5), drawn(5));
    assert_ne!(drawn(5), drawn(6));
    // The first numbers of splitmix64 for seed 0, as published with it.
    let mut random = Random::new(0);
    let first = [random.number(), random.number()];
    assert_eq!(first, [0xE220_A839_7B1D_CDAF, 0x6E78_9E6A_A1B9_65F4]);
}

#[test]
fn atoms_and_products_are_proper() {
    let mut random = Random::new(41);
    let mut lengths = [0; 26];
    for _ in 0..5000 {
        let messages = random.between(1, 15) as u8;
        let product = random::product(&mut random, messages, 25);
        let near = random::product_near(&mut random, &product, messages, 25);
        assert!(product
            .iter()
            .chain(&near)
            .all(|&atom| is_atom(atom, messages)));
        assert!(near.len() <= 25);
        lengths[product.len()] += 1;
    }
    assert!(lengths.iter().all(|&count| count > 50), "{lengths:?}");
}

#[test]
fn every_shape_gives_good_tables() {
    let mut random = Random::new(42);
    for shape in SHAPES {
        for _ in 0..200 {
            let table = random::table_of(&mut random, shape);
            assert_eq!(Table::read(&table.to_bytes()), Ok(table));
        }
    }
}

#[test]
fn every_verdict_turns_up_often() {
    let mut random = Random::new(43);
    let mut seen: HashMap<&str, usize> = HashMap::new();
    let mut count = |what| *seen.entry(what).or_default() += 1;
    for round in 0..2100 {
        let shape = SHAPES[round % SHAPES.len()];
        let table = random::table_of(&mut random, shape).to_bytes();
        let searched = searched(&table, 256);
        count(name(searched.verdict));
        let system = System::of(&table);
        let operation = |word: &u16| system.moves[usize::from(word & 0x7FFF)].2;
        match searched.verdict {
            Verdict::Safe { rows } if rows >= 30 => count("safe with many rows"),
            Verdict::Safe { rows } if rows >= 5 => count("safe with some rows"),
            Verdict::Unsafe { .. } => {
                let run = searched.steps();
                let lost = run.iter().any(|&word| word >= 0x8000);
                let received = run.iter().filter(|word| operation(word) == 2).count();
                count(if lost {
                    "with a loss"
                } else {
                    "without a loss"
                });
                count(if received >= 2 {
                    "with receives"
                } else {
                    "with few receives"
                });
                if run
                    .windows(2)
                    .any(|two| two[0] == two[1] && two[0] < 0x8000)
                {
                    count("with resending");
                }
            }
            _ => {}
        }
    }
    for verdict in ["safe", "unsafe", "rows full", "atoms full"] {
        assert!(seen[verdict] > 180, "{verdict}: {seen:?}");
    }
    for case in [
        "safe with some rows",
        "safe with many rows",
        "with a loss",
        "with receives",
        "with resending",
    ] {
        assert!(seen[case] > 15, "{case}: {seen:?}");
    }
}

#[test]
fn damage_meets_every_refusal_of_tables_and_lists() {
    let mut random = Random::new(44);
    let mut of_tables = [0; 7];
    let mut of_lists = [0; 7];
    for _ in 0..20_000 {
        let table = random::table_of(&mut random, random::Shape::Tiny);
        let bytes = table.to_bytes();
        let damaged = random::damaged(&mut random, &bytes);
        match Table::read(&damaged) {
            Ok(table) => assert_eq!(table.to_bytes(), damaged),
            Err(refusal) => {
                if damaged.len() <= TABLE_BYTES_MAX {
                    let line = format!("refused {} at {}\n", refusal.number, refusal.place);
                    assert_eq!(check(&damaged), line);
                }
                of_tables[usize::from(refusal.number)] += 1;
            }
        }
        let list = random::list(&mut random, &table, 4, 3);
        assert!(judge(&bytes, &list).is_ok());
        if let Err(refusal) = judge(&bytes, &random::damaged(&mut random, &list)) {
            of_lists[usize::from(refusal.number)] += 1;
        }
    }
    assert!(
        of_tables[1..].iter().all(|&count| count > 50),
        "{of_tables:?}"
    );
    assert!(
        [1, 2, 3, 4, 6].iter().all(|&n| of_lists[n] > 50),
        "{of_lists:?}"
    );
}

#[test]
fn lists_meet_every_judgement() {
    let mut random = Random::new(45);
    let mut seen = [0; 4];
    for _ in 0..5000 {
        let table = random::table_of(&mut random, random::Shape::Tiny);
        let list = random::list(&mut random, &table, 4, 3);
        seen[match judge(&table.to_bytes(), &list).expect("a good list") {
            Judgement::NoStart => 0,
            Judgement::BadRow { .. } => 1,
            Judgement::NotClosed { .. } => 2,
            Judgement::Accepted => 3,
        }] += 1;
    }
    assert!(seen.iter().all(|&count| count > 200), "{seen:?}");
}

/// The replay against the tests' own player.
#[test]
fn replay_is_the_plain_player() {
    let mut random = Random::new(46);
    let mut seen = [0; 3];
    for _ in 0..5000 {
        let table = random::table(&mut random);
        let run = random::run(&mut random, &table, 12);
        let bytes = table.to_bytes();
        let system = System::of(&bytes);
        let (kind, expected) = match system.played(&run) {
            Err(step) => (0, Replay::Stuck { step }),
            Ok(end) if system.bad.contains(&end.state) => {
                (1, Replay::ReachesBad { steps: run.len() })
            }
            Ok(end) => (2, Replay::EndsElsewhere { state: end.state }),
        };
        assert_eq!(replay(&bytes, &run), Ok(expected), "{table:?} {run:?}");
        seen[kind] += 1;
    }
    assert!(seen.iter().all(|&count| count > 200), "{seen:?}");
}

/// Noise everywhere: every call answers, and a refusal writes nothing.
#[test]
fn any_words_and_bytes_have_an_answer() {
    let mut random = Random::new(47);
    for _ in 0..3000 {
        let good = random::table_of(&mut random, random::Shape::Tiny).to_bytes();
        let table = if random.chance(1, 3) {
            random::damaged(&mut random, &good)
        } else {
            good
        };
        let words = |random: &mut Random, most: usize| -> Vec<u16> {
            let count = random.below(most);
            let noise = random.chance(1, 2);
            let mask = if noise { 0xFFFF } else { 0x0003 };
            (0..count).map(|_| random.number() as u16 & mask).collect()
        };
        let (work, run) = (words(&mut random, 500), words(&mut random, 20));
        let list: Vec<u8> = words(&mut random, 40)
            .iter()
            .map(|&word| word as u8)
            .collect();
        let rows = random.below(6) as u64;

        let (mut work_after, mut run_after, mut list_after) =
            (work.clone(), run.clone(), list.clone());
        if answers::lcs_search(&table, &mut work_after, &mut run_after).0 == 4 {
            assert_eq!((work_after, run_after), (work.clone(), run.clone()));
        }
        if answers::lcs_write_list(&table, &work, rows, &mut list_after).0 == 4 {
            assert_eq!(list_after, list);
        }
        answers::lcs_judge(&table, &list);
        answers::lcs_replay(&table, &run);
        answers::lcs_check_table(&list);
        answers::lcs_contained(&work, &run);
        answers::lcs_normal(&mut run.clone());
        answers::lcs_receive(&mut run.clone(), random.byte());
    }
}

//! The answers as the C library's numbers.

mod common;

use common::*;
use second::answers::*;
use second::random::{self, Random};

#[test]
fn check_table() {
    assert_eq!(lcs_check_table(&example_a()), (0, [3, 3, 1]));
    assert_eq!(lcs_check_table(&example_a()[..50]), (4, [1, 0, 46]));
}

#[test]
fn search() {
    let answer = |table: &[u8], room: usize| {
        let (mut work, mut run) = (vec![0; room * 103], vec![0; 2 * room]);
        lcs_search(table, &mut work, &mut run)
    };
    assert_eq!(answer(&example_b(), 3), (0, [3, 0, 0]));
    assert_eq!(answer(&example_a(), 4), (1, [4, 3, 0]));
    assert_eq!(answer(&example_b(), 2), (2, [2, 1, 1]));
    assert_eq!(answer(&example_c(), 24), (2, [24, 23, 1]));
    assert_eq!(answer(&example_c(), 25), (3, [25, 24, 0]));
    assert_eq!(answer(&example_a(), 0), (4, [7, 3, 0]));
    let answer = lcs_search(&example_a(), &mut [0; 206], &mut [0; 3]);
    assert_eq!(answer, (4, [8, 3, 3]));
}

#[test]
fn write_list() {
    let b = searched(&example_b(), 3);
    let mut list = [0xEE; 30];
    let answer = lcs_write_list(&example_b(), &b.work, 3, &mut list);
    assert_eq!(answer, (0, [25, 0, 0]));
    assert_eq!(list[25..], [0xEE; 5]);
    let answer = lcs_write_list(&example_b(), &b.work, 4, &mut list);
    assert_eq!(answer, (4, [9, 3, 3]));
    let answer = lcs_write_list(&example_b(), &b.work, 3, &mut list[..24]);
    assert_eq!(answer, (4, [10, 3, 25]));
}

#[test]
fn judge() {
    let table = example_b();
    let rows = [
        list_row(0, &["{0}*"]),
        list_row(1, &["{0}*"]),
        list_row(2, &[""]),
    ];
    assert_eq!(lcs_judge(&table, &rows[..2].concat()), (0, [0; 3]));
    assert_eq!(lcs_judge(&table, &[]), (1, [0; 3]));
    assert_eq!(lcs_judge(&table, &rows.concat()), (2, [2, 0, 0]));
    assert_eq!(lcs_judge(&table, &rows[0]), (3, [0, 1, 0]));
    assert_eq!(lcs_judge(&table, &rows[0][1..]), (4, [2, 1, 0]));
}

#[test]
fn replay() {
    assert_eq!(lcs_replay(&example_a(), &[0, 32_769, 2]), (0, [3, 0, 0]));
    assert_eq!(lcs_replay(&example_a(), &[0, 32_769]), (1, [1, 0, 0]));
    assert_eq!(lcs_replay(&example_a(), &[0, 1, 1]), (2, [2, 0, 0]));
    assert_eq!(lcs_replay(&example_a(), &[0; 2049]), (4, [6, 2, 0]));
}

/// Words that are no product: no message, two without a star, over 25 atoms.
fn no_products() -> [Vec<u16>; 4] {
    [vec![1, 0], vec![0x8000], vec![1, 3], vec![1; 26]]
}

#[test]
fn contained() {
    assert_eq!(lcs_contained(&product("0?"), &product("{0,14}*")), 1);
    assert_eq!(lcs_contained(&product("0?"), &product("{1}*")), 0);
    assert_eq!(lcs_contained(&[1; 25], &[1; 25]), 1);
    for wrong in no_products() {
        assert_eq!(lcs_contained(&wrong, &[1]), 2);
        assert_eq!(lcs_contained(&[1], &wrong), 2);
    }
}

#[test]
fn normal() {
    let mut p = product("{0}*1?{0,1}*2?");
    assert_eq!(lcs_normal(&mut p), 2);
    // The later places keep their values.
    assert_eq!(p, product("{0,1}*2?{0,1}*2?"));
    assert_eq!(lcs_normal(&mut []), 0);
    assert_eq!(lcs_normal(&mut [0x8001; 25]), 1);
    for mut wrong in no_products() {
        let before = wrong.clone();
        assert_eq!(lcs_normal(&mut wrong), 65_535);
        assert_eq!(wrong, before);
    }
}

#[test]
fn receive() {
    let mut p = product("0?{1}*0?");
    assert_eq!(lcs_receive(&mut p, 1), 2);
    assert_eq!(p, product("{1}*0?0?"));
    let mut all = [0x4000; 25];
    assert_eq!(lcs_receive(&mut all, 14), 24);
    assert_eq!(all, [0x4000; 25]);
    for message in [2, 15, 16, 31, 255] {
        let mut q = product("0?{1}*0?");
        assert_eq!(lcs_receive(&mut q, message), 65_534);
        assert_eq!(q, product("0?{1}*0?"));
    }
    for mut wrong in no_products() {
        let before = wrong.clone();
        assert_eq!(lcs_receive(&mut wrong, 0), 65_535);
        assert_eq!(wrong, before);
    }
}

/// Receive does not look past the product, and what it leaves is what the rules leave.
#[test]
fn receive_for_random_products() {
    let mut random = Random::new(51);
    for _ in 0..2000 {
        let p = random::product(&mut random, 3, 25);
        let message = random.below(4) as u8;
        let mut q = p.clone();
        let count = lcs_receive(&mut q, message);
        let first = p.iter().position(|&atom| atom >> message & 1 == 1);
        match first {
            None => assert_eq!((count, &q), (65_534, &p)),
            Some(place) => {
                let left = &p[place + usize::from(p[place] < 0x8000)..];
                assert_eq!(count as usize, left.len());
                assert_eq!(q[..left.len()], *left);
                assert_eq!(q[left.len()..], p[left.len()..]);
            }
        }
    }
}

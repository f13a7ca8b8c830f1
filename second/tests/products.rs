//! Products against the plain enumeration of their words.
//!
//! How long the words must be for the enumeration to be decisive: read a word against a product of n
//! atoms greedily, each letter going to the first atom, from the present one on, that has it; a
//! single is then used up. A word that is no word of the product gets stuck. Leave out its letters
//! that did not move the present atom forward: the way is the same, so it still gets stuck, and
//! what is left has at most n letters that move and one that is stuck. So every set of words that is
//! closed under losing letters and not inside the product has a word of at most n + 1 letters
//! outside it.

mod common;

use common::*;
use second::product::{below, contained, is_star, received, Product, ATOMS_MAX};
use second::random::{self, Random};

const ROUNDS: usize = 6000;

fn normal(p: &[u16]) -> Vec<u16> {
    let mut product = Product::copy_of(p);
    product.normalise();
    product.atoms().to_vec()
}

/// Every product of at most `atoms` atoms over two messages.
fn all_products(atoms: usize) -> Vec<Vec<u16>> {
    let every = ["0?", "1?", "{0}*", "{1}*", "{0,1}*"].map(|atom| product(atom)[0]);
    let letters: Vec<Vec<u8>> = words_up_to(every.len() as u8, atoms);
    letters
        .iter()
        .map(|word| {
            word.iter()
                .map(|&letter| every[usize::from(letter)])
                .collect()
        })
        .collect()
}

fn contained_by_words(p: &[u16], q: &[u16], messages: u8) -> bool {
    words_up_to(messages, q.len() + 1)
        .iter()
        .all(|word| !is_word(p, word) || is_word(q, word))
}

/// The word of lemma 4.1 in the first paper: in p, and in no product of at most k atoms that does not
/// contain p.
fn witness(p: &[u16], k: usize) -> Vec<u8> {
    let mut word = Vec::new();
    for &atom in p {
        let messages: Vec<u8> = (0..15).filter(|m| atom & (1 << m) != 0).collect();
        let times = if is_star(atom) { k + 1 } else { 1 };
        word.extend(messages.repeat(times));
    }
    word
}

#[test]
fn contained_for_all_small_products() {
    let products = all_products(3);
    let words = words_up_to(2, 4);
    let languages: Vec<Vec<bool>> = products
        .iter()
        .map(|p| words.iter().map(|word| is_word(p, word)).collect())
        .collect();
    for (p, words_of_p) in products.iter().zip(&languages) {
        for (q, words_of_q) in products.iter().zip(&languages) {
            let inside = words_of_p.iter().zip(words_of_q).all(|(p, q)| !p || *q);
            assert_eq!(contained(p, q), inside, "{p:x?} in {q:x?}");
        }
    }
}

#[test]
fn contained_for_random_products() {
    let mut random = Random::new(1);
    let mut seen = [0, 0];
    for _ in 0..ROUNDS {
        let q = random::product(&mut random, 3, 4);
        let p = if random.chance(1, 2) {
            random::product(&mut random, 3, 4)
        } else {
            random::product_near(&mut random, &q, 3, 5)
        };
        let answer = contained(&p, &q);
        assert_eq!(answer, contained_by_words(&p, &q, 3), "{p:x?} in {q:x?}");
        seen[usize::from(answer)] += 1;
    }
    assert!(seen[0] > ROUNDS / 5 && seen[1] > ROUNDS / 5, "{seen:?}");
}

#[test]
fn contained_for_long_products_by_the_witness_word() {
    let mut random = Random::new(2);
    let mut seen = [0, 0];
    for _ in 0..1000 {
        let messages = random.between(1, 15) as u8;
        let q = random::product(&mut random, messages, ATOMS_MAX);
        let p = random::product_near(&mut random, &q, messages, 25);
        let word = witness(&p, q.len());
        assert!(is_long_word(&p, &word));
        let answer = contained(&p, &q);
        assert_eq!(answer, is_long_word(&q, &word), "{p:x?} in {q:x?}");
        seen[usize::from(answer)] += 1;
    }
    assert!(seen[0] > 100 && seen[1] > 100, "{seen:?}");
}

/// The two membership tests of these tests agree, so the long one may stand for the plain one.
#[test]
fn both_membership_tests_agree() {
    let mut random = Random::new(3);
    for _ in 0..ROUNDS {
        let p = random::product(&mut random, 2, 5);
        let length = random.below(7);
        let word: Vec<u8> = (0..length).map(|_| random.below(2) as u8).collect();
        assert_eq!(is_word(&p, &word), is_long_word(&p, &word));
    }
}

/// Receive leaves exactly the words w for which m followed by w is a word of the product. Words of
/// n + 1 letters decide: a word that is left wrongly or is missing can be thinned out as above, its m
/// in front kept.
#[test]
fn receive_leaves_exactly_the_right_words() {
    let mut random = Random::new(4);
    let mut impossible = 0;
    for _ in 0..ROUNDS {
        let p = random::product(&mut random, 3, 4);
        let message = random.below(3) as u8;
        let left = received(&p, message);
        for word in words_up_to(3, p.len() + 1) {
            let wanted = is_word(&p, &[&[message], &word[..]].concat());
            let given = left.is_some_and(|left| is_word(left, &word));
            assert_eq!(given, wanted, "{message} from {p:x?}: {word:?}");
        }
        impossible += usize::from(left.is_none());
    }
    assert!(impossible > ROUNDS / 10 && impossible < ROUNDS * 9 / 10);
}

/// A send, with losses, leaves the words of the product, and those with m behind. The outcome has
/// n + 1 atoms, so n + 2 letters decide; a word outside thins out with its last letter kept.
#[test]
fn send_adds_at_most_one_message() {
    let mut random = Random::new(5);
    for _ in 0..ROUNDS {
        let (p, message) = (random::product(&mut random, 2, 4), random.below(2) as u8);
        let sent = outcome_of_send(&p, message, false);
        for word in words_up_to(2, p.len() + 2) {
            let wanted = is_word(&p, &word)
                || word
                    .split_last()
                    .is_some_and(|(last, before)| *last == message && is_word(&p, before));
            assert_eq!(is_word(&sent, &word), wanted, "{p:x?} {message} {word:?}");
        }
    }
}

/// A self-loop send, with losses, leaves the words of the product with any number of m behind.
#[test]
fn self_loop_send_adds_any_number_of_messages() {
    let mut random = Random::new(6);
    for _ in 0..ROUNDS {
        let (p, message) = (random::product(&mut random, 2, 4), random.below(2) as u8);
        let sent = outcome_of_send(&p, message, true);
        for word in words_up_to(2, p.len() + 2) {
            let trailing = word.iter().rev().take_while(|m| **m == message).count();
            let wanted = (0..=trailing).any(|k| is_word(&p, &word[..word.len() - k]));
            assert_eq!(is_word(&sent, &word), wanted, "{p:x?} {message} {word:?}");
        }
    }
}

/// What a send of a table leaves on its channel, normalised.
fn outcome_of_send(p: &[u16], message: u8, self_loop: bool) -> Vec<u16> {
    use second::row::Row;
    use second::table::{Operation, Transition};
    let transition = Transition {
        source: 0,
        target: u16::from(!self_loop),
        operation: Operation::Send {
            channel: 2,
            message,
        },
        label: 0,
    };
    let mut row = Row::empty(0);
    row.products[2] = p;
    let mut outcome = row.outcome(&transition).expect("a send is always possible");
    outcome.normalise();
    outcome.row().products[2].to_vec()
}

/// Places of atoms that stand next to a star that has all their messages.
fn removable(p: &[u16]) -> Vec<usize> {
    let swallows = |place: usize, neighbour: Option<usize>| {
        neighbour
            .and_then(|neighbour| p.get(neighbour))
            .is_some_and(|&f| is_star(f) && below(p[place], f))
    };
    (0..p.len())
        .filter(|&place| swallows(place, place.checked_sub(1)) || swallows(place, Some(place + 1)))
        .collect()
}

#[test]
fn any_order_of_removals_ends_in_the_normal_form() {
    let mut random = Random::new(7);
    let mut shortened = 0;
    for round in 0..ROUNDS {
        let messages = random.between(1, 4) as u8;
        let atoms = if round % 2 == 0 { 6 } else { 25 };
        let p = random::product(&mut random, messages, atoms);
        let expected = normal(&p);
        for _ in 0..4 {
            let mut left = p.clone();
            loop {
                let places = removable(&left);
                if places.is_empty() {
                    break;
                }
                left.remove(places[random.below(places.len())]);
            }
            assert_eq!(left, expected, "{p:x?}");
        }
        shortened += usize::from(expected.len() < p.len());
    }
    assert!(shortened > ROUNDS / 4 && shortened < ROUNDS);
}

#[test]
fn normal_form_keeps_the_words() {
    for p in all_products(5) {
        let normal = normal(&p);
        for word in words_up_to(2, p.len() + 1) {
            assert_eq!(is_word(&p, &word), is_word(&normal, &word), "{p:x?}");
        }
    }
}

#[test]
fn same_words_exactly_when_same_normal_form() {
    let products = all_products(3);
    for p in &products {
        for q in &products {
            let same_words = contained(p, q) && contained(q, p);
            assert_eq!(normal(p) == normal(q), same_words, "{p:x?} {q:x?}");
        }
    }
    let mut random = Random::new(8);
    for _ in 0..ROUNDS {
        let p = random::product(&mut random, 3, 25);
        let q = random::product_near(&mut random, &p, 3, 25);
        let same_words = contained(&p, &q) && contained(&q, &p);
        assert_eq!(normal(&p) == normal(&q), same_words, "{p:x?} {q:x?}");
    }
}

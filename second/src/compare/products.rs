//! Comparisons on products: contained, receive, normal form, and an atom added to a normal product.

use super::{Comparison, Kind};
use crate::answers::{IMPOSSIBLE, NO_PRODUCT};
use crate::calls::{Call, Lent};
use crate::product::{is_atom, messages_of, star, Product, ATOMS_MAX, OUTCOME_ATOMS_MAX};
use crate::random::{atom, product, product_below, product_near, single_of, Random};
use crate::table::MESSAGES_MAX;

pub const CONTAINED: Comparison = Comparison {
    name: "contained",
    cases: 100_000,
    call: contained_call,
    kinds: &[
        Kind::new("yes", 20, |_, reply| reply.answer == 1),
        Kind::new("no", 20, |_, reply| reply.answer == 0),
        Kind::new("refused", 5, |_, reply| reply.answer == 2),
    ],
};

pub const RECEIVE: Comparison = Comparison {
    name: "receive",
    cases: 30_000,
    call: receive_call,
    kinds: &[
        Kind::new("received", 20, |_, reply| reply.answer < IMPOSSIBLE),
        Kind::new("impossible", 10, |_, reply| reply.answer == IMPOSSIBLE),
        REFUSED,
    ],
};

pub const NORMAL: Comparison = Comparison {
    name: "normal",
    cases: 30_000,
    call: normal_call,
    kinds: &[SHORTER, AS_LONG, REFUSED],
};

pub const ADD: Comparison = Comparison {
    name: "add",
    cases: 30_000,
    call: add_call,
    kinds: &[SHORTER, AS_LONG],
};

const REFUSED: Kind = Kind::new("refused", 5, |_, reply| reply.answer == NO_PRODUCT);

const SHORTER: Kind = Kind::new("shorter", 20, |call, reply| reply.answer < words_lent(call));

const AS_LONG: Kind = Kind::new("as long", 10, |call, reply| {
    reply.answer == words_lent(call)
});

/// How many words the call's product has.
fn words_lent(call: &Call) -> u32 {
    match &call.lent[..] {
        [Lent::Words(p), ..] => p.len() as u32,
        _ => 0,
    }
}

/// Two products; of every six p's two are contained in q by the way they are made, two were and then
/// had an atom changed, so that they often only just are not.
fn contained_call(random: &mut Random, _case: usize) -> Call {
    let messages = some_messages(random);
    let q = product(random, messages, OUTCOME_ATOMS_MAX);
    let p = match random.below(6) {
        0 => product(random, messages, OUTCOME_ATOMS_MAX),
        1 => product_near(random, &q, messages, OUTCOME_ATOMS_MAX),
        2 | 3 => product_below(random, &q, OUTCOME_ATOMS_MAX),
        _ => {
            let below = product_below(random, &q, OUTCOME_ATOMS_MAX);
            with_one_changed(random, below, messages)
        }
    };
    match random.below(16) {
        0 => Call::contained(spoilt(random, p), q),
        1 => Call::contained(p, spoilt(random, q)),
        _ => Call::contained(p, q),
    }
}

/// A quarter of the messages are any byte, most of them no message of any table.
fn receive_call(random: &mut Random, _case: usize) -> Call {
    let messages = some_messages(random);
    let p = product(random, messages, OUTCOME_ATOMS_MAX);
    let p = seldom_spoilt(random, p);
    let message = if random.chance(1, 4) {
        random.byte()
    } else {
        random.below(messages.into()) as u8
    };
    Call::receive(p, message)
}

/// Half of the products have stars taken apart into neighbours that may go again.
fn normal_call(random: &mut Random, _case: usize) -> Call {
    let messages = some_messages(random);
    let mut p = product(random, messages, OUTCOME_ATOMS_MAX);
    if random.chance(1, 2) {
        p = product_below(random, &p, OUTCOME_ATOMS_MAX);
    }
    Call::normal(seldom_spoilt(random, p))
}

/// A normal product and behind it an atom: any atom, one that its neighbour may have in itself, or a
/// star that takes away the last few.
fn add_call(random: &mut Random, _case: usize) -> Call {
    let messages = some_messages(random);
    let mut normal = Product::copy_of(&product(random, messages, ATOMS_MAX));
    normal.normalise();
    let mut p = normal.atoms().to_vec();
    let last = &p[p.len().saturating_sub(random.between(1, 4))..];
    let added = match (random.below(3), last) {
        (0, [.., last]) => single_of(random, *last),
        (1, [_, ..]) => star(last.iter().fold(0, |set, &atom| set | messages_of(atom))),
        _ => atom(random, messages),
    };
    p.push(added);
    Call::normal(p)
}

/// How many messages the atoms of a case are over.
fn some_messages(random: &mut Random) -> u8 {
    random.between(1, MESSAGES_MAX.into()) as u8
}

fn with_one_changed(random: &mut Random, mut p: Vec<u16>, messages: u8) -> Vec<u16> {
    if !p.is_empty() {
        let place = random.below(p.len());
        p[place] = atom(random, messages);
    }
    p
}

fn seldom_spoilt(random: &mut Random, p: Vec<u16>) -> Vec<u16> {
    if random.chance(1, 8) {
        spoilt(random, p)
    } else {
        p
    }
}

/// Words that are no product: one is no atom, there are over 25, or both.
fn spoilt(random: &mut Random, mut p: Vec<u16>) -> Vec<u16> {
    let too_many = random.chance(1, 2);
    if too_many {
        let count = if random.chance(1, 2) {
            OUTCOME_ATOMS_MAX + 1
        } else {
            random.between(OUTCOME_ATOMS_MAX + 1, 60)
        };
        p.resize_with(count, || atom(random, MESSAGES_MAX));
    }
    if !too_many || random.chance(1, 4) {
        let place = random.below(p.len() + 1);
        p.insert(place, no_atom(random));
    }
    p
}

/// No message, with a star or without, or several messages without a star.
fn no_atom(random: &mut Random) -> u16 {
    loop {
        let word = match random.below(4) {
            0 => 0,
            1 => star(0),
            _ => messages_of(random.number() as u16),
        };
        if !is_atom(word, MESSAGES_MAX) {
            return word;
        }
    }
}

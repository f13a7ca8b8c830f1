//! Atoms and products: what the words waiting in a channel can be.
//!
//! An atom is one `u16`. Bit 15 marks a star, bits 0 to 14 are messages. A single stands for its
//! message or nothing, a star for every word over its messages. A product is a slice of atoms and
//! stands for their words joined in order.

/// Bit 15 of an atom.
pub const STAR: u16 = 0x8000;
/// A product in a row has at most this many atoms.
pub const ATOMS_MAX: usize = 24;
/// An outcome may have one more, before it is tested.
pub const OUTCOME_ATOMS_MAX: usize = ATOMS_MAX + 1;

/// The atom "this message or nothing". The message is below 15.
pub fn single(message: u8) -> u16 {
    1 << message
}

/// The atom "any word over this set of messages".
pub fn star(messages: u16) -> u16 {
    STAR | messages
}

pub fn is_star(atom: u16) -> bool {
    atom & STAR != 0
}

/// The messages of an atom, a bit for each.
pub fn messages_of(atom: u16) -> u16 {
    atom & !STAR
}

/// Whether a word is an atom over messages 0 to `messages - 1`.
pub fn is_atom(word: u16, messages: u8) -> bool {
    let set = messages_of(word);
    let known = set >> messages == 0;
    known
        && if is_star(word) {
            set != 0
        } else {
            set.count_ones() == 1
        }
}

/// Whether every word of atom `e` is a word of atom `f`.
pub fn below(e: u16, f: u16) -> bool {
    if is_star(f) {
        messages_of(e) & !messages_of(f) == 0
    } else {
        e == f
    }
}

/// Whether every word of product `p` is a word of product `q`.
///
/// Compares heads. Each round drops the head of `q` (it cannot take the head of `p`), the head of
/// `p` (a star of `q` takes it and stays), or both (two equal singles meet).
pub fn contained(p: &[u16], q: &[u16]) -> bool {
    let (mut p, mut q) = (p, q);
    while let [e, rest_of_p @ ..] = p {
        let [f, rest_of_q @ ..] = q else {
            return false;
        };
        let taken = below(*e, *f);
        if taken {
            p = rest_of_p;
        }
        if !taken || !is_star(*f) {
            q = rest_of_q;
        }
    }
    true
}

/// What a receive of `message` leaves of a product; `None` if it is impossible.
///
/// All before the first atom that has the message is lost; that atom goes too if it is single.
pub fn received(product: &[u16], message: u8) -> Option<&[u16]> {
    let wanted = single(message);
    let first = product.iter().position(|atom| atom & wanted != 0)?;
    let dropped = if is_star(product[first]) {
        first
    } else {
        first + 1
    };
    Some(&product[dropped..])
}

/// A product held in place, with room for the atoms of an outcome.
#[derive(Clone, Copy, Debug)]
pub struct Product {
    count: usize,
    atoms: [u16; OUTCOME_ATOMS_MAX],
}

impl Product {
    pub const EMPTY: Product = Product {
        count: 0,
        atoms: [0; OUTCOME_ATOMS_MAX],
    };

    /// A copy of at most 25 atoms.
    pub fn copy_of(atoms: &[u16]) -> Product {
        let mut product = Product::EMPTY;
        product.atoms[..atoms.len()].copy_from_slice(atoms);
        product.count = atoms.len();
        product
    }

    pub fn atoms(&self) -> &[u16] {
        &self.atoms[..self.count]
    }

    /// Adds an atom at the end; fewer than 25 must be there.
    pub fn add(&mut self, atom: u16) {
        self.atoms[self.count] = atom;
        self.count += 1;
    }

    /// Removes every atom that stands next to a star that has all its messages, until none does.
    ///
    /// The atoms before `self.count` are always normal, so only their last can be next to a
    /// newcomer: a newcomer star swallows last atoms below it, then a last star may swallow it.
    pub fn normalise(&mut self) {
        let given = *self;
        self.count = 0;
        for &atom in given.atoms() {
            while is_star(atom) && self.last().is_some_and(|last| below(last, atom)) {
                self.count -= 1;
            }
            let swallowed = self
                .last()
                .is_some_and(|last| is_star(last) && below(atom, last));
            if !swallowed {
                self.add(atom);
            }
        }
    }

    fn last(&self) -> Option<u16> {
        self.atoms().last().copied()
    }
}

//! Rows: a control state and one product for each channel; and what a transition makes of a row.

use crate::product::{contained, received, single, star, Product};
use crate::table::{Operation, Table, Transition};

/// Products in a row. Channels the table lacks have the empty product.
pub const CHANNELS: usize = 4;

/// A row whose products stand elsewhere and are read in place.
#[derive(Clone, Copy, Debug, PartialEq, Eq)]
pub struct Row<'a> {
    pub state: u16,
    pub products: [&'a [u16]; CHANNELS],
}

impl<'a> Row<'a> {
    /// The row with every channel empty.
    pub fn empty(state: u16) -> Row<'static> {
        Row {
            state,
            products: [&[]; CHANNELS],
        }
    }

    /// Whether `other` has every configuration of this row: equal states, and each product
    /// contained in its like.
    pub fn is_contained_in(&self, other: &Row) -> bool {
        self.state == other.state
            && self
                .products
                .iter()
                .zip(other.products)
                .all(|(p, q)| contained(p, q))
    }

    /// What the transition leaves of this row, not normalised; `None` if the move is impossible.
    /// The transition must begin in the row's state, and products have at most 24 atoms.
    pub fn outcome(&self, transition: &Transition) -> Option<Outcome<'a>> {
        let (channel, changed) = match transition.operation {
            Operation::Quiet => (0, Product::copy_of(self.products[0])),
            Operation::Send { channel, message } => {
                let mut product = Product::copy_of(self.products[usize::from(channel)]);
                product.add(atom_added(transition, message));
                (channel, product)
            }
            Operation::Receive { channel, message } => {
                let left = received(self.products[usize::from(channel)], message)?;
                (channel, Product::copy_of(left))
            }
        };
        Some(Outcome {
            state: transition.target,
            others: self.products,
            channel: usize::from(channel),
            changed,
        })
    }
}

/// The atom a send adds to its channel. A self-loop send leaves exactly what any number of rounds
/// leaves, losses included: the star of its message.
fn atom_added(transition: &Transition, message: u8) -> u16 {
    if transition.is_self_loop_send() {
        star(single(message))
    } else {
        single(message)
    }
}

/// The row a transition leads to: one product is new, the others are those of the row before.
#[derive(Clone, Copy, Debug)]
pub struct Outcome<'a> {
    state: u16,
    others: [&'a [u16]; CHANNELS],
    channel: usize,
    changed: Product,
}

impl Outcome<'_> {
    /// Puts the new product in normal form.
    pub fn normalise(&mut self) {
        self.changed.normalise();
    }

    /// Whether some configuration of the outcome is bad.
    pub fn is_bad(&self, table: &Table) -> bool {
        table.is_bad(self.state)
    }

    pub fn row(&self) -> Row<'_> {
        let mut products = self.others;
        products[self.channel] = self.changed.atoms();
        Row {
            state: self.state,
            products,
        }
    }
}

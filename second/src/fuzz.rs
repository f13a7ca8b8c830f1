//! Longer runs by hand: random cases of every comparison, batch by batch, until two replies differ.
//! The call of that case is then made as small as it can be found.
//!
//! The cases come behind those that [`crate::compare`] makes by itself, so that none of them is the
//! same for every seed.

use crate::calls::{Lent, Library};
use crate::compare::{Replied, BATCH, COMPARISONS};
use crate::random::records_of;
use crate::work::ROW_WORDS;
use std::io::{self, Write};

/// After so many batches a line says how far it is.
const BATCHES_TO_A_LINE: usize = 500;
/// Calls that are tried to make one smaller.
const TRIES_MAX: usize = 20_000;

/// What to try.
#[derive(Clone, Copy, Debug, PartialEq, Eq)]
pub struct Wanted {
    /// None is one that nobody chose.
    pub seed: Option<u64>,
    pub cases: usize,
}

impl Wanted {
    /// Reads `[--seed N] [--cases M]`; `None` if the words are something else.
    pub fn from_words(words: &[&str]) -> Option<Wanted> {
        let mut wanted = Wanted {
            seed: None,
            cases: 100_000,
        };
        let mut words = words.iter();
        while let Some(&word) = words.next() {
            match word {
                "--seed" => wanted.seed = Some(words.next()?.parse().ok()?),
                "--cases" => wanted.cases = words.next()?.parse().ok()?,
                _ => return None,
            }
        }
        Some(wanted)
    }
}

/// Tries so many cases, each comparison in its turn, and prints the seed and the first difference, made
/// small. Says whether there is none.
pub fn fuzz(
    library: &mut impl Library,
    cases: usize,
    seed: u64,
    out: &mut impl Write,
) -> io::Result<bool> {
    writeln!(out, "fuzz: seed {seed}, {cases} cases")?;
    let batches = (0..cases).step_by(BATCH).enumerate();
    for (batch, done) in batches {
        let comparison = &COMPARISONS[batch % COMPARISONS.len()];
        let first = comparison.cases + batch / COMPARISONS.len() * BATCH;
        let count = BATCH.min(cases - done);
        let replied = comparison.replied(library, seed, first..first + count)?;
        if let Some(difference) = replied.into_iter().find(|replied| !replied.is_alike()) {
            let (name, case) = (comparison.name, difference.case);
            writeln!(out, "fuzz {name}: case {case} of seed {seed} differs")?;
            let (smallest, tries) = made_small(library, difference)?;
            writeln!(
                out,
                "fuzz {name}: the smallest call of {tries} tried that differs"
            )?;
            smallest.print(out)?;
            return Ok(false);
        }
        if batch % BATCHES_TO_A_LINE == BATCHES_TO_A_LINE - 1 {
            writeln!(out, "fuzz: {} cases, none differs", done + count)?;
        }
    }
    writeln!(out, "fuzz: all {cases} cases, none differs (seed {seed})")?;
    Ok(true)
}

/// The smallest call that is found to differ still, and how many were tried.
fn made_small(library: &mut impl Library, difference: Replied) -> io::Result<(Replied, usize)> {
    let mut shrinking = Shrinking {
        library,
        smallest: difference,
        tries: 0,
    };
    while shrinking.everywhere()? {}
    Ok((shrinking.smallest, shrinking.tries))
}

/// A call that differs, while it is made smaller.
struct Shrinking<'a, L: Library> {
    library: &'a mut L,
    smallest: Replied,
    tries: usize,
}

impl<L: Library> Shrinking<'_, L> {
    /// Goes over all that is lent once. Says whether something could go.
    fn everywhere(&mut self) -> io::Result<bool> {
        let mut smaller = false;
        for place in 0..self.smallest.call.lent.len() {
            smaller |= match &self.smallest.call.lent[place] {
                Lent::Bytes(_) => self.without_pieces(place, records)?,
                Lent::Words(_) => {
                    self.without_pieces(place, rows)? | self.without_pieces(place, single_words)?
                }
                Lent::Numbers(numbers) => match numbers[..] {
                    [number] => self.lower(place, number)?,
                    // The places for an answer are always three.
                    _ => false,
                },
            };
        }
        Ok(smaller)
    }

    /// Leaves out neighbouring pieces of what is lent there, first all, then ever fewer at once.
    fn without_pieces(&mut self, place: usize, cut: fn(&Lent) -> Vec<usize>) -> io::Result<bool> {
        let mut pieces = cut(&self.smallest.call.lent[place]);
        let pieces_before = pieces.len();
        let mut at_once = pieces_before;
        while at_once > 0 {
            let mut first = 0;
            while first < pieces.len() {
                let last = pieces.len().min(first + at_once);
                let from = pieces[..first].iter().sum();
                let to = from + pieces[first..last].iter().sum::<usize>();
                let left = without(&self.smallest.call.lent[place], from, to);
                if self.still_differs(place, left)? {
                    pieces.drain(first..last);
                } else {
                    first = last;
                }
            }
            at_once /= 2;
        }
        Ok(pieces.len() < pieces_before)
    }

    /// Tries lower numbers, the lowest first.
    fn lower(&mut self, place: usize, number: u64) -> io::Result<bool> {
        for lower in [0, number / 2, number.saturating_sub(1)] {
            if lower < number && self.still_differs(place, Lent::Numbers(vec![lower]))? {
                return Ok(true);
            }
        }
        Ok(false)
    }

    /// Whether the call still differs with this lent there instead; then it is the smallest.
    fn still_differs(&mut self, place: usize, lent: Lent) -> io::Result<bool> {
        if self.tries == TRIES_MAX {
            return Ok(false);
        }
        self.tries += 1;
        let mut call = self.smallest.call.clone();
        call.lent[place] = lent;
        let replies = self.library.replies(std::slice::from_ref(&call))?;
        for reply in replies {
            let replied = Replied::new(self.smallest.case, call.clone(), reply);
            if !replied.is_alike() {
                self.smallest = replied;
                return Ok(true);
            }
        }
        Ok(false)
    }
}

// ---- pieces of what is lent, by their lengths

fn records(lent: &Lent) -> Vec<usize> {
    match lent {
        Lent::Bytes(bytes) => records_of(bytes).iter().map(Vec::len).collect(),
        _ => Vec::new(),
    }
}

/// Rows of a work table; shorter buffers are one piece.
fn rows(lent: &Lent) -> Vec<usize> {
    match lent {
        Lent::Words(words) => words.chunks(ROW_WORDS).map(<[u16]>::len).collect(),
        _ => Vec::new(),
    }
}

fn single_words(lent: &Lent) -> Vec<usize> {
    match lent {
        Lent::Words(words) => vec![1; words.len()],
        _ => Vec::new(),
    }
}

/// What is lent, without the elements from one place up to another.
fn without(lent: &Lent, from: usize, to: usize) -> Lent {
    match lent {
        Lent::Bytes(bytes) => Lent::Bytes([&bytes[..from], &bytes[to..]].concat()),
        Lent::Words(words) => Lent::Words([&words[..from], &words[to..]].concat()),
        Lent::Numbers(numbers) => Lent::Numbers([&numbers[..from], &numbers[to..]].concat()),
    }
}

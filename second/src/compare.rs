//! The comparisons: the same calls to the proved library and to the second program, reply by reply.
//!
//! A case depends on the seed and its own number only, so that a seed and a case number name it.

mod judges;
mod products;
mod replays;
mod searches;
mod tables;
mod writes;

use crate::calls::{Call, Lent, Library, Reply};
use crate::driver::Driver;
use crate::random::Random;
use std::io::{self, Write};
use std::ops::Range;

pub use searches::chains;

/// Calls that are on their way at once.
pub const BATCH: usize = 512;
/// Differences of one comparison that are printed in full.
const PRINTED: usize = 3;

/// Calls of one kind, to be answered alike.
pub struct Comparison {
    pub name: &'static str,
    /// How many cases there are, unless a number is asked for.
    pub cases: usize,
    /// Makes the call of a case.
    pub call: fn(&mut Random, usize) -> Call,
    /// Kinds of replies that must all turn up, else the comparison says too little.
    pub kinds: &'static [Kind],
}

/// Replies that must not be rare.
pub struct Kind {
    name: &'static str,
    least_percent: usize,
    is: fn(&Call, &Reply) -> bool,
}

impl Kind {
    const fn new(name: &'static str, least_percent: usize, is: fn(&Call, &Reply) -> bool) -> Kind {
        Kind {
            name,
            least_percent,
            is,
        }
    }
}

/// The number of a refusal. The numbers of an answer are lent last.
fn refusal(reply: &Reply) -> Option<u64> {
    match (reply.answer, reply.lent.last()) {
        (4, Some(Lent::Numbers(numbers))) => numbers.first().copied(),
        _ => None,
    }
}

/// One of the three numbers of an answer.
fn number(reply: &Reply, place: usize) -> u64 {
    match reply.lent.last() {
        Some(Lent::Numbers(numbers)) => numbers[place],
        _ => panic!("{reply:?} has no numbers"),
    }
}

/// The words that are lent there.
fn words(call: &Call, place: usize) -> &[u16] {
    match &call.lent[place] {
        Lent::Words(words) => words,
        lent => panic!("{lent:?} are no words"),
    }
}

/// The bytes that are lent there.
fn bytes(call: &Call, place: usize) -> &[u8] {
    match &call.lent[place] {
        Lent::Bytes(bytes) => bytes,
        lent => panic!("{lent:?} are no bytes"),
    }
}

/// All comparisons, in the order in which they are made.
pub const COMPARISONS: &[Comparison] = &[
    products::CONTAINED,
    products::RECEIVE,
    products::NORMAL,
    products::ADD,
    CHECK_TABLE,
    searches::SEARCH,
    replays::REPLAY,
    writes::WRITE_LIST,
    judges::JUDGE,
];

/// The comparison of the table check.
pub const CHECK_TABLE: Comparison = tables::CHECK_TABLE;

/// What to compare.
#[derive(Clone, Debug, PartialEq, Eq)]
pub struct Wanted {
    /// The comparisons by name; all of them, if none is named.
    pub names: Vec<String>,
    /// How many cases of each; its own number, if none is given.
    pub cases: Option<usize>,
    pub seed: u64,
}

impl Wanted {
    /// Reads `[NAME..] [--cases N] [--seed S]`; `None` if the words are something else.
    pub fn from_words(words: &[&str]) -> Option<Wanted> {
        let mut wanted = Wanted {
            names: Vec::new(),
            cases: None,
            seed: 1,
        };
        let mut words = words.iter();
        while let Some(&word) = words.next() {
            match word {
                "--cases" => wanted.cases = Some(words.next()?.parse().ok()?),
                "--seed" => wanted.seed = words.next()?.parse().ok()?,
                name if COMPARISONS.iter().any(|known| known.name == name) => {
                    wanted.names.push(name.to_string());
                }
                _ => return None,
            }
        }
        Some(wanted)
    }

    fn wants(&self, comparison: &Comparison) -> bool {
        self.names.is_empty() || self.names.iter().any(|name| name == comparison.name)
    }
}

/// Makes the comparisons with the proved library and prints what came of them. Says whether all is
/// well.
pub fn compare(wanted: &Wanted, out: &mut impl Write) -> io::Result<bool> {
    let mut driver = Driver::start()?;
    let (mut passed, mut failed, mut cases) = (0, 0, 0);
    for comparison in COMPARISONS.iter().filter(|known| wanted.wants(known)) {
        let count = wanted.cases.unwrap_or(comparison.cases);
        if comparison.run(&mut driver, count, wanted.seed, out)? {
            passed += 1;
        } else {
            failed += 1;
        }
        cases += count;
    }
    writeln!(
        out,
        "compare: {passed} passed, {failed} failed, {cases} cases"
    )?;
    driver.end()?;
    Ok(failed == 0)
}

impl Comparison {
    /// Compares so many cases and prints the differences. Says whether there are none, and whether
    /// every kind of reply turned up often enough; of fewer cases than its own the latter is not asked.
    pub fn run(
        &self,
        library: &mut impl Library,
        cases: usize,
        seed: u64,
        out: &mut impl Write,
    ) -> io::Result<bool> {
        let name = self.name;
        let mut counts = vec![0; self.kinds.len()];
        let mut differences = 0;
        for first in (0..cases).step_by(BATCH) {
            for replied in self.replied(library, seed, first..cases.min(first + BATCH))? {
                self.count_kinds(&replied.call, &replied.second, &mut counts);
                if replied.is_alike() {
                    continue;
                }
                differences += 1;
                if differences <= PRINTED {
                    let case = replied.case;
                    writeln!(out, "compare {name}: case {case} of seed {seed} differs")?;
                    replied.print(out)?;
                }
            }
        }
        let fair = self.print_kinds(out, cases, &counts)?;
        writeln!(
            out,
            "compare {name}: {cases} compared, {differences} differ (seed {seed})"
        )?;
        Ok(differences == 0 && (fair || cases < self.cases))
    }

    /// What both sides reply to these cases, which are on their way at once.
    pub fn replied(
        &self,
        library: &mut impl Library,
        seed: u64,
        cases: Range<usize>,
    ) -> io::Result<Vec<Replied>> {
        let calls: Vec<Call> = cases.clone().map(|case| self.case(seed, case)).collect();
        let replies = library.replies(&calls).map_err(|error| {
            let (name, first, last) = (self.name, cases.start, cases.end - 1);
            let at = format!("{name}: cases {first} to {last} of seed {seed}");
            io::Error::new(error.kind(), format!("{at}: {error}"))
        })?;
        let both = cases.zip(calls.into_iter().zip(replies));
        Ok(both
            .map(|(case, (call, library))| Replied::new(case, call, library))
            .collect())
    }

    /// The call of a case. The seed is scattered first, so that neighbouring seeds share no cases.
    pub fn case(&self, seed: u64, case: usize) -> Call {
        let first_seed = Random::new(seed).number();
        let own_seed = Random::new(first_seed.wrapping_add(case as u64)).number();
        (self.call)(&mut Random::new(own_seed), case)
    }

    fn count_kinds(&self, call: &Call, reply: &Reply, counts: &mut [usize]) {
        for (kind, count) in self.kinds.iter().zip(counts) {
            *count += usize::from((kind.is)(call, reply));
        }
    }

    /// Prints the share of each kind, and says whether all are fair.
    fn print_kinds(
        &self,
        out: &mut impl Write,
        cases: usize,
        counts: &[usize],
    ) -> io::Result<bool> {
        let mut fair = true;
        let mut shares = Vec::new();
        for (kind, &count) in self.kinds.iter().zip(counts) {
            let (name, least) = (kind.name, kind.least_percent);
            let percent = 100 * count / cases.max(1);
            if percent < least {
                fair = false;
                shares.push(format!(
                    "{name} {percent} % (TOO FEW, {least} % are wanted)"
                ));
            } else {
                shares.push(format!("{name} {percent} %"));
            }
        }
        writeln!(out, "compare {}: {}", self.name, shares.join(", "))?;
        Ok(fair)
    }
}

/// A call and what both sides replied to it.
pub struct Replied {
    pub case: usize,
    pub call: Call,
    pub library: Reply,
    pub second: Reply,
}

impl Replied {
    /// The second program replies here.
    pub fn new(case: usize, call: Call, library: Reply) -> Replied {
        let second = call.reply();
        Replied {
            case,
            call,
            library,
            second,
        }
    }

    pub fn is_alike(&self) -> bool {
        self.library == self.second
    }

    pub fn print(&self, out: &mut impl Write) -> io::Result<()> {
        writeln!(out, "  function {:?}", self.call.function)?;
        for lent in &self.call.lent {
            writeln!(out, "  lent     {lent}")?;
        }
        print_reply(out, "library", &self.call, &self.library)?;
        print_reply(out, "second", &self.call, &self.second)
    }
}

fn print_reply(out: &mut impl Write, whose: &str, call: &Call, reply: &Reply) -> io::Result<()> {
    writeln!(out, "  {whose:8} answers {}", reply.answer)?;
    for (before, after) in call.lent.iter().zip(&reply.lent) {
        if after == before {
            writeln!(out, "           and leaves what was lent as it was")?;
        } else {
            writeln!(out, "           and leaves {after}")?;
        }
    }
    if reply.wrote_outside {
        writeln!(out, "           and WROTE OUTSIDE of what was lent")?;
    }
    Ok(())
}

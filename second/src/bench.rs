//! The benchmark: the same calls to an archive of the proved library and to the second program,
//! timed in turns in one process.
//!
//! A ratio is the archive's time by the second program's, of calls that were made next to each
//! other. Time is processor time, so that the turns of other programs do not count. What is lent is
//! alike for both sides and is not cleared between calls: each call writes the same words over those
//! of the last.

mod archive;
mod clock;
pub mod tables;

use crate::answers::{lcs_judge, lcs_replay, lcs_search, lcs_write_list, Answer};
use crate::random::{walk, Random};
use crate::replay::RUN_WORDS_MAX;
use crate::table::Table;
use crate::work::{ROOM_MAX, ROW_WORDS};
use archive::Archive;
use clock::microseconds_used;
use std::hint::black_box;
use std::io::{self, Write};
use std::path::PathBuf;

/// What to time.
#[derive(Clone, Debug, PartialEq, Eq)]
pub struct Wanted {
    pub archive: PathBuf,
    pub repeats: usize,
}

impl Wanted {
    /// Reads `--archive FILE [--repeats N]`; `None` if the words are something else.
    pub fn from_words(words: &[&str]) -> Option<Wanted> {
        let (mut archive, mut repeats) = (None, 61);
        let mut words = words.iter();
        while let Some(&word) = words.next() {
            match word {
                "--archive" => archive = Some(PathBuf::from(words.next()?)),
                "--repeats" => repeats = words.next()?.parse().ok().filter(|&n| n > 0)?,
                _ => return None,
            }
        }
        let archive = archive?;
        Some(Wanted { archive, repeats })
    }
}

/// Times everything and prints the results as two tables. Says whether both sides always answered
/// alike.
pub fn bench(wanted: &Wanted, out: &mut impl Write) -> io::Result<bool> {
    let mut bench = Bench {
        archive: Archive::open(&wanted.archive)?,
        repeats: wanted.repeats,
        alike: true,
        out,
    };
    bench.calls()?;
    bench.growth()?;
    Ok(bench.alike)
}

struct Bench<'a, W: Write> {
    archive: Archive,
    repeats: usize,
    alike: bool,
    out: &'a mut W,
}

impl<W: Write> Bench<'_, W> {
    /// Every call on every table, with all the room there may be.
    fn calls(&mut self) -> io::Result<()> {
        writeln!(self.out, "{HEADING}")?;
        for tables::Named { name, table } in tables::tables() {
            let found = self.search(&name, &table, ROOM_MAX)?;
            if !found.list.is_empty() {
                self.write_list(&name, &table, &found)?;
                self.judge(&name, &table, &found.list)?;
            }
            self.replay(&name, &table, &long_walk(&table, found.run))?;
        }
        Ok(())
    }

    /// The search of one table with ever more room.
    fn growth(&mut self) -> io::Result<()> {
        writeln!(self.out, "\n{HEADING}")?;
        let table = tables::dense(1).to_bytes();
        for room in [64, 128, 256, 512, ROOM_MAX] {
            self.search(&format!("dense, seed 1, room {room}"), &table, room)?;
        }
        Ok(())
    }

    fn search(&mut self, name: &str, table: &[u8], room: usize) -> io::Result<Found> {
        let mut lent = [(); 2].map(|()| (vec![0; room * ROW_WORDS], vec![0; 2 * room]));
        let [(work, run), (own_work, own_run)] = &mut lent;
        let archive = &self.archive;
        let (answer, timed) = compared(
            self.repeats,
            || archive.search(table, work, run),
            || lcs_search(table, own_work, own_run),
        );
        let same_memory = lent[0] == lent[1];
        let [_, (work, run)] = lent;
        self.report(&format!("search {name}"), answer, timed, same_memory)?;
        Ok(Found::of(table, answer, work, &run))
    }

    fn write_list(&mut self, name: &str, table: &[u8], found: &Found) -> io::Result<()> {
        let (work, rows) = (&found.work[..], found.rows);
        let mut lists = [(); 2].map(|()| vec![0; found.list.len()]);
        let [list, own_list] = &mut lists;
        let archive = &self.archive;
        let (answer, timed) = compared(
            self.repeats,
            || archive.write_list(table, work, rows, list),
            || lcs_write_list(table, work, rows, own_list),
        );
        self.report(
            &format!("write list {name}"),
            answer,
            timed,
            lists[0] == lists[1],
        )
    }

    fn judge(&mut self, name: &str, table: &[u8], list: &[u8]) -> io::Result<()> {
        let archive = &self.archive;
        let (answer, timed) = compared(
            self.repeats,
            || archive.judge(table, list),
            || lcs_judge(table, list),
        );
        self.report(&format!("judge {name}"), answer, timed, true)
    }

    fn replay(&mut self, name: &str, table: &[u8], run: &[u16]) -> io::Result<()> {
        let archive = &self.archive;
        let (answer, timed) = compared(
            self.repeats,
            || archive.replay(table, run),
            || lcs_replay(table, run),
        );
        let name = format!("replay {name}, {} words", run.len());
        self.report(&name, answer, timed, true)
    }

    /// A line of the results. A call that the archive lacks is said to be missing.
    fn report(
        &mut self,
        name: &str,
        (code, numbers): Answer,
        timed: Option<Timed>,
        same_memory: bool,
    ) -> io::Result<()> {
        let [a, b, c] = numbers;
        let answer = format!("{code}: {a} {b} {c}");
        let Some(timed) = timed else {
            return writeln!(self.out, "| {name} | {answer} | not in the archive | | | |");
        };
        if !timed.alike || !same_memory {
            self.alike = false;
            writeln!(self.out, "| {name} | {answer} | DIFFERS | | | |")?;
        }
        let [least, lower, middle, upper, most] = quarters(timed.ratios());
        let spread = format!("{lower:.2} to {upper:.2} ({least:.2} to {most:.2})");
        let [archive, second] = [timed.archive, timed.second].map(|times| quarters(times)[2]);
        writeln!(
            self.out,
            "| {name} | {answer} | {archive:.2} | {second:.2} | {middle:.2} | {spread} |"
        )
    }
}

const HEADING: &str = "\
| Call | Answer | Rattle, µs | Second program, µs | Ratio | Half of the ratios (all) |
|---|---|---|---|---|---|";

/// What the second program's search left, for the calls that go on from there.
struct Found {
    work: Vec<u16>,
    rows: u64,
    /// The rows made, as a list.
    list: Vec<u8>,
    /// The run, where there is one.
    run: Option<Vec<u16>>,
}

impl Found {
    fn of(table: &[u8], (code, numbers): Answer, work: Vec<u16>, run: &[u16]) -> Found {
        let rows = numbers[0];
        let mut list = vec![0; LIST_BYTES_MAX];
        let (_, [bytes, ..]) = lcs_write_list(table, &work, rows, &mut list);
        list.truncate(bytes as usize);
        let run = (code == 1).then(|| run[..numbers[1] as usize].to_vec());
        Found {
            work,
            rows,
            list,
            run,
        }
    }
}

/// 1,024 rows of 4 full products.
const LIST_BYTES_MAX: usize = 1024 * (4 + 2 + 4 * (1 + 2 * 24));

/// The run that was found, or where there is none a walk as long as a run may be.
fn long_walk(table: &[u8], run: Option<Vec<u16>>) -> Vec<u16> {
    run.unwrap_or_else(|| {
        let table = Table::read(table).expect("the tables that are timed are good");
        walk(&mut Random::new(1), &table, RUN_WORDS_MAX, 0)
    })
}

// ---- time

/// Microseconds to a call, a number for each repeat; and whether the answers were alike.
struct Timed {
    archive: Vec<f64>,
    second: Vec<f64>,
    alike: bool,
}

impl Timed {
    fn ratios(&self) -> Vec<f64> {
        let both = self.archive.iter().zip(&self.second);
        both.map(|(archive, second)| archive / second).collect()
    }
}

/// The calls of a repeat take about this long.
const REPEAT_MICROSECONDS: f64 = 2_000.0;

/// The second program's answer, and the times of both sides, if the archive has the function.
fn compared(
    repeats: usize,
    mut archive: impl FnMut() -> Option<Answer>,
    mut second: impl FnMut() -> Answer,
) -> (Answer, Option<Timed>) {
    let own_answer = second();
    let Some(answer) = archive() else {
        return (own_answer, None);
    };
    let mut timed = Timed {
        archive: Vec::new(),
        second: Vec::new(),
        alike: answer == own_answer,
    };
    let once = microseconds(1, &mut second).max(microseconds(1, &mut archive));
    let calls = (REPEAT_MICROSECONDS / once).clamp(1.0, 100_000.0) as usize;
    for repeat in 0..repeats {
        // Each side is first in its turn.
        if repeat % 2 == 0 {
            timed.archive.push(microseconds(calls, &mut archive));
            timed.second.push(microseconds(calls, &mut second));
        } else {
            timed.second.push(microseconds(calls, &mut second));
            timed.archive.push(microseconds(calls, &mut archive));
        }
    }
    (own_answer, Some(timed))
}

/// The processor time of a call, from so many calls.
fn microseconds<T>(calls: usize, call: &mut impl FnMut() -> T) -> f64 {
    let before = microseconds_used();
    for _ in 0..calls {
        black_box(call());
    }
    (microseconds_used() - before) / calls as f64
}

/// The least, the lower quarter, the middle, the upper quarter and the most.
pub fn quarters(mut numbers: Vec<f64>) -> [f64; 5] {
    numbers.sort_by(f64::total_cmp);
    [0, 1, 2, 3, 4].map(|quarter| numbers[(numbers.len() - 1) * quarter / 4])
}

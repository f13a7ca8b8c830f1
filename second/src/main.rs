//! The second program at the command line.

use second::bench::{self, bench};
use second::compare::{compare, Wanted};
use second::driver::Driver;
use second::fuzz::{self, fuzz};
use second::output::{check, refused_line};
use second::table::TABLE_BYTES_MAX;
use second::text::{pack, unpack};
use std::io::{self, Read, Write};
use std::process::ExitCode;
use std::time::SystemTime;

const USAGE: &str = "usage:
  second check < TABLE     search the table, with room for 256 rows, and print the verdict
  second pack FILE.text    turn a table in plain text into a table file, on standard output
  second unpack < TABLE    turn a table file into plain text
  second compare [NAME..] [--cases N] [--seed S]
                           compare the proved library with this program; called in the folder
                           of the repository, after ./archive and second/driver/build
  second fuzz [--seed N] [--cases M]
                           the same with ever new random cases, until an answer differs: the
                           smallest such call that is found is printed
  second bench --archive FILE [--repeats N]
                           time the library in the archive, which is for this machine, and this
                           program in turns, and print the ratios
";

fn main() -> ExitCode {
    let arguments: Vec<String> = std::env::args().skip(1).collect();
    let words: Vec<&str> = arguments.iter().map(String::as_str).collect();
    let done = match words[..] {
        ["check"] => run_check(),
        ["pack", file] => run_pack(file),
        ["unpack"] => run_unpack(),
        ["compare", ref rest @ ..] => run_compare(rest),
        ["fuzz", ref rest @ ..] => run_fuzz(rest),
        ["bench", ref rest @ ..] => run_bench(rest),
        _ => Ok(usage()),
    };
    done.unwrap_or_else(|error| {
        eprintln!("second: {error}");
        ExitCode::FAILURE
    })
}

fn usage() -> ExitCode {
    eprint!("{USAGE}");
    ExitCode::from(2)
}

fn run_check() -> io::Result<ExitCode> {
    // One byte more than the longest table is enough to know that it is too long.
    let mut table = Vec::new();
    let longest = TABLE_BYTES_MAX as u64;
    io::stdin().take(longest + 1).read_to_end(&mut table)?;
    io::stdout().write_all(check(&table).as_bytes())?;
    Ok(ExitCode::SUCCESS)
}

fn run_pack(file: &str) -> io::Result<ExitCode> {
    match pack(&std::fs::read(file)?) {
        Ok(table) => {
            io::stdout().write_all(&table)?;
            Ok(ExitCode::SUCCESS)
        }
        Err(error) => {
            eprintln!("{file}: {error}");
            Ok(ExitCode::FAILURE)
        }
    }
}

fn run_unpack() -> io::Result<ExitCode> {
    let mut table = Vec::new();
    io::stdin().read_to_end(&mut table)?;
    let (text, code) = match unpack(&table) {
        Ok(text) => (text, ExitCode::SUCCESS),
        Err(refusal) => (refused_line(&refusal), ExitCode::FAILURE),
    };
    io::stdout().write_all(text.as_bytes())?;
    Ok(code)
}

fn run_compare(words: &[&str]) -> io::Result<ExitCode> {
    let Some(wanted) = Wanted::from_words(words) else {
        return Ok(usage());
    };
    Ok(well_or_not(compare(&wanted, &mut io::stdout())?))
}

fn run_fuzz(words: &[&str]) -> io::Result<ExitCode> {
    let Some(wanted) = fuzz::Wanted::from_words(words) else {
        return Ok(usage());
    };
    let mut driver = Driver::start()?;
    let seed = wanted.seed.unwrap_or_else(seconds_now);
    let all_well = fuzz(&mut driver, wanted.cases, seed, &mut io::stdout())?;
    driver.end()?;
    Ok(well_or_not(all_well))
}

fn run_bench(words: &[&str]) -> io::Result<ExitCode> {
    let Some(wanted) = bench::Wanted::from_words(words) else {
        return Ok(usage());
    };
    Ok(well_or_not(bench(&wanted, &mut io::stdout())?))
}

/// Seconds since 1970: another seed each time.
fn seconds_now() -> u64 {
    let since = SystemTime::now().duration_since(SystemTime::UNIX_EPOCH);
    since.map_or(0, |since| since.as_secs())
}

fn well_or_not(all_well: bool) -> ExitCode {
    if all_well {
        ExitCode::SUCCESS
    } else {
        ExitCode::FAILURE
    }
}

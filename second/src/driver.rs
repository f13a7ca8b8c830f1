//! The proved library behind its driver: a program of its own that is spoken to over pipes, since the
//! library is for x86-64 and this machine may be another. `driver/driver.c` describes the frames.

use crate::calls::{Call, Lent, Library, Reply};
use std::io::{self, BufReader, BufWriter, Read, Write};
use std::process::{Child, ChildStdin, ChildStdout, Command, Stdio};
use std::thread;

/// What starts a program of the repository.
const RUN: &str = "./run";
/// How many bytes of a pattern stand before and behind all lent memory.
pub const GUARD_BYTES: usize = 32;
const GUARD_FIRST: u8 = 0xC0;

/// A driver that runs.
pub struct Driver {
    program: Child,
    input: BufWriter<ChildStdin>,
    output: BufReader<ChildStdout>,
}

impl Driver {
    /// Starts the driver by the script `run` of the repository, in whose folder this must be called: the
    /// script knows how programs are started on this machine.
    pub fn start() -> io::Result<Driver> {
        let mut program = Command::new(RUN)
            .arg("driver")
            .stdin(Stdio::piped())
            .stdout(Stdio::piped())
            .spawn()
            .map_err(|error| io::Error::new(error.kind(), format!("{RUN} driver: {error}")))?;
        let pipes = (program.stdin.take(), program.stdout.take());
        let (Some(input), Some(output)) = pipes else {
            return Err(io::Error::other("the driver has no pipes"));
        };
        Ok(Driver {
            program,
            input: BufWriter::new(input),
            output: BufReader::new(output),
        })
    }

    /// Ends the driver: it goes when its input ends.
    pub fn end(self) -> io::Result<()> {
        let (mut program, input) = (self.program, self.input);
        drop(input);
        let status = program.wait()?;
        if status.success() {
            return Ok(());
        }
        Err(io::Error::other(format!("the driver ended with {status}")))
    }
}

impl Library for Driver {
    /// Calls are written while replies are read, so that neither side waits for the other with its
    /// pipe full.
    fn replies(&mut self, calls: &[Call]) -> io::Result<Vec<Reply>> {
        let (input, output) = (&mut self.input, &mut self.output);
        let (written, replies) = thread::scope(|scope| {
            let writer = scope.spawn(move || {
                calls.iter().try_for_each(|call| write_call(input, call))?;
                input.flush()
            });
            let replies: io::Result<Vec<Reply>> =
                calls.iter().map(|call| read_reply(output, call)).collect();
            (writer.join().expect("writing does not panic"), replies)
        });
        match replies {
            Ok(replies) => written.map(|()| replies),
            Err(error) if error.kind() == io::ErrorKind::UnexpectedEof => {
                let status = self.program.wait()?;
                let reason = format!("the driver ended before it replied, with {status}");
                Err(io::Error::other(reason))
            }
            Err(error) => Err(error),
        }
    }
}

fn write_call(out: &mut impl Write, call: &Call) -> io::Result<()> {
    write_number(out, call.function as usize)?;
    write_number(out, call.lent.len())?;
    for lent in &call.lent {
        let bytes = bytes_of(lent);
        write_number(out, bytes.len())?;
        out.write_all(&bytes)?;
    }
    Ok(())
}

/// Functions and what is lent to them are few, and lent memory is far below 4 GB.
fn write_number(out: &mut impl Write, number: usize) -> io::Result<()> {
    out.write_all(&(number as u32).to_le_bytes())
}

/// Reads the reply to a call. What comes back is as long as what was lent.
pub fn read_reply(input: &mut impl Read, call: &Call) -> io::Result<Reply> {
    let answer = u32::from_le_bytes(read_bytes(input)?);
    let mut lent_after = Vec::new();
    let mut guards_hold = true;
    for lent in &call.lent {
        guards_hold &= is_guard(read_bytes(input)?);
        let mut bytes = bytes_of(lent);
        input.read_exact(&mut bytes)?;
        lent_after.push(from_bytes(lent, &bytes));
        guards_hold &= is_guard(read_bytes(input)?);
    }
    Ok(Reply {
        answer,
        lent: lent_after,
        wrote_outside: !guards_hold,
    })
}

fn read_bytes<const N: usize>(input: &mut impl Read) -> io::Result<[u8; N]> {
    let mut bytes = [0; N];
    input.read_exact(&mut bytes)?;
    Ok(bytes)
}

fn is_guard(bytes: [u8; GUARD_BYTES]) -> bool {
    bytes == guard()
}

/// The pattern: no two bytes alike, so that one copied from its neighbour shows.
pub fn guard() -> [u8; GUARD_BYTES] {
    std::array::from_fn(|place| GUARD_FIRST + place as u8)
}

fn bytes_of(lent: &Lent) -> Vec<u8> {
    match lent {
        Lent::Bytes(bytes) => bytes.clone(),
        Lent::Words(words) => words.iter().flat_map(|word| word.to_le_bytes()).collect(),
        Lent::Numbers(numbers) => numbers
            .iter()
            .flat_map(|number| number.to_le_bytes())
            .collect(),
    }
}

/// What the bytes are, if they are of the same kind as `lent`.
fn from_bytes(lent: &Lent, bytes: &[u8]) -> Lent {
    match lent {
        Lent::Bytes(_) => Lent::Bytes(bytes.to_vec()),
        Lent::Words(_) => Lent::Words(elements(bytes, u16::from_le_bytes)),
        Lent::Numbers(_) => Lent::Numbers(elements(bytes, u64::from_le_bytes)),
    }
}

fn elements<const N: usize, T>(bytes: &[u8], from_le_bytes: fn([u8; N]) -> T) -> Vec<T> {
    let element = |part: &[u8]| from_le_bytes(part.try_into().expect("a whole element"));
    bytes.chunks_exact(N).map(element).collect()
}

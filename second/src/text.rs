//! Tables as plain text, for people.
//!
//! ```text
//! states   fresh visited closed      # a name for each, or a count: states 3
//! channels phone
//! messages report done
//! start    fresh
//! fresh -> visited   send phone done   label 3
//! visited -> closed  receive phone done
//! visited -> fresh   quiet
//! bad      closed
//! ```
//!
//! The lines stand in this order. Whatever the table rules would refuse, the text reader refuses
//! with a line number and a reason, so a packed table is always a good table.

use crate::refusal::Refusal;
use crate::table::{
    Operation, Table, Transition, CHANNELS_MAX, MESSAGES_MAX, STATES_MAX, TRANSITIONS_MAX,
};
use std::collections::HashMap;
use std::fmt;

/// Why a text is no table.
#[derive(Clone, Debug, PartialEq, Eq)]
pub struct TextError {
    /// Counted from 1; the last line where the text ends too early.
    pub line: usize,
    pub reason: String,
}

impl fmt::Display for TextError {
    fn fmt(&self, out: &mut fmt::Formatter) -> fmt::Result {
        write!(out, "line {}: {}", self.line, self.reason)
    }
}

const KEYWORDS: [&str; 9] = [
    "states", "channels", "messages", "start", "send", "receive", "quiet", "label", "bad",
];

/// The table file for a text.
pub fn pack(text: &[u8]) -> Result<Vec<u8>, TextError> {
    read_text(text).map(|table| table.to_bytes())
}

/// A text with numbers for a table file.
pub fn unpack(table: &[u8]) -> Result<String, Refusal> {
    let table = Table::read(table)?;
    let mut text = format!(
        "states {}\nchannels {}\nmessages {}\nstart {}\n",
        table.states, table.channels, table.messages, table.start
    );
    for transition in &table.transitions {
        text += &transition_line(transition);
    }
    for state in table.bad_states() {
        text += &format!("bad {state}\n");
    }
    Ok(text)
}

fn transition_line(transition: &Transition) -> String {
    let operation = match transition.operation {
        Operation::Quiet => "quiet".to_string(),
        Operation::Send { channel, message } => format!("send {channel} {message}"),
        Operation::Receive { channel, message } => format!("receive {channel} {message}"),
    };
    let label = match transition.label {
        0 => String::new(),
        label => format!(" label {label}"),
    };
    let Transition { source, target, .. } = transition;
    format!("{source} -> {target} {operation}{label}\n")
}

/// Reads a text. Bytes that are no UTF-8 do no harm in comments and are no names elsewhere.
pub fn read_text(text: &[u8]) -> Result<Table, TextError> {
    let text = String::from_utf8_lossy(text);
    let mut lines = Lines::of(&text);
    let states = lines.header("states", |words| {
        Names::declared("state", STATES_MAX, words)
    })?;
    let channels = lines.header("channels", |words| {
        Names::declared("channel", CHANNELS_MAX.into(), words)
    })?;
    let messages = lines.header("messages", |words| {
        Names::declared("message", MESSAGES_MAX.into(), words)
    })?;
    let start = lines.header("start", |words| match words {
        [state] => states.number(state),
        _ => Err("\"start\" needs one state".to_string()),
    })?;
    // Counts of channels and messages are at most 4 and 15.
    let table = Table::new(
        states.count,
        channels.count as u8,
        messages.count as u8,
        start,
    );
    let mut body = Body {
        states,
        channels,
        messages,
        table,
        last_bad: None,
    };
    for (line, words) in lines.rest() {
        body.line(&words)
            .map_err(|reason| TextError { line, reason })?;
    }
    Ok(body.table)
}

/// The words of one line and the line's number.
type Line<'a> = (usize, Vec<&'a str>);

/// The lines that have words.
struct Lines<'a> {
    lines: std::vec::IntoIter<Line<'a>>,
    last: usize,
}

impl<'a> Lines<'a> {
    fn of(text: &'a str) -> Lines<'a> {
        let words = |line: &'a str| {
            let (before_comment, _) = line.split_once('#').unwrap_or((line, ""));
            before_comment.split_whitespace().collect::<Vec<_>>()
        };
        let lines: Vec<Line> = (1..).zip(text.lines().map(words)).collect();
        let last = lines.len().max(1);
        let full: Vec<Line> = lines
            .into_iter()
            .filter(|(_, words)| !words.is_empty())
            .collect();
        Lines {
            lines: full.into_iter(),
            last,
        }
    }

    /// Reads the next line, which must begin with `keyword`.
    fn header<T>(
        &mut self,
        keyword: &str,
        read: impl Fn(&[&str]) -> Result<T, String>,
    ) -> Result<T, TextError> {
        let Some((line, words)) = self.lines.next() else {
            return Err(TextError {
                line: self.last,
                reason: format!("the text ends before its line \"{keyword}\""),
            });
        };
        let value = if words[0] == keyword {
            read(&words[1..])
        } else {
            Err(format!(
                "the line \"{keyword}\" must stand here, not \"{}\"",
                words[0]
            ))
        };
        value.map_err(|reason| TextError { line, reason })
    }

    fn rest(self) -> impl Iterator<Item = Line<'a>> {
        self.lines
    }
}

/// The states, channels or messages of a text: a count, and names if it gives any.
struct Names {
    what: &'static str,
    count: u16,
    numbers: HashMap<String, u16>,
}

impl Names {
    fn declared(what: &'static str, most: u16, words: &[&str]) -> Result<Names, String> {
        let (count, names) = match words {
            [] => return Err(format!("\"{what}s\" needs a count or names")),
            [count] if is_number(count) => (count.parse().unwrap_or(usize::MAX), &[][..]),
            [count, ..] if is_number(count) => {
                return Err(format!("nothing may follow the count of {what}s"));
            }
            names => (names.len(), names),
        };
        if count < 1 || count > usize::from(most) {
            return Err(format!("there must be 1 to {most} {what}s"));
        }
        let mut numbers = HashMap::new();
        for (name, number) in names.iter().zip(0..) {
            good_name(name)?;
            if numbers.insert(name.to_string(), number).is_some() {
                return Err(format!("the {what} \"{name}\" stands twice"));
            }
        }
        Ok(Names {
            what,
            // At most 4,096.
            count: count as u16,
            numbers,
        })
    }

    /// The number of a declared name, or a number in range.
    fn number(&self, word: &str) -> Result<u16, String> {
        let number = if is_number(word) {
            word.parse().ok().filter(|&number| number < self.count)
        } else {
            self.numbers.get(word).copied()
        };
        number.ok_or(format!("there is no {} \"{word}\"", self.what))
    }

    /// As `number`, for channels and messages, whose numbers fit in a byte.
    fn small_number(&self, word: &str) -> Result<u8, String> {
        self.number(word).map(|number| number as u8)
    }
}

fn is_number(word: &str) -> bool {
    word.bytes().all(|byte| byte.is_ascii_digit())
}

fn good_name(name: &str) -> Result<(), String> {
    if KEYWORDS.contains(&name) {
        return Err(format!("\"{name}\" is a keyword and no name"));
    }
    let good = |c: char| c.is_ascii_alphanumeric() || matches!(c, '_' | '-' | '.');
    if name.starts_with(|c: char| c.is_ascii_alphabetic()) && name.chars().all(good) {
        return Ok(());
    }
    Err(format!(
        "\"{name}\" is no name: a letter, then letters, digits, \"_\", \"-\" or \".\""
    ))
}

/// Transitions and bad states, as they are read.
struct Body {
    states: Names,
    channels: Names,
    messages: Names,
    table: Table,
    last_bad: Option<u16>,
}

impl Body {
    fn line(&mut self, words: &[&str]) -> Result<(), String> {
        match words {
            ["bad", state] => self.bad_line(state),
            ["bad", ..] => Err("\"bad\" needs one state".to_string()),
            [source, "->", target, rest @ ..] => self.transition_line(source, target, rest),
            [first, ..] if KEYWORDS.contains(first) => {
                Err(format!("a line \"{first}\" may not stand here"))
            }
            _ => Err("this is neither a transition nor a bad state".to_string()),
        }
    }

    fn bad_line(&mut self, state: &str) -> Result<(), String> {
        let state = self.states.number(state)?;
        if self.last_bad.is_some_and(|last| state <= last) {
            return Err("bad states must rise".to_string());
        }
        self.last_bad = Some(state);
        self.table.set_bad(state);
        Ok(())
    }

    fn transition_line(&mut self, source: &str, target: &str, rest: &[&str]) -> Result<(), String> {
        if self.last_bad.is_some() {
            return Err("a transition may not follow a bad state".to_string());
        }
        if self.table.transitions.len() >= TRANSITIONS_MAX {
            return Err(format!(
                "there may be at most {TRANSITIONS_MAX} transitions"
            ));
        }
        let (source, target) = (self.states.number(source)?, self.states.number(target)?);
        let (operation, rest) = self.operation(rest)?;
        let label = match rest {
            [] => 0,
            ["label", label] => label_number(label)?,
            ["label", ..] => {
                return Err("\"label\" needs one number, and nothing after".to_string())
            }
            [word, ..] => return Err(format!("\"{word}\" may not follow the operation")),
        };
        self.table.transitions.push(Transition {
            source,
            target,
            operation,
            label,
        });
        Ok(())
    }

    /// The operation, and the words after it.
    fn operation<'a, 'b>(
        &self,
        words: &'b [&'a str],
    ) -> Result<(Operation, &'b [&'a str]), String> {
        match words {
            ["quiet", rest @ ..] => Ok((Operation::Quiet, rest)),
            [word @ ("send" | "receive"), channel, message, rest @ ..] => {
                let channel = self.channels.small_number(channel)?;
                let message = self.messages.small_number(message)?;
                let operation = match *word {
                    "send" => Operation::Send { channel, message },
                    _ => Operation::Receive { channel, message },
                };
                Ok((operation, rest))
            }
            [word @ ("send" | "receive"), ..] => {
                Err(format!("\"{word}\" needs a channel and a message"))
            }
            [word, ..] => Err(format!(
                "\"{word}\" is no operation: send, receive or quiet"
            )),
            [] => Err("a transition needs an operation: send, receive or quiet".to_string()),
        }
    }
}

fn label_number(word: &str) -> Result<u8, String> {
    let number = Some(word).filter(|word| is_number(word));
    number
        .and_then(|word| word.parse().ok())
        .ok_or("a label is a number from 0 to 255".to_string())
}

//! Helpers for the tests. What stands here to be compared with is written from the definitions, and
//! differently from the library's algorithms.
#![allow(dead_code)] // each test file uses its part

use second::calls::{Call, Lent, Library, Reply};
use second::product::{is_star, messages_of};
use second::search::{search, Verdict};
use second::text::pack;
use second::work::{self, ROW_WORDS};
use std::io;

/// A value that lent buffers are filled with, to see what is written.
pub const UNTOUCHED: u16 = 0xABCD;

// ---- tables, lists and products written down shortly ----

/// A table: the four header numbers (states, channels, messages, start), then lines of table text.
pub fn table(header: [usize; 4], lines: &[&str]) -> Vec<u8> {
    let [states, channels, messages, start] = header;
    let mut text =
        format!("states {states}\nchannels {channels}\nmessages {messages}\nstart {start}\n");
    for line in lines {
        text += line;
        text += "\n";
    }
    pack(text.as_bytes()).expect("a test's table")
}

pub fn example_a() -> Vec<u8> {
    let lines = [
        "0 -> 0 send 0 0",
        "0 -> 1 send 0 1",
        "1 -> 2 receive 0 0",
        "bad 2",
    ];
    table([3, 1, 2, 0], &lines)
}

pub fn example_b() -> Vec<u8> {
    let lines = [
        "0 -> 0 send 0 0",
        "0 -> 1 receive 0 0",
        "1 -> 2 receive 0 1",
        "bad 2",
    ];
    table([3, 1, 2, 0], &lines)
}

pub fn example_c() -> Vec<u8> {
    table([2, 1, 2, 0], &["0 -> 1 send 0 0", "1 -> 0 send 0 1"])
}

/// Bytes from hex; blanks and commas are free.
pub fn hex(text: &str) -> Vec<u8> {
    let digits: Vec<u8> = text
        .chars()
        .filter_map(|c| c.to_digit(16))
        .map(|d| d as u8)
        .collect();
    digits
        .chunks(2)
        .map(|pair| pair[0] * 16 + pair[1])
        .collect()
}

/// A record with the payload's own length.
pub fn record(kind: u16, payload: &[u8]) -> Vec<u8> {
    let mut bytes = (payload.len() as u16).to_le_bytes().to_vec();
    bytes.extend(kind.to_le_bytes());
    bytes.extend(payload);
    bytes
}

/// A product in the rules' notation, such as `0?{1,2}*0?`.
pub fn product(notation: &str) -> Vec<u16> {
    let mut atoms = Vec::new();
    let mut set = 0u16;
    for part in notation.split_inclusive(['?', '*']) {
        let numbers = part.trim_matches(|c: char| !c.is_ascii_digit());
        for number in numbers.split(',') {
            set |= 1 << number.parse::<u16>().expect("a message");
        }
        atoms.push(if part.ends_with('*') {
            set | 0x8000
        } else {
            set
        });
        set = 0;
    }
    atoms
}

/// A list record: a state, and a product in the rules' notation for each channel of the table.
pub fn list_row(state: u16, products: &[&str]) -> Vec<u8> {
    let mut payload = state.to_le_bytes().to_vec();
    for notation in products {
        let atoms = product(notation);
        payload.push(atoms.len() as u8);
        payload.extend(atoms.iter().flat_map(|atom| atom.to_le_bytes()));
    }
    record(16, &payload)
}

// ---- searches with prefilled buffers ----

/// A search's verdict and what its buffers hold after it.
pub struct Searched {
    pub verdict: Verdict,
    pub work: Vec<u16>,
    pub run: Vec<u16>,
}

/// A row by its parts, owned.
pub type PlainRow = (u16, Vec<Vec<u16>>);

impl Searched {
    pub fn row_count(&self) -> usize {
        self.verdict.rows()
    }

    /// The rows made, read from the words as the rules lay them out.
    pub fn rows(&self) -> Vec<PlainRow> {
        let words = &self.work[..self.row_count() * 103];
        words.chunks(103).map(plain_row).collect()
    }

    /// The run of an unsafe verdict.
    pub fn steps(&self) -> &[u16] {
        match self.verdict {
            Verdict::Unsafe { steps, .. } => &self.run[..steps],
            _ => &[],
        }
    }
}

fn plain_row(words: &[u16]) -> PlainRow {
    let product = |channel: usize| {
        let place = 3 + 25 * channel;
        let count = usize::from(words[place]);
        words[place + 1..place + 1 + count].to_vec()
    };
    (words[0], (0..4).map(product).collect())
}

/// Searches with room for so many rows, in buffers filled with [`UNTOUCHED`].
pub fn searched(table: &[u8], room: usize) -> Searched {
    let mut work = vec![UNTOUCHED; room * ROW_WORDS];
    let mut run = vec![UNTOUCHED; 2 * work::room(work.len())];
    let verdict = search(table, &mut work, &mut run).expect("a good table");
    Searched { verdict, work, run }
}

/// The list of a search's rows.
pub fn written(table: &[u8], searched: &Searched) -> Vec<u8> {
    let mut list = vec![0; 300_000];
    let rows = searched.row_count() as u64;
    let bytes = second::list::write_list(table, &searched.work, rows, &mut list);
    list.truncate(bytes.expect("rows of a search"));
    list
}

// ---- the meaning of atoms and products, by their definition ----

/// Whether a word is one of an atom's: a single means its message or nothing, a star any word over
/// its messages.
pub fn is_word_of_atom(atom: u16, word: &[u8]) -> bool {
    let has = |message: &u8| messages_of(atom) & (1 << message) != 0;
    word.iter().all(has) && (is_star(atom) || word.len() <= 1)
}

/// Whether a word is one of a product's: it splits into a word of the head and a word of the rest.
pub fn is_word(product: &[u16], word: &[u8]) -> bool {
    match product {
        [] => word.is_empty(),
        [head, rest @ ..] => (0..=word.len())
            .any(|cut| is_word_of_atom(*head, &word[..cut]) && is_word(rest, &word[cut..])),
    }
}

/// The same for long words: the lengths of the beginnings that the first atoms can be, atom by atom.
pub fn is_long_word(product: &[u16], word: &[u8]) -> bool {
    let mut ends = vec![false; word.len() + 1];
    ends[0] = true;
    for &atom in product {
        let before = ends.clone();
        for (place, message) in word.iter().enumerate() {
            let from = if is_star(atom) {
                ends[place]
            } else {
                before[place]
            };
            if from && is_word_of_atom(atom, &[*message]) {
                ends[place + 1] = true;
            }
        }
    }
    ends[word.len()]
}

/// Every word over messages 0 to `messages - 1` of at most this length.
pub fn words_up_to(messages: u8, length: usize) -> Vec<Vec<u8>> {
    let mut words = vec![Vec::new()];
    let mut first_of_last_length = 0;
    for _ in 0..length {
        let last: Vec<Vec<u8>> = words[first_of_last_length..].to_vec();
        first_of_last_length = words.len();
        for word in last {
            for message in 0..messages {
                words.push([&word[..], &[message]].concat());
            }
        }
    }
    words
}

// ---- systems as plain steps ----

/// A move: source, target, operation (0 quiet, 1 send, 2 receive), channel, message.
pub type Move = (u16, u16, u8, usize, u8);

/// A good table taken apart by its fixed record sizes, without the library's reader.
pub struct System {
    pub states: u16,
    pub channels: usize,
    pub messages: u8,
    pub start: u16,
    pub moves: Vec<Move>,
    pub bad: Vec<u16>,
}

/// A control state and what waits in each channel.
#[derive(Clone, Debug, PartialEq, Eq, Hash)]
pub struct Configuration {
    pub state: u16,
    pub contents: Vec<Vec<u8>>,
}

impl System {
    pub fn of(table: &[u8]) -> System {
        let number = |place: usize| u16::from(table[place]) + 256 * u16::from(table[place + 1]);
        let mut system = System {
            states: number(4),
            channels: table[6].into(),
            messages: table[7],
            start: number(8),
            moves: Vec::new(),
            bad: Vec::new(),
        };
        let mut place = 10;
        while place < table.len() {
            if table[place + 2] == 2 {
                let channel = table[place + 9].into();
                let (source, target) = (number(place + 4), number(place + 6));
                let message = table[place + 10];
                system
                    .moves
                    .push((source, target, table[place + 8], channel, message));
                place += 12;
            } else {
                system.bad.push(number(place + 4));
                place += 6;
            }
        }
        system
    }

    pub fn start(&self) -> Configuration {
        Configuration {
            state: self.start,
            contents: vec![Vec::new(); self.channels],
        }
    }

    /// What one move makes of a configuration, if it can be made; nothing is lost here.
    pub fn moved(&self, from: &Configuration, number: usize) -> Option<Configuration> {
        let (source, target, operation, channel, message) = *self.moves.get(number)?;
        if source != from.state {
            return None;
        }
        let mut to = from.clone();
        to.state = target;
        match operation {
            1 => to.contents[channel].push(message),
            2 if to.contents[channel].first() == Some(&message) => {
                to.contents[channel].remove(0);
            }
            2 => return None,
            _ => {}
        }
        Some(to)
    }

    /// Every plain step: a move, or the loss of one message.
    pub fn steps(&self, from: &Configuration) -> Vec<Configuration> {
        let mut to: Vec<Configuration> = (0..self.moves.len())
            .filter_map(|number| self.moved(from, number))
            .collect();
        for channel in 0..self.channels {
            for place in 0..from.contents[channel].len() {
                let mut less = from.clone();
                less.contents[channel].remove(place);
                to.push(less);
            }
        }
        to
    }

    /// Plays a run: words are move numbers, 32,768 more where the message is lost. Gives the last
    /// configuration, or the first step that cannot be made.
    pub fn played(&self, run: &[u16]) -> Result<Configuration, usize> {
        let mut now = self.start();
        for (step, &word) in run.iter().enumerate() {
            let (number, lost) = (usize::from(word % 32_768), word >= 32_768);
            now = self.moved(&now, number).ok_or(step)?;
            if lost {
                let (_, _, operation, channel, _) = self.moves[number];
                if operation != 1 {
                    return Err(step);
                }
                now.contents[channel].pop();
            }
        }
        Ok(now)
    }

    /// Whether a configuration lies in a row.
    pub fn is_in_row(&self, configuration: &Configuration, row: &PlainRow) -> bool {
        let (state, products) = row;
        *state == configuration.state
            && configuration
                .contents
                .iter()
                .zip(products)
                .all(|(word, product)| is_word(product, word))
    }

    pub fn is_in_some_row(&self, configuration: &Configuration, rows: &[PlainRow]) -> bool {
        rows.iter().any(|row| self.is_in_row(configuration, row))
    }
}

// ---- a library to compare with ----

/// A library made of the second program's replies, each changed a little.
pub struct Changed(pub fn(&Call, &mut Reply));

impl Library for Changed {
    fn replies(&mut self, calls: &[Call]) -> io::Result<Vec<Reply>> {
        let changed = |call: &Call| {
            let mut reply = call.reply();
            (self.0)(call, &mut reply);
            reply
        };
        Ok(calls.iter().map(changed).collect())
    }
}

pub fn words(lent: &Lent) -> &[u16] {
    match lent {
        Lent::Words(words) => words,
        _ => panic!("{lent:?} are no words"),
    }
}

/// The three numbers of an answer are lent last.
pub fn numbers(reply: &mut Reply) -> &mut Vec<u64> {
    match reply.lent.last_mut() {
        Some(Lent::Numbers(numbers)) => numbers,
        _ => panic!("no numbers"),
    }
}

//! Refusals: each has a number, the input it is about, and a place in that input.

/// What a refusal is about.
#[derive(Clone, Copy, Debug, PartialEq, Eq)]
pub enum Input {
    Table,
    List,
    Run,
    /// A lent buffer or a row of the work table.
    Lent,
}

impl Input {
    /// The rules' number of this input.
    pub fn number(self) -> u8 {
        match self {
            Input::Table => 0,
            Input::List => 1,
            Input::Run => 2,
            Input::Lent => 3,
        }
    }
}

/// A refusal. Whoever gets one can rely on nothing having been written.
#[derive(Clone, Copy, Debug, PartialEq, Eq)]
pub struct Refusal {
    pub number: u8,
    pub input: Input,
    /// An offset in bytes, a length in words, a row number or a number of bytes needed; the rules
    /// say which for each number.
    pub place: usize,
}

impl Refusal {
    fn new(number: u8, input: Input, place: usize) -> Refusal {
        Refusal {
            number,
            input,
            place,
        }
    }

    /// 1: the bytes end inside the record, or the table is empty.
    pub fn cut_short(input: Input, record_start: usize) -> Refusal {
        Refusal::new(1, input, record_start)
    }

    /// 2: a kind that is unknown here or out of turn.
    pub fn wrong_kind(input: Input, record_start: usize) -> Refusal {
        Refusal::new(2, input, record_start)
    }

    /// 3: a payload that is not as long as it must be.
    pub fn wrong_length(input: Input, record_start: usize) -> Refusal {
        Refusal::new(3, input, record_start)
    }

    /// 4: a number out of range, or a word that is no atom. The field is given by its offset from
    /// the record's start.
    pub fn wrong_field(input: Input, record_start: usize, field_offset: usize) -> Refusal {
        Refusal::new(4, input, place_of_wrong_field(record_start, field_offset))
    }

    /// 5: bad states that do not rise.
    pub fn not_rising(input: Input, record_start: usize) -> Refusal {
        Refusal::new(5, input, record_start)
    }

    /// 6: one transition, list row or run word more than there may be.
    pub fn too_many(input: Input, place: usize) -> Refusal {
        Refusal::new(6, input, place)
    }

    /// 7: a work table without room for one row.
    pub fn work_too_short(words: usize) -> Refusal {
        Refusal::new(7, Input::Lent, words)
    }

    /// 8: a run buffer shorter than twice the room.
    pub fn run_too_short(words: usize) -> Refusal {
        Refusal::new(8, Input::Lent, words)
    }

    /// 9: the writer was given a row that is none, or more rows than there is room for.
    pub fn wrong_row(row: usize) -> Refusal {
        Refusal::new(9, Input::Lent, row)
    }

    /// 10: the list does not fit.
    pub fn list_too_long(bytes_needed: usize) -> Refusal {
        Refusal::new(10, Input::Lent, bytes_needed)
    }
}

/// The place a refusal 4 names. This is the only spot that decides it: today the rules want the
/// record's start, whichever field is wrong.
fn place_of_wrong_field(record_start: usize, _field_offset: usize) -> usize {
    record_start
}

//! One call and all that it is handed: what every side is run on. It can be written as a line of a list
//! (LISTS.md).

use crate::calls::{
    Call, Family, Numbers, Slices, OUTGOING, PENDING, RING, ROWS, RUN, SETTLED, STATE, VOTERS,
};
use std::fmt::{self, Write};

#[derive(Clone, Debug, PartialEq, Eq)]
pub struct Input {
    pub call: Call,
    pub slices: Slices,
    pub numbers: Numbers,
    /// The words lent for the answer: more than needed, so that a stray write shows; fewer to see refusal 1.
    pub answer: Vec<u64>,
}

/// Words that are lent beyond those of a state or an answer.
pub const SPARE: usize = 1;

/// What stands in words that no call may touch.
pub const UNTOUCHED: u64 = 990_099;

/// What stands in a line, behind the call's number and before the words lent for the answer.
#[derive(Clone, Copy)]
enum Token {
    Slice(usize),
    Number(usize),
}

use Token::{Number, Slice};

/// The form of a line: one for all calls of a kind. A call's unused numbers are 0, its unused slices empty.
fn tokens(call: Call) -> &'static [Token] {
    match call.family() {
        _ if call == Call::LeaderMaybeCommit => &[
            Slice(STATE),
            Slice(SETTLED),
            Slice(PENDING),
            Number(0),
            Slice(VOTERS),
            Slice(OUTGOING),
            Slice(ROWS),
        ],
        Family::Log => {
            &[Slice(STATE), Slice(SETTLED), Slice(PENDING), Number(0), Number(1), Number(2), Slice(RUN)]
        }
        Family::Quorum => &[Slice(VOTERS), Slice(OUTGOING), Slice(ROWS), Number(0)],
        Family::Inflights => &[Slice(STATE), Slice(RING), Number(0)],
    }
}

/// The slices that an answer's line shows, behind the result and before the answer.
pub fn shown(call: Call) -> &'static [usize] {
    match call.family() {
        _ if call == Call::LeaderMaybeCommit => &[STATE],
        Family::Log => &[STATE, SETTLED, PENDING],
        Family::Quorum => &[],
        Family::Inflights => &[STATE, RING],
    }
}

impl Input {
    pub fn new(call: Call) -> Input {
        let mut input = Input { call, slices: Slices::default(), numbers: [0; 3], answer: Vec::new() };
        input.set(call, [0; 3]);
        input
    }

    /// The same slices for another call.
    pub fn set(&mut self, call: Call, numbers: Numbers) {
        self.call = call;
        self.numbers = numbers;
        self.set_room(call.form().answer + SPARE);
    }

    /// Lends so many words for the answer.
    pub fn set_room(&mut self, words: usize) {
        self.answer.clear();
        self.answer.resize(words, UNTOUCHED);
    }

    /// Lends a state with spare words behind it.
    pub fn set_state(&mut self, words: &[u64]) {
        self.set_slice(STATE, words);
        self.slices[STATE].extend([UNTOUCHED; SPARE]);
    }

    pub fn set_slice(&mut self, place: usize, words: &[u64]) {
        self.slices[place].clear();
        self.slices[place].extend_from_slice(words);
    }

    /// Whether the call has a slice at that place.
    fn uses(&self, place: usize) -> bool {
        let form = self.call.form();
        form.lent.contains(&place) || form.written.contains(&place)
    }

    /// The call as a line of a list.
    pub fn line(&self) -> String {
        let mut line = self.call.form().number.to_string();
        for token in tokens(self.call) {
            match *token {
                Slice(place) if self.uses(place) => push_slice(&mut line, &self.slices[place]),
                Slice(_) => push_slice(&mut line, &[]),
                Number(k) if k < self.call.form().numbers.len() => push_words(&mut line, &[self.numbers[k]]),
                Number(_) => push_words(&mut line, &[0]),
            }
        }
        push_slice(&mut line, &self.answer);
        line
    }

    /// A line of a list, read back.
    pub fn parse(line: &str) -> Option<Input> {
        let mut words = line.split(' ').map(|word| word.parse::<u64>().ok());
        let mut next = || words.next().flatten();
        let mut input = Input::new(Call::by_number(next()?)?);
        for token in tokens(input.call) {
            match *token {
                Number(k) => input.numbers[k] = next()?,
                Slice(place) => {
                    input.slices[place] = (0..next()?).map(|_| next()).collect::<Option<Vec<u64>>>()?
                }
            }
        }
        input.answer = (0..next()?).map(|_| next()).collect::<Option<Vec<u64>>>()?;
        next().is_none().then_some(input)
    }
}

/// Words behind a line.
pub fn push_words(line: &mut String, words: &[u64]) {
    for word in words {
        write!(line, " {word}").expect("a string takes all");
    }
}

/// A slice as a list has it: its length, then its words.
fn push_slice(line: &mut String, slice: &[u64]) {
    push_words(line, &[slice.len() as u64]);
    push_words(line, slice);
}

fn slice_name(call: Call, place: usize) -> &'static str {
    match (call.family(), place) {
        (Family::Inflights, STATE) => "window (start count cap is_deferred deferred)",
        (_, STATE) => "log (start start_term offset count committed persisted applied)",
        (Family::Inflights, RING) => "ring",
        (_, SETTLED) => "settled",
        (_, PENDING) => "pending",
        _ if matches!(call, Call::LogMaybeAppend | Call::LogAppend) => "run",
        (_, VOTERS) => "voters, or incoming",
        (_, OUTGOING) => "outgoing",
        _ => "rows (id has_ack ack vote)",
    }
}

impl fmt::Display for Input {
    fn fmt(&self, f: &mut fmt::Formatter<'_>) -> fmt::Result {
        let form = self.call.form();
        let numbers =
            form.numbers.iter().zip(&self.numbers).map(|(name, number)| format!("{name} = {number}"));
        writeln!(f, "{}({})", form.name, numbers.collect::<Vec<_>>().join(", "))?;
        for place in form.lent {
            writeln!(f, "    {}: {}", slice_name(self.call, *place), words(&self.slices[*place]))?;
        }
        writeln!(f, "    words lent for the answer: {}", self.answer.len())?;
        write!(f, "    as a line: {}", self.line())
    }
}

/// Words for a reader: those that must stay untouched as dots, large ones by their distance from the largest.
pub fn words(slice: &[u64]) -> String {
    let shown = slice.iter().map(|word| match *word {
        UNTOUCHED => "..".to_string(),
        u64::MAX => "MAX".to_string(),
        word if word > u64::MAX - 100 => format!("MAX-{}", u64::MAX - word),
        word => word.to_string(),
    });
    format!("[{}]", shown.collect::<Vec<_>>().join(" "))
}

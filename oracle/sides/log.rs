//! What the plain and the tuned side share: the state in seven words, its rules, and the refusals of document 01.
//! Each side compiles a copy of its own, so that the optimiser treats it as if it stood there alone.

pub const BROKEN_STATE: u64 = 1;
pub const MISNUMBERED_RUN: u64 = 2;
pub const ZERO_TERM: u64 = 3;
pub const OUTSIDE_LOG: u64 = 4;
pub const MISMATCH: u64 = 5;
pub const CUTS_COMMITTED: u64 = 6;
pub const NO_ROOM: u64 = 7;

/// Words of a record in a store (term, body) and in a run (index, term, body).
pub const STORE: usize = 2;
pub const RUN: usize = 3;

/// Words of a state and of an answer.
const STATE: usize = 7;
const ANSWER: usize = 2;

/// The value, or the refusal's number.
pub type Answer<T> = Result<T, u64>;

pub struct Log {
    pub start: u64,
    pub start_term: u64,
    pub offset: u64,
    pub count: u64,
    pub committed: u64,
    pub persisted: u64,
    pub applied: u64,
}

pub struct Appended {
    pub conflict: u64,
    pub last: u64,
}

impl Log {
    fn load(words: &[u64]) -> Log {
        Log {
            start: words[0],
            start_term: words[1],
            offset: words[2],
            count: words[3],
            committed: words[4],
            persisted: words[5],
            applied: words[6],
        }
    }

    fn store(&self, words: &mut [u64]) {
        words[..STATE].copy_from_slice(&[
            self.start,
            self.start_term,
            self.offset,
            self.count,
            self.committed,
            self.persisted,
            self.applied,
        ]);
    }

    pub fn last(&self) -> u64 {
        self.offset + self.count - 1
    }

    /// "State rules, checked at each call".
    pub fn check(&self, settled: &[u64], pending: &[u64]) -> Answer<()> {
        // offset is at least 1 here, so a sum that fits is a last index within the limit
        let fits = self.start < self.offset && self.offset.checked_add(self.count).is_some();
        let holds = fits
            && (self.start == 0) == (self.start_term == 0)
            && self.start <= self.applied
            && self.applied <= self.committed
            && self.committed <= self.last()
            && self.applied <= self.persisted
            && self.persisted < self.offset
            && self.offset - 1 - self.start <= (settled.len() / STORE) as u64
            && self.count <= (pending.len() / STORE) as u64;
        if holds {
            Ok(())
        } else {
            Err(BROKEN_STATE)
        }
    }

    /// `term(i)`: "the record's term; the start's term at start; 0 outside [start, last]."
    pub fn term(&self, settled: &[u64], pending: &[u64], i: u64) -> u64 {
        if i < self.start || i > self.last() {
            0
        } else if i == self.start {
            self.start_term
        } else if i < self.offset {
            settled[(i - self.start - 1) as usize * STORE]
        } else {
            pending[(i - self.offset) as usize * STORE]
        }
    }

    /// Refusals 4 and 5.
    pub fn check_previous(&self, settled: &[u64], pending: &[u64], idx: u64, term: u64) -> Answer<()> {
        if term == 0 && (idx < self.start || idx > self.last()) {
            return Err(OUTSIDE_LOG);
        }
        if self.term(settled, pending, idx) != term {
            return Err(MISMATCH);
        }
        Ok(())
    }

    /// Refusals 6 and 7; else the records from the conflict on are cut, and those up to `last` are to be pending.
    pub fn cut(&mut self, pending: &[u64], conflict: u64, last: u64) -> Answer<()> {
        if conflict <= self.committed {
            return Err(CUTS_COMMITTED);
        }
        self.offset = self.offset.min(conflict);
        self.count = last + 1 - self.offset;
        if self.count > (pending.len() / STORE) as u64 {
            return Err(NO_ROOM);
        }
        self.persisted = self.persisted.min(conflict - 1);
        Ok(())
    }
}

/// A call over words: the state and the values are written back where the call does not refuse.
#[inline(always)]
pub fn over_words(
    words: &mut [u64],
    answer: &mut [u64],
    call: impl FnOnce(&mut Log) -> Answer<Appended>,
) -> u64 {
    if words.len() < STATE || answer.len() < ANSWER {
        return BROKEN_STATE;
    }
    let mut log = Log::load(words);
    match call(&mut log) {
        Ok(said) => {
            log.store(words);
            answer[..ANSWER].copy_from_slice(&[said.conflict, said.last]);
            0
        }
        Err(number) => number,
    }
}

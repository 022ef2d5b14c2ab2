//! The two work loads: messages of eight records, each sent twice, so that half of them are repeats.

use crate::MaybeAppend;

const RECORDS: u64 = 8;
const RUN_WORDS: usize = RECORDS as usize * 3;

/// Messages of one batch: a message and its repeat, this many times.
const PAIRS: u64 = 5000;

/// start, start term, offset, count, committed, persisted, applied
const EMPTY_LOG: [u64; 7] = [0, 0, 1, 0, 0, 0, 0];

pub struct Message {
    idx: u64,
    term: u64,
    /// Where its run begins among the words of all runs.
    run: usize,
}

pub struct Load {
    pub name: &'static str,
    pub messages: Vec<Message>,
    runs: Vec<u64>,
    /// Room of the pending store, in records.
    room: u64,
}

pub fn all() -> Vec<Load> {
    vec![replace(), grow()]
}

/// A log of eight records, replaced again and again by another term's.
fn replace() -> Load {
    let runs = [run(1, 1), run(1, 2)].concat();
    let messages = twice(|pair| Message { idx: 0, term: 0, run: (pair % 2) as usize * RUN_WORDS });
    Load { name: "replace", messages, runs, room: 32 }
}

/// A log that grows by eight records at its end.
fn grow() -> Load {
    let runs = (0..PAIRS).flat_map(|pair| run(pair * RECORDS + 1, 1)).collect();
    let messages = twice(|pair| Message {
        idx: pair * RECORDS,
        term: u64::from(pair != 0),
        run: pair as usize * RUN_WORDS,
    });
    Load { name: "grow", messages, runs, room: PAIRS * RECORDS }
}

fn run(first: u64, term: u64) -> Vec<u64> {
    (first..first + RECORDS).flat_map(|index| [index, term, index * 10 + term]).collect()
}

fn twice(message: impl Fn(u64) -> Message) -> Vec<Message> {
    (0..PAIRS).flat_map(|pair| [message(pair), message(pair)]).collect()
}

impl Load {
    pub fn empty_store(&self) -> Vec<u64> {
        vec![0; self.room as usize * 2]
    }

    /// All messages to an empty log. The store is not cleared before.
    #[inline(never)]
    pub fn drive(&self, call: MaybeAppend, pending: &mut [u64]) {
        let mut log = EMPTY_LOG;
        let mut answer = [0; 2];
        let mut refused = 0;
        for m in &self.messages {
            let run = &self.runs[m.run..m.run + RUN_WORDS];
            refused |= call(&mut log, &[], pending, m.idx, m.term, m.idx, run, &mut answer);
        }
        assert_eq!(refused, 0, "a message of the load was refused");
    }
}

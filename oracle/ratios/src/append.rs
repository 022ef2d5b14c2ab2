//! `maybe_append`: 10,000 messages of eight records, each sent twice, so that half of them are repeats. The loads are those
//! of oracle/speed.

use crate::storage::Settled;
use crate::{plain_append, Load, Side};
use plain::words::LOG;
use raft_crate::eraftpb::Entry;
use raft_crate::{silent, RaftLog};
use std::time::Instant;

const RECORDS: u64 = 8;
const PAIRS: usize = 5000;

/// start, start term, offset, count, committed, persisted, applied
const EMPTY: [u64; LOG] = [0, 0, 1, 0, 0, 0, 0];

/// A message with its records in both forms, made before anything is timed.
struct Message {
    idx: u64,
    term: u64,
    words: Vec<u64>,
    entries: Vec<Entry>,
}

impl Message {
    fn new(idx: u64, previous: u64, term: u64) -> Message {
        let indices = idx + 1..=idx + RECORDS;
        let body = |index: u64| index * 10 + term;
        Message {
            idx,
            term: previous,
            words: indices.clone().flat_map(|index| [index, term, body(index)]).collect(),
            entries: indices.map(|index| Entry::of(index, term, body(index))).collect(),
        }
    }
}

/// A log in both forms: a side uses one. So every side is called through one signature.
struct Log {
    state: [u64; LOG],
    pending: Vec<u64>,
    raft: RaftLog<Settled>,
    answer: [u64; 2],
}

impl Log {
    fn new(room: usize) -> Log {
        let settled = Settled { start: 0, start_term: 0, records: Vec::new() };
        Log { state: EMPTY, pending: vec![0; 2 * room], raft: RaftLog::new(settled, silent()), answer: [0; 2] }
    }

    /// An empty log over the store as it is: our words stay, and the crate's list keeps its memory.
    fn begin_again(&mut self) {
        self.state = EMPTY;
        self.raft.unstable.entries.clear();
        self.raft.unstable.entries_size = 0;
        self.raft.unstable.offset = 1;
        self.raft.committed = 0;
        self.raft.persisted = 0;
    }

    /// The state and the pending records as words, from the form that the side uses.
    fn held(&self, side: Side) -> (Vec<u64>, Vec<u64>) {
        if side != Side::Crate {
            return (self.state.to_vec(), self.pending[..2 * self.state[3] as usize].to_vec());
        }
        let raft = &self.raft;
        let entries = &raft.unstable.entries;
        let state = [0, 0, raft.unstable.offset, entries.len() as u64, raft.committed, raft.persisted, raft.applied];
        (state.to_vec(), entries.iter().flat_map(|entry| [entry.term, entry.body()]).collect())
    }
}

/// 0 or the refusal's number.
type MaybeAppend = fn(&mut Log, &Message) -> u64;

#[inline(never)]
fn by_engine(log: &mut Log, m: &Message) -> u64 {
    let Log { state, pending, answer, .. } = log;
    engine::calls::log_maybe_append(state, &[], pending, m.idx, m.term, m.idx, &m.words, answer)
}

#[inline(never)]
fn by_plain(log: &mut Log, m: &Message) -> u64 {
    let Log { state, pending, answer, .. } = log;
    plain_append::maybe_append(state, &[], pending, m.idx, m.term, m.idx, &m.words, answer)
}

#[inline(never)]
fn by_rules(log: &mut Log, m: &Message) -> u64 {
    let Log { state, pending, answer, .. } = log;
    plain::words::log_maybe_append(state, &[], pending, m.idx, m.term, m.idx, &m.words, answer)
}

#[inline(never)]
fn by_crate(log: &mut Log, m: &Message) -> u64 {
    match log.raft.maybe_append(m.idx, m.term, m.idx, &m.entries) {
        Some((conflict, last)) => {
            log.answer = [conflict, last];
            0
        }
        None => 5,
    }
}

fn call_of(side: Side) -> MaybeAppend {
    match side {
        Side::Engine => by_engine,
        Side::Plain => by_plain,
        Side::Rules => by_rules,
        Side::Crate => by_crate,
    }
}

pub struct Appends {
    name: &'static str,
    /// Each is sent twice; after the last the first comes again.
    messages: Vec<Message>,
    /// A log for each side.
    logs: Vec<Log>,
}

/// A log of eight records, replaced again and again by another term's.
pub fn replace() -> Appends {
    Appends::new("append replace", vec![Message::new(0, 0, 1), Message::new(0, 0, 2)], 32)
}

/// A log that grows by eight records at its end.
pub fn grow() -> Appends {
    let message = |pair: usize| Message::new(pair as u64 * RECORDS, u64::from(pair != 0), 1);
    Appends::new("append grow", (0..PAIRS).map(message).collect(), PAIRS * RECORDS as usize)
}

impl Appends {
    fn new(name: &'static str, messages: Vec<Message>, room: usize) -> Appends {
        Appends { name, messages, logs: Side::ALL.map(|_| Log::new(room)).into() }
    }
}

/// All messages of a round, in their order.
fn sent(messages: &[Message]) -> impl Iterator<Item = &Message> {
    messages.iter().cycle().take(PAIRS).flat_map(|m| [m, m])
}

impl Load for Appends {
    fn name(&self) -> &'static str {
        self.name
    }

    fn compare(&mut self) {
        self.logs.iter_mut().for_each(Log::begin_again);
        for m in sent(&self.messages) {
            for side in Side::ALL {
                let refused = call_of(side)(&mut self.logs[side as usize], m);
                assert_eq!(refused, 0, "{side:?}: a message of the load was refused");
                assert_eq!(self.logs[side as usize].answer, self.logs[0].answer, "{side:?}: another answer");
            }
        }
        for side in Side::ALL {
            assert!(self.logs[side as usize].held(side) == self.logs[0].held(Side::Engine), "{side:?}: another log");
        }
    }

    fn round(&mut self, side: Side) -> f64 {
        let call = call_of(side);
        let log = &mut self.logs[side as usize];
        log.begin_again();
        let mut refused = 0;
        let begun = Instant::now();
        for m in self.messages.iter().cycle().take(PAIRS) {
            refused |= call(log, m);
            refused |= call(log, m);
        }
        let nanos = begun.elapsed().as_nanos() as f64;
        assert_eq!(refused, 0);
        nanos / (2 * PAIRS) as f64
    }
}

//! The crate's log on the inputs of the other sides: made from a state, called, compared.

use crate::calls::{Call, Slices, PENDING, RUN, SETTLED, STATE};
use crate::crate_quorum;
use crate::crate_side::Reply;
use crate::input::Input;
use crate::panics::{guarded, refusal_of};
use crate::storage::Settled;
use plain::words::LOG;
use raft_crate::eraftpb::Entry;
use raft_crate::{util, Error, GetEntriesContext, Logger, RaftLog, Result, StorageError, Unstable};

/// Places of a state's words.
pub const START: usize = 0;
pub const START_TERM: usize = 1;
pub const OFFSET: usize = 2;
pub const COUNT: usize = 3;
pub const COMMITTED: usize = 4;
pub const PERSISTED: usize = 5;
pub const APPLIED: usize = 6;

/// The last index of a state that meets the rules.
pub fn last_of(state: &[u64]) -> u64 {
    state[OFFSET] - 1 + state[COUNT]
}

/// The records of a store's words, the first with the given index.
fn records(words: &[u64], first: u64) -> Vec<Entry> {
    words.chunks_exact(2).zip(first..).map(|(record, index)| Entry::of(index, record[0], record[1])).collect()
}

/// A run as entries.
pub fn run_entries(run: &[u64]) -> Vec<Entry> {
    run.chunks_exact(3).map(|record| Entry::of(record[0], record[1], record[2])).collect()
}

pub struct CrateLog {
    log: RaftLog<Settled>,
}

impl CrateLog {
    /// The crate's log in a state that meets the rules. With pending records its storage also holds what
    /// stands in the settled store above the settled records, as a storage does after a cut.
    pub fn of(slices: &Slices, logger: &Logger) -> CrateLog {
        let [start, start_term, offset, count, committed, persisted, applied] = state_of(slices);
        let settled = match count {
            0 => &slices[SETTLED][..2 * (offset - 1 - start) as usize],
            _ => &slices[SETTLED][..],
        };
        // The storage's indices have a limit too.
        let most = (u64::MAX - 1 - start).min(settled.len() as u64 / 2) as usize;
        let entries = records(&slices[PENDING][..2 * count as usize], offset);
        CrateLog {
            log: RaftLog {
                store: Settled { start, start_term, records: records(&settled[..2 * most], start + 1) },
                unstable: Unstable {
                    snapshot: None,
                    entries_size: entries.iter().map(util::entry_approximate_size).sum(),
                    entries,
                    offset,
                    logger: logger.clone(),
                },
                committed,
                persisted,
                applied,
            },
        }
    }

    /// The crate's set-up, over a storage with the given settled records.
    pub fn set_up(start: u64, start_term: u64, last: u64, settled: &[u64], logger: &Logger) -> CrateLog {
        let records = records(&settled[..2 * (last - start) as usize], start + 1);
        CrateLog { log: RaftLog::new(Settled { start, start_term, records }, logger.clone()) }
    }

    /// Makes the call; a panic is read by its message.
    pub fn call(&mut self, input: &Input) -> Reply {
        match guarded(|| self.call_unguarded(input)) {
            Ok(reply) => reply,
            Err(message) => refusal_of(&message).map_or(Reply::Odd(message), Reply::Refused),
        }
    }

    #[allow(deprecated)] // applied_to: the crate would have its node call it
    fn call_unguarded(&mut self, input: &Input) -> Reply {
        let log = &mut self.log;
        let [a, b, c] = input.numbers;
        let context = || GetEntriesContext::empty(false);
        match input.call {
            Call::LogTerm => match log.term(a) {
                Ok(term) => Reply::Words(vec![term]),
                Err(error) => Reply::Odd(error.to_string()),
            },
            Call::LogFirstIndex => Reply::Words(vec![log.first_index()]),
            Call::LogLastIndex => Reply::Words(vec![log.last_index()]),
            Call::LogLastTerm => Reply::Words(vec![log.last_term()]),
            Call::LogCommitInfo => {
                let (committed, term) = log.commit_info();
                Reply::Words(vec![committed, term])
            }
            Call::LogIsUpToDate => Reply::Words(vec![log.is_up_to_date(a, b) as u64]),
            Call::LogFindConflictByTerm => {
                let (index, term) = log.find_conflict_by_term(a, b);
                Reply::Words(vec![index, term.is_some() as u64, term.unwrap_or(0)])
            }
            Call::LogMaybeAppend => match log.maybe_append(a, b, c, &run_entries(&input.slices[RUN])) {
                Some((conflict, last)) => Reply::Words(vec![conflict, last]),
                None => Reply::Refused(5),
            },
            Call::LogAppend => Reply::Words(vec![log.append(&run_entries(&input.slices[RUN]))]),
            Call::LogCommitTo => {
                log.commit_to(a);
                Reply::Words(vec![])
            }
            Call::LogMaybeCommit => Reply::Words(vec![log.maybe_commit(a, b) as u64]),
            Call::LogAppliedTo => {
                log.applied_to(a);
                Reply::Words(vec![])
            }
            Call::LogMaybePersist => Reply::Words(vec![log.maybe_persist(a, b) as u64]),
            Call::LogStableEntries => {
                // "Oracle runs supply a `Storage` that writes pending records before `stable_entries` is
                // called."
                log.store.write(&log.unstable.entries);
                log.stable_entries(a, b);
                Reply::Words(vec![])
            }
            Call::LogSlice => slice_reply(log.slice(a, b, None, context())),
            Call::LogEntries => slice_reply(log.entries(a, None, context())),
            Call::LogNextEntriesSince => Reply::Records(log.next_entries_since(a, None).unwrap_or_default()),
            Call::LogHasNextEntriesSince => Reply::Words(vec![log.has_next_entries_since(a) as u64]),
            Call::LeaderMaybeCommit => {
                // raft.rs, `maybe_commit`: the tracker's joint index, then the log's `maybe_commit`.
                Reply::Words(vec![log.maybe_commit(crate_quorum::joint_index(input), a) as u64])
            }
            _ => unreachable!("not a call of the log"),
        }
    }

    /// Where the crate's log differs from a state and its stores, if it does.
    pub fn differs(&self, slices: &Slices) -> Option<String> {
        let log = &self.log;
        let state = &slices[STATE];
        let found = [
            log.first_index() - 1,
            log.store.start_term,
            log.unstable.offset,
            log.unstable.entries.len() as u64,
            log.committed,
            log.persisted,
            log.applied,
        ];
        if found[..] != state[..LOG] {
            return Some(format!("the crate's state is {found:?}"));
        }
        let settled = (state[OFFSET] - 1 - state[START]) as usize;
        let same = |records: &[Entry], words: &[u64], first: u64| {
            records.len() == words.len() / 2
                && records
                    .iter()
                    .zip(first..)
                    .zip(words.chunks_exact(2))
                    .all(|((record, index), word)| *record == Entry::of(index, word[0], word[1]))
        };
        if !same(&log.store.records[..settled], &slices[SETTLED][..2 * settled], state[START] + 1) {
            return Some(format!("the crate's settled records are {:?}", &log.store.records[..settled]));
        }
        if !same(&log.unstable.entries, &slices[PENDING][..2 * state[COUNT] as usize], state[OFFSET]) {
            return Some(format!("the crate's pending records are {:?}", log.unstable.entries));
        }
        None
    }
}

fn slice_reply(result: Result<Vec<Entry>>) -> Reply {
    match result {
        Ok(records) => Reply::Records(records),
        Err(Error::Store(StorageError::Compacted)) => Reply::Refused(9),
        Err(error) => Reply::Odd(error.to_string()),
    }
}

fn state_of(slices: &Slices) -> [u64; LOG] {
    slices[STATE][..LOG].try_into().expect("a state has seven words")
}

/// The records that a slice of ours is asked for: a part from `low` on, continued up to `high`.
pub fn slice_end(input: &Input) -> u64 {
    let state = &input.slices[STATE];
    match input.call {
        Call::LogSlice => input.numbers[1],
        Call::LogEntries => last_of(state) + 1,
        _ => state[COMMITTED].min(state[PERSISTED]) + 1,
    }
}

/// The records of a part (five words, as the header has them).
pub fn part_records(part: &[u64], slices: &Slices) -> Vec<Entry> {
    let store = match part[0] {
        1 => &slices[SETTLED],
        2 => &slices[PENDING],
        _ => return Vec::new(),
    };
    // A part outside its store has no records.
    records(store.get(part[3] as usize..(part[3] + part[4]) as usize).unwrap_or_default(), part[1])
}

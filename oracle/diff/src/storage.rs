//! The `Storage` under the crate's log.

use raft_crate::eraftpb::{Entry, Snapshot};
use raft_crate::{Error, GetEntriesContext, MemStorage, RaftState, Result, Storage, StorageError};

/// A `Storage` that holds the settled records, after a start. As the crate's own MemStorage does, it answers
/// Compacted below its first index and Unavailable above its last. It may still hold records that a cut has
/// made pending again.
pub struct Settled {
    pub start: u64,
    pub start_term: u64,
    pub records: Vec<Entry>,
}

impl Settled {
    fn last(&self) -> u64 {
        self.start + self.records.len() as u64
    }

    /// Writes records over those from the first one's index on.
    pub fn write(&mut self, records: &[Entry]) {
        if let Some(first) = records.first() {
            self.records.truncate((first.index - self.start - 1) as usize);
            self.records.extend_from_slice(records);
        }
    }
}

impl Storage for Settled {
    fn initial_state(&self) -> Result<RaftState> {
        Ok(RaftState::default())
    }

    fn entries(
        &self,
        low: u64,
        high: u64,
        _: impl Into<Option<u64>>,
        _: GetEntriesContext,
    ) -> Result<Vec<Entry>> {
        if low <= self.start {
            return Err(Error::Store(StorageError::Compacted));
        }
        assert!(high <= self.last() + 1, "the storage is asked for more than it holds");
        let place = |index: u64| (index - self.start - 1) as usize;
        Ok(self.records[place(low)..place(high)].to_vec())
    }

    fn term(&self, idx: u64) -> Result<u64> {
        if idx < self.start {
            Err(Error::Store(StorageError::Compacted))
        } else if idx == self.start {
            Ok(self.start_term)
        } else {
            let record = self.records.get((idx - self.start - 1) as usize);
            record.map(|record| record.term).ok_or(Error::Store(StorageError::Unavailable))
        }
    }

    fn first_index(&self) -> Result<u64> {
        Ok(self.start + 1)
    }

    fn last_index(&self) -> Result<u64> {
        Ok(self.last())
    }

    fn snapshot(&self, _: u64, _: u64) -> Result<Snapshot> {
        Err(Error::Store(StorageError::SnapshotTemporarilyUnavailable))
    }
}

/// Holds the storage to the crate's own, which is for tests: the same answers, and the same after writing
/// over records.
pub fn check() {
    for (start, start_term) in [(0, 0), (3, 2), (u64::MAX - 9, 2)] {
        for count in 0..4 {
            let records: Vec<Entry> = (1..=count).map(|k| Entry::of(start + k, k, 100 + k)).collect();
            let mut ours = Settled { start, start_term, records: records.clone() };
            let theirs = mem_storage(start, start_term, &records);
            same_answers(&ours, &theirs);
            for from in 1..=count + 1 {
                let newer: Vec<Entry> = (from..from + 2).map(|k| Entry::of(start + k, 7, 200 + k)).collect();
                ours.write(&newer);
                theirs.wl().append(&newer).expect("no gap");
                same_answers(&ours, &theirs);
            }
        }
    }
}

fn mem_storage(start: u64, start_term: u64, records: &[Entry]) -> MemStorage {
    let storage = MemStorage::new();
    if start > 0 {
        let mut snapshot = Snapshot::default();
        snapshot.mut_metadata().index = start;
        snapshot.mut_metadata().term = start_term;
        storage.wl().apply_snapshot(snapshot).expect("newer than nothing");
    }
    storage.wl().append(records).expect("from the start on");
    storage
}

fn same_answers(ours: &Settled, theirs: &MemStorage) {
    assert_eq!(ours.first_index(), theirs.first_index());
    assert_eq!(ours.last_index(), theirs.last_index());
    for low in ours.start.saturating_sub(1)..=ours.last() + 2 {
        assert_eq!(ours.term(low), theirs.term(low), "term {low}");
        for high in low + 1..=ours.last() + 1 {
            let context = || GetEntriesContext::empty(false);
            let their_range = theirs.entries(low, high, None, context());
            assert_eq!(ours.entries(low, high, None, context()), their_range, "entries {low} to {high}");
        }
    }
}

//! `maybe_append` by the same rules, tuned: records as arrays, one pass over the run for refusals 2 and 3, and the conflict sought in each store by itself.

mod log;
use log::*;

type Held = [u64; STORE];
type Sent = [u64; RUN];

/// Refusals 2 and 3 in one pass: a wrong index ends it, a zero term is only noted, since 2 comes before 3.
fn check_run(run: &[u64], idx: u64) -> Answer<&[Sent]> {
    let (records, rest) = run.as_chunks::<RUN>();
    if !rest.is_empty() || idx.checked_add(records.len() as u64).is_none_or(|last| last == u64::MAX) {
        return Err(MISNUMBERED_RUN);
    }
    let mut zero = false;
    for (record, index) in records.iter().zip(idx + 1..) {
        if record[0] != index {
            return Err(MISNUMBERED_RUN);
        }
        zero |= record[1] == 0;
    }
    if zero {
        Err(ZERO_TERM)
    } else {
        Ok(records)
    }
}

/// How many records of a run, from its first on, have the terms of those held.
fn same_terms(held: &[Held], run: &[Sent]) -> usize {
    held.iter().zip(run).take_while(|(h, r)| h[0] == r[1]).count()
}

impl Log {
    /// How many records come before the first that differs. The record at idx is held, and past the last record all differ.
    fn before_conflict(&self, settled: &[u64], pending: &[u64], idx: u64, run: &[Sent]) -> usize {
        let pending = &pending.as_chunks::<STORE>().0[..self.count as usize];
        if idx + 1 >= self.offset {
            return same_terms(&pending[(idx + 1 - self.offset) as usize..], run);
        }
        let settled = &settled.as_chunks::<STORE>().0[..(self.offset - 1 - self.start) as usize];
        let settled = &settled[(idx - self.start) as usize..];
        let same = same_terms(settled, run);
        if same < settled.len() {
            return same;
        }
        same + same_terms(pending, &run[same..])
    }

    #[inline(always)]
    fn maybe_append(
        &mut self,
        settled: &[u64],
        pending: &mut [u64],
        idx: u64,
        term: u64,
        commit: u64,
        run: &[u64],
    ) -> Answer<Appended> {
        self.check(settled, pending)?;
        let run = check_run(run, idx)?;
        self.check_previous(settled, pending, idx, term)?;
        let same = self.before_conflict(settled, pending, idx, run);
        let last = idx + run.len() as u64;
        let mut conflict = 0;
        if same < run.len() {
            conflict = idx + 1 + same as u64;
            self.cut(pending, conflict, last)?;
            let places = &mut pending.as_chunks_mut::<STORE>().0[(conflict - self.offset) as usize..];
            for (place, record) in places.iter_mut().zip(&run[same..]) {
                *place = [record[1], record[2]];
            }
        }
        self.committed = self.committed.max(commit.min(last));
        Ok(Appended { conflict, last })
    }
}

#[inline(never)]
#[allow(clippy::too_many_arguments)]
pub fn maybe_append(
    log: &mut [u64],
    settled: &[u64],
    pending: &mut [u64],
    idx: u64,
    term: u64,
    commit: u64,
    run: &[u64],
    answer: &mut [u64],
) -> u64 {
    over_words(log, answer, |log| log.maybe_append(settled, pending, idx, term, commit, run))
}

//! `maybe_append` by the rules of document 01 in the obvious way: one check after the other in the order of the refusals, each with a loop of its own.

mod log;
use log::*;

/// Refusal 2, then 3; else how many records the run has.
fn check_run(run: &[u64], idx: u64) -> Answer<u64> {
    let count = (run.len() / RUN) as u64;
    if !run.len().is_multiple_of(RUN) || idx.checked_add(count).is_none_or(|last| last == u64::MAX) {
        return Err(MISNUMBERED_RUN);
    }
    for (record, index) in run.chunks_exact(RUN).zip(idx + 1..) {
        if record[0] != index {
            return Err(MISNUMBERED_RUN);
        }
    }
    for record in run.chunks_exact(RUN) {
        if record[1] == 0 {
            return Err(ZERO_TERM);
        }
    }
    Ok(count)
}

impl Log {
    /// "the first run record whose term differs from term(its index), 0 if none."
    fn find_conflict(&self, settled: &[u64], pending: &[u64], run: &[u64]) -> u64 {
        for record in run.chunks_exact(RUN) {
            if self.term(settled, pending, record[0]) != record[1] {
                return record[0];
            }
        }
        0
    }

    #[inline(always)]
    fn maybe_append(
        &mut self,
        settled: &[u64],
        pending: &mut [u64],
        idx: u64,
        term: u64,
        commit: u64,
        run: &[u64],
    ) -> Answer<Appended> {
        self.check(settled, pending)?;
        let last = idx + check_run(run, idx)?;
        self.check_previous(settled, pending, idx, term)?;
        let conflict = self.find_conflict(settled, pending, run);
        if conflict != 0 {
            self.cut(pending, conflict, last)?;
            let from = (conflict - idx - 1) as usize * RUN;
            let at = (conflict - self.offset) as usize * STORE;
            for (place, record) in pending[at..].chunks_exact_mut(STORE).zip(run[from..].chunks_exact(RUN)) {
                place[0] = record[1];
                place[1] = record[2];
            }
        }
        self.committed = self.committed.max(commit.min(last));
        Ok(Appended { conflict, last })
    }
}

#[inline(never)]
#[allow(clippy::too_many_arguments)]
pub fn maybe_append(
    log: &mut [u64],
    settled: &[u64],
    pending: &mut [u64],
    idx: u64,
    term: u64,
    commit: u64,
    run: &[u64],
    answer: &mut [u64],
) -> u64 {
    over_words(log, answer, |log| log.maybe_append(settled, pending, idx, term, commit, run))
}

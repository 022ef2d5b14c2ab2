//! The log: document 01, sections "State and stores" and "Log rules", and refusals 1 to 10.
//!
//! Each inner function answers something for every state and every number, so that the refusals of a call can stand
//! as one list. What it says of a broken state is never seen: 1 stands first in each list.

use crate::{first_refusal, Answer};

/// "A log has a start (index, term) before its first record; offset, the index of the first pending record;
/// committed, persisted, applied." `count` is the pending count.
#[derive(Debug, Clone, Copy, PartialEq, Eq)]
pub struct Log {
    pub start: u64,
    pub start_term: u64,
    pub offset: u64,
    pub count: u64,
    pub committed: u64,
    pub persisted: u64,
    pub applied: u64,
}

/// "A run is a part of whichever store holds it, settled or pending, never a copy." The records from `low` on and
/// before `end`, in that store from its word `word` on; empty is "its own case of the answer" (open points).
#[derive(Debug, Clone, Copy, PartialEq, Eq)]
pub enum Part {
    Empty,
    Settled { low: u64, end: u64, word: u64 },
    Pending { low: u64, end: u64, word: u64 },
}

/// "the run is (index, term, body) triples"
struct Triple {
    index: u64,
    term: u64,
    body: u64,
}

/// "two words a record, term then body number"
const RECORD_WORDS: usize = 2;

/// "the run is (index, term, body) triples"
const TRIPLE_WORDS: usize = 3;

impl Log {
    /// "Indices go up to u64::MAX - 1."
    pub const LIMIT: u64 = u64::MAX - 1;

    /// 1: "state rules or store lengths broken"
    pub(crate) fn check(&self, settled: &[u64], pending: &[u64]) -> Answer<()> {
        first_refusal(&[(1, broken(self, settled, pending))])
    }
}

// Stores.

/// ""long enough" is words divided by the width, rounded down" (open points): the records a store has room for.
fn room(store: &[u64]) -> u64 {
    let records = store.len() / RECORD_WORDS;
    records as u64
}

/// The term of the record at this place of a store, the first being 0. Only a broken state asks outside: 0.
fn term_in(store: &[u64], place: u64) -> u64 {
    match store.chunks_exact(RECORD_WORDS).nth(place as usize) {
        Some(record) => record[0],
        None => 0,
    }
}

/// The word of a store at which the record at this place begins.
fn word_of(place: u64) -> u64 {
    place.saturating_mul(RECORD_WORDS as u64)
}

/// "settled holds indices start+1 to offset-1": the first index.
fn first(log: &Log) -> u64 {
    log.start.saturating_add(1)
}

/// "Last is offset plus the pending count, minus 1." One beyond u64 is u64::MAX here, above the limit as well.
fn last(log: &Log) -> u64 {
    let sum = u128::from(log.offset) + u128::from(log.count);
    let last = sum.saturating_sub(1);
    u64::try_from(last).unwrap_or(u64::MAX)
}

/// Last + 1. In a log that is not broken last is within the limit, so this is a number.
fn end(log: &Log) -> u64 {
    last(log).saturating_add(1)
}

/// "settled holds indices start+1 to offset-1": how many records.
fn settled_count(log: &Log) -> u64 {
    log.offset.saturating_sub(first(log))
}

/// "settled holds indices start+1 to offset-1": the place of index i.
fn settled_place(log: &Log, i: u64) -> u64 {
    i.saturating_sub(first(log))
}

/// "pending holds offset to last": the place of index i.
fn pending_place(log: &Log, i: u64) -> u64 {
    i.saturating_sub(log.offset)
}

// State rules, refusal 1.

/// "start index 0 exactly if start term 0"
fn start_rule(start: u64, start_term: u64) -> bool {
    let index_is_0 = start == 0;
    let term_is_0 = start_term == 0;
    index_is_0 == term_is_0
}

/// "start <= applied <= committed <= last"
fn committed_rule(log: &Log) -> bool {
    let start_below = log.start <= log.applied;
    let applied_below = log.applied <= log.committed;
    let committed_below = log.committed <= last(log);
    start_below && applied_below && committed_below
}

/// "applied <= persisted < offset"
fn persisted_rule(log: &Log) -> bool {
    let applied_below = log.applied <= log.persisted;
    let persisted_below = log.persisted < log.offset;
    applied_below && persisted_below
}

/// "start < offset"
fn offset_rule(log: &Log) -> bool {
    log.start < log.offset
}

/// "both stores long enough"
fn stores_rule(log: &Log, settled: &[u64], pending: &[u64]) -> bool {
    let settled_fits = settled_count(log) <= room(settled);
    let pending_fits = log.count <= room(pending);
    settled_fits && pending_fits
}

/// "last within the limit"
fn limit_rule(log: &Log) -> bool {
    last(log) <= Log::LIMIT
}

/// "State rules, checked at each call: start index 0 exactly if start term 0; start <= applied <= committed <= last;
/// applied <= persisted < offset; start < offset; both stores long enough; last within the limit."
fn broken(log: &Log, settled: &[u64], pending: &[u64]) -> bool {
    let start_rule = start_rule(log.start, log.start_term);
    let committed_rule = committed_rule(log);
    let persisted_rule = persisted_rule(log);
    let offset_rule = offset_rule(log);
    let stores_rule = stores_rule(log, settled, pending);
    let limit_rule = limit_rule(log);
    let whole = start_rule && committed_rule && persisted_rule && offset_rule && stores_rule && limit_rule;
    !whole
}

// Set-up.

/// 1: "A last below start [..] is 1" (open points)
fn last_below_start(start: u64, last: u64) -> bool {
    last < start
}

/// 1: "A last [..] above the limit is 1" (open points)
fn last_above_limit(last: u64) -> bool {
    last > Log::LIMIT
}

/// 1: "a settled store too short is 1" (open points); it is to hold start+1 to last.
fn settled_too_short(start: u64, last: u64, settled: &[u64]) -> bool {
    let count = last.saturating_sub(start);
    count > room(settled)
}

/// 3: "a zero term [..] in settled at set-up". The records are those of start+1 to last; words after are no records.
fn zero_term_in_settled(start: u64, last: u64, settled: &[u64]) -> bool {
    let count = last.saturating_sub(start);
    let mut records = settled.chunks_exact(RECORD_WORDS).take(count as usize);
    records.any(|record| record[0] == 0)
}

/// "Set-up (`new`) also checks that settled terms are nonzero, and gives committed = applied = start, persisted =
/// last, offset = last + 1."; "any pending store will do" (open points).
pub fn new(start: u64, start_term: u64, last: u64, settled: &[u64], _pending: &[u64]) -> Answer<Log> {
    first_refusal(&[
        (1, !start_rule(start, start_term)),
        (1, last_below_start(start, last)),
        (1, last_above_limit(last)),
        (1, settled_too_short(start, last, settled)),
        (3, zero_term_in_settled(start, last, settled)),
    ])?;
    let offset = last.saturating_add(1);
    Ok(Log { start, start_term, offset, count: 0, committed: start, persisted: last, applied: start })
}

// Lookups.

/// Outside "[start, last]".
fn outside(log: &Log, i: u64) -> bool {
    let below_start = i < log.start;
    let above_last = i > last(log);
    below_start || above_last
}

/// The settled term at i.
fn settled_term(log: &Log, settled: &[u64], i: u64) -> u64 {
    let place = settled_place(log, i);
    term_in(settled, place)
}

/// The pending term at i.
fn pending_term(log: &Log, pending: &[u64], i: u64) -> u64 {
    let place = pending_place(log, i);
    term_in(pending, place)
}

/// "`term(i)`: the record's term; the start's term at start; 0 outside [start, last]."
fn term_at(log: &Log, settled: &[u64], pending: &[u64], i: u64) -> u64 {
    if outside(log, i) {
        return 0;
    }
    if i == log.start {
        return log.start_term;
    }
    if i < log.offset {
        return settled_term(log, settled, i);
    }
    pending_term(log, pending, i)
}

/// "`term(i)`: the record's term; the start's term at start; 0 outside [start, last]."
pub fn term(log: &Log, settled: &[u64], pending: &[u64], i: u64) -> Answer<u64> {
    first_refusal(&[(1, broken(log, settled, pending))])?;
    Ok(term_at(log, settled, pending, i))
}

/// "settled holds indices start+1 to offset-1": the first index.
pub fn first_index(log: &Log, settled: &[u64], pending: &[u64]) -> Answer<u64> {
    first_refusal(&[(1, broken(log, settled, pending))])?;
    Ok(first(log))
}

/// "Last is offset plus the pending count, minus 1."
pub fn last_index(log: &Log, settled: &[u64], pending: &[u64]) -> Answer<u64> {
    first_refusal(&[(1, broken(log, settled, pending))])?;
    Ok(last(log))
}

/// The term of last.
pub fn last_term(log: &Log, settled: &[u64], pending: &[u64]) -> Answer<u64> {
    first_refusal(&[(1, broken(log, settled, pending))])?;
    Ok(term_at(log, settled, pending, last(log)))
}

/// "`commit_info`: committed and its term."
pub fn commit_info(log: &Log, settled: &[u64], pending: &[u64]) -> Answer<(u64, u64)> {
    first_refusal(&[(1, broken(log, settled, pending))])?;
    let term = term_at(log, settled, pending, log.committed);
    Ok((log.committed, term))
}

/// "`is_up_to_date(i, t)`: t > last term, or equal and i >= last."
pub fn is_up_to_date(log: &Log, settled: &[u64], pending: &[u64], i: u64, t: u64) -> Answer<bool> {
    first_refusal(&[(1, broken(log, settled, pending))])?;
    let last_term = term_at(log, settled, pending, last(log));
    let later = t > last_term;
    let equal = t == last_term;
    let as_long = i >= last(log);
    Ok(later || (equal && as_long))
}

/// "the largest j <= i with term(j) <= t". "Below start the term is 0", so it is start - 1 or i at the lowest: no
/// smaller j is looked at. (With start 0 the start's own term is 0.)
fn largest_not_above(log: &Log, settled: &[u64], pending: &[u64], i: u64, t: u64) -> u64 {
    let before_start = log.start.saturating_sub(1);
    let lowest = before_start.min(i);
    let not_above = |j: &u64| term_at(log, settled, pending, *j) <= t;
    (lowest..=i).rev().find(not_above).unwrap_or(lowest)
}

/// "`find_conflict_by_term(i, t)`: i with no term if i > last; else the largest j <= i with term(j) <= t, and that
/// term. Below start the term is 0. The comment promises the first index where none exists; the code gives start - 1."
pub fn find_conflict_by_term(
    log: &Log,
    settled: &[u64],
    pending: &[u64],
    i: u64,
    t: u64,
) -> Answer<(u64, Option<u64>)> {
    first_refusal(&[(1, broken(log, settled, pending))])?;
    if i > last(log) {
        return Ok((i, None));
    }
    let j = largest_not_above(log, settled, pending, i, t);
    let term = term_at(log, settled, pending, j);
    Ok((j, Some(term)))
}

// Runs, refusals 2 and 3.

/// "the run is (index, term, body) triples"
fn triples(run: &[u64]) -> Vec<Triple> {
    let whole = run.chunks_exact(TRIPLE_WORDS);
    whole.map(|words| Triple { index: words[0], term: words[1], body: words[2] }).collect()
}

/// The run's count of records.
fn run_count(run: &[u64]) -> u64 {
    let records = run.len() / TRIPLE_WORDS;
    records as u64
}

/// 2: "run length not a multiple of three"
fn length_not_of_three(run: &[u64]) -> bool {
    run.len() % TRIPLE_WORDS != 0
}

/// 2: "indices not rising by one from" this first one
fn not_rising_from(first: u128, run: &[u64]) -> bool {
    let mut pairs = triples(run).into_iter().zip(first..);
    pairs.any(|(record, wanted)| u128::from(record.index) != wanted)
}

/// 2: "indices not rising by one from idx + 1"
fn not_rising_after(idx: u64, run: &[u64]) -> bool {
    let first = u128::from(idx) + 1;
    not_rising_from(first, run)
}

/// 2 in `append`: "rising by one from its own first index" (open points)
fn not_rising_alone(from: u64, run: &[u64]) -> bool {
    let first = u128::from(from);
    not_rising_from(first, run)
}

/// 2: "idx + count [..] above the limit"
fn end_above_limit(idx: u64, run: &[u64]) -> bool {
    let end = u128::from(idx) + u128::from(run_count(run));
    end > u128::from(Log::LIMIT)
}

/// 2: "`append` starting at 0"
fn starts_at_0(from: u64) -> bool {
    from == 0
}

/// 2: "for `append` its last index" above the limit
fn run_above_limit(from: u64, run: &[u64]) -> bool {
    let end = u128::from(from) + u128::from(run_count(run));
    let last = end.saturating_sub(1);
    last > u128::from(Log::LIMIT)
}

/// 3: "a zero term in a run"
fn zero_term_in_run(run: &[u64]) -> bool {
    triples(run).iter().any(|record| record.term == 0)
}

// The cut.

/// "the rest of the run": its records from this index on.
fn rest_of(run: &[u64], from: u64) -> Vec<Triple> {
    triples(run).into_iter().filter(|record| record.index >= from).collect()
}

/// The pending records before a cut; "if the conflict is below offset, pending is cleared": none.
fn kept_before(log: &Log, from: u64) -> u64 {
    from.saturating_sub(log.offset)
}

/// The pending count after a cut: what stands before it and the rest of the run.
fn count_after(log: &Log, from: u64, run: &[u64]) -> u64 {
    let kept = kept_before(log, from);
    let rest = rest_of(run, from).len() as u64;
    kept.saturating_add(rest)
}

/// 7: "pending after the call longer than its store"
fn no_room(log: &Log, pending: &[u64], from: u64, run: &[u64]) -> bool {
    count_after(log, from, run) > room(pending)
}

/// "A call writes only the records it adds or copies; every other word stays."
fn write_records(pending: &mut [u64], place: u64, records: &[Triple]) {
    let places = pending.chunks_exact_mut(RECORD_WORDS).skip(place as usize);
    for (words, record) in places.zip(records) {
        words[0] = record.term;
        words[1] = record.body;
    }
}

/// "records from there on are cut and the rest of the run becomes pending; if the conflict is below offset, pending
/// is cleared and offset becomes the conflict"
fn cut(log: &mut Log, pending: &mut [u64], from: u64, run: &[u64]) {
    let kept = kept_before(log, from);
    let count = count_after(log, from, run);
    write_records(pending, kept, &rest_of(run, from));
    log.count = count;
    if from < log.offset {
        log.offset = from;
    }
}

// `maybe_append`.

/// 4: "previous term 0 and idx outside [start, last] (added)"
fn previous_outside(log: &Log, idx: u64, term: u64) -> bool {
    let term_is_0 = term == 0;
    term_is_0 && outside(log, idx)
}

/// 5: "previous record doesn't match (the crate's `None`)": "If term(idx) is the given term".
fn previous_differs(log: &Log, settled: &[u64], pending: &[u64], idx: u64, term: u64) -> bool {
    term_at(log, settled, pending, idx) != term
}

/// "the conflict is the first run record whose term differs from term(its index), 0 if none."
fn conflict_of(log: &Log, settled: &[u64], pending: &[u64], run: &[u64]) -> u64 {
    let differs = |record: &Triple| record.term != term_at(log, settled, pending, record.index);
    match triples(run).into_iter().find(differs) {
        Some(record) => record.index,
        None => 0,
    }
}

/// 6: "nonzero conflict [..] at or below committed"
fn conflict_committed(log: &Log, conflict: u64) -> bool {
    let nonzero = conflict != 0;
    let committed = conflict <= log.committed;
    nonzero && committed
}

/// 7: "pending after the call longer than its store"; without a conflict pending stays.
fn conflict_without_room(log: &Log, pending: &[u64], conflict: u64, run: &[u64]) -> bool {
    let nonzero = conflict != 0;
    nonzero && no_room(log, pending, conflict, run)
}

/// "Nonzero: records from there on are cut [..]; persisted becomes the smaller of itself and conflict - 1."
fn resolve(log: &mut Log, pending: &mut [u64], conflict: u64, run: &[u64]) {
    cut(log, pending, conflict, run);
    let before = conflict.saturating_sub(1);
    log.persisted = log.persisted.min(before);
}

/// "Then committed becomes the larger of itself and min(commit, idx + count)."
fn commit_up_to(log: &mut Log, commit: u64, end: u64) {
    let known = commit.min(end);
    log.committed = log.committed.max(known);
}

/// "`maybe_append(idx, term, commit, run)`: [..] Answer: conflict and idx + count. Bodies are never compared."
pub fn maybe_append(
    log: &mut Log,
    settled: &[u64],
    pending: &mut [u64],
    idx: u64,
    term: u64,
    commit: u64,
    run: &[u64],
) -> Answer<(u64, u64)> {
    let conflict = conflict_of(log, settled, pending, run);
    first_refusal(&[
        (1, broken(log, settled, pending)),
        (2, length_not_of_three(run)),
        (2, not_rising_after(idx, run)),
        (2, end_above_limit(idx, run)),
        (3, zero_term_in_run(run)),
        (4, previous_outside(log, idx, term)),
        (5, previous_differs(log, settled, pending, idx, term)),
        (6, conflict_committed(log, conflict)),
        (7, conflict_without_room(log, pending, conflict, run)),
    ])?;
    if conflict != 0 {
        resolve(log, pending, conflict, run);
    }
    let end = idx.saturating_add(run_count(run));
    commit_up_to(log, commit, end);
    Ok((conflict, end))
}

// `append`.

/// 6: "`append` start, at or below committed"
fn start_committed(log: &Log, from: u64) -> bool {
    from <= log.committed
}

/// 8: "`append` leaving a gap"
fn leaves_gap(log: &Log, from: u64) -> bool {
    from > end(log)
}

/// 8: "`append` [..] starting at or below persisted (the latter added)"
fn start_persisted(log: &Log, from: u64) -> bool {
    from <= log.persisted
}

/// "`append(run)`: the cut above from its own first index, no term compared; answers the new last. An empty run
/// answers last. `persisted` is untouched."
/// "in `append` a gap (8) before 7"; "`append` at or below persisted and no room | 7 (the lowest; only the gap is
/// excepted)" (open points).
pub fn append(log: &mut Log, settled: &[u64], pending: &mut [u64], run: &[u64]) -> Answer<u64> {
    let Some(from) = run.first().copied() else {
        return last_index(log, settled, pending);
    };
    first_refusal(&[
        (1, broken(log, settled, pending)),
        (2, length_not_of_three(run)),
        (2, not_rising_alone(from, run)),
        (2, starts_at_0(from)),
        (2, run_above_limit(from, run)),
        (3, zero_term_in_run(run)),
        (6, start_committed(log, from)),
        (8, leaves_gap(log, from)),
        (7, no_room(log, pending, from, run)),
        (8, start_persisted(log, from)),
    ])?;
    cut(log, pending, from, run);
    Ok(last(log))
}

// Progress.

/// 8: "`commit_to` above last"
fn above_last(log: &Log, i: u64) -> bool {
    i > last(log)
}

/// "`commit_to(i)`: nothing if i <= committed, else committed is i."
pub fn commit_to(log: &mut Log, settled: &[u64], pending: &[u64], i: u64) -> Answer<()> {
    first_refusal(&[
        (1, broken(log, settled, pending)), // "state rules or store lengths broken"
        (8, above_last(log, i)),            // "`commit_to` above last"
    ])?;
    if i > log.committed {
        log.committed = i;
    }
    Ok(())
}

/// "`maybe_commit(i, t)`: yes exactly if committed < i <= last (the upper bound is added) and term(i) = t, then
/// commits."
pub fn maybe_commit(log: &mut Log, settled: &[u64], pending: &[u64], i: u64, t: u64) -> Answer<bool> {
    first_refusal(&[(1, broken(log, settled, pending))])?;
    let above_committed = log.committed < i;
    let up_to_last = i <= last(log);
    let term_agrees = term_at(log, settled, pending, i) == t;
    let yes = above_committed && up_to_last && term_agrees;
    if yes {
        log.committed = i;
    }
    Ok(yes)
}

/// 8: "a nonzero `applied_to` above min(committed, persisted)"
fn applied_too_high(log: &Log, i: u64) -> bool {
    let nonzero = i != 0;
    let bound = log.committed.min(log.persisted);
    nonzero && i > bound
}

/// 8: "a nonzero `applied_to` [..] below applied"
fn applied_too_low(log: &Log, i: u64) -> bool {
    let nonzero = i != 0;
    nonzero && i < log.applied
}

/// "`applied_to(0)` does nothing; `applied_to(i)` makes applied i."
pub fn applied_to(log: &mut Log, settled: &[u64], pending: &[u64], i: u64) -> Answer<()> {
    first_refusal(&[
        (1, broken(log, settled, pending)),
        (8, applied_too_high(log, i)),
        (8, applied_too_low(log, i)),
    ])?;
    if i != 0 {
        log.applied = i;
    }
    Ok(())
}

/// "`maybe_persist(i, t)`: yes exactly if persisted < i < offset and the settled term at i is t; then persisted is
/// i."
pub fn maybe_persist(log: &mut Log, settled: &[u64], pending: &[u64], i: u64, t: u64) -> Answer<bool> {
    first_refusal(&[(1, broken(log, settled, pending))])?;
    let above_persisted = log.persisted < i;
    let below_offset = i < log.offset;
    let term_agrees = settled_term(log, settled, i) == t;
    let yes = above_persisted && below_offset && term_agrees;
    if yes {
        log.persisted = i;
    }
    Ok(yes)
}

// `stable_entries`.

/// 7: "settled likewise in `stable_entries`": settled after the call longer than its store
fn settled_without_room(log: &Log, settled: &[u64]) -> bool {
    let after = settled_count(log).saturating_add(log.count);
    after > room(settled)
}

/// 10: "`stable_entries` with nothing pending"
fn nothing_pending(log: &Log) -> bool {
    log.count == 0
}

/// 10: "`stable_entries` with [..] another last record"
fn another_last(log: &Log, settled: &[u64], pending: &[u64], i: u64, t: u64) -> bool {
    let another_index = last(log) != i;
    let another_term = term_at(log, settled, pending, last(log)) != t;
    another_index || another_term
}

/// "pending is copied to settled"; "A call writes only the records it adds or copies; every other word stays."
fn copy_to_settled(log: &Log, settled: &mut [u64], pending: &[u64]) {
    let place = settled_count(log);
    let targets = settled.chunks_exact_mut(RECORD_WORDS).skip(place as usize);
    let records = pending.chunks_exact(RECORD_WORDS).take(log.count as usize);
    for (words, record) in targets.zip(records) {
        words.copy_from_slice(record);
    }
}

/// "`stable_entries(i, t)`: pending's last record must be (i, t); pending is copied to settled (the crate leaves this
/// to its `Storage`; copying is added) and offset becomes i + 1."
pub fn stable_entries(log: &mut Log, settled: &mut [u64], pending: &[u64], i: u64, t: u64) -> Answer<()> {
    first_refusal(&[
        (1, broken(log, settled, pending)),
        (7, settled_without_room(log, settled)),
        (10, nothing_pending(log)),
        (10, another_last(log, settled, pending, i, t)),
    ])?;
    copy_to_settled(log, settled, pending);
    log.offset = i.saturating_add(1);
    log.count = 0;
    Ok(())
}

// Parts.

/// 8: "low > high"
fn low_above_high(low: u64, high: u64) -> bool {
    low > high
}

/// 9: "low below the first index"
fn low_below_first(log: &Log, low: u64) -> bool {
    low < first(log)
}

/// 8: "high > last + 1"
fn high_above_end(log: &Log, high: u64) -> bool {
    high > end(log)
}

/// "it gives a run from low, ending at high or at the store boundary, whichever comes first.": in settled
fn settled_part(log: &Log, low: u64, high: u64) -> Part {
    let end = high.min(log.offset);
    let place = settled_place(log, low);
    Part::Settled { low, end, word: word_of(place) }
}

/// "it gives a run from low, ending at high or at the store boundary, whichever comes first.": in pending
fn pending_part(log: &Log, low: u64, high: u64) -> Part {
    let place = pending_place(log, low);
    Part::Pending { low, end: high, word: word_of(place) }
}

/// "A run is a part of whichever store holds it"; "low = high is empty."
fn part(log: &Log, low: u64, high: u64) -> Part {
    if low == high {
        return Part::Empty;
    }
    if low < log.offset {
        return settled_part(log, low, high);
    }
    pending_part(log, low, high)
}

/// "`slice(low, high)`: added shape: it gives a run from low, ending at high or at the store boundary, whichever
/// comes first."
/// "in `slice` 9 comes before high > last + 1 (8)"; low = high outside the log: "refusals first" (open points).
pub fn slice(log: &Log, settled: &[u64], pending: &[u64], low: u64, high: u64) -> Answer<Part> {
    first_refusal(&[
        (1, broken(log, settled, pending)),
        (8, low_above_high(low, high)),
        (9, low_below_first(log, low)),
        (8, high_above_end(log, high)),
    ])?;
    Ok(part(log, low, high))
}

/// "`entries(i)`: empty if i > last, else the slice from i to last + 1."
pub fn entries(log: &Log, settled: &[u64], pending: &[u64], i: u64) -> Answer<Part> {
    first_refusal(&[(1, broken(log, settled, pending))])?;
    if i > last(log) {
        return Ok(Part::Empty);
    }
    slice(log, settled, pending, i, end(log))
}

/// "min(committed, persisted) + 1 > max(s + 1, start + 1). For s = u64::MAX we answer no (added)." The range from the
/// right side to the left side, none where the answer is no.
fn next_range(log: &Log, s: u64) -> Option<(u64, u64)> {
    let after_s = s.checked_add(1)?;
    let after_start = log.start.saturating_add(1);
    let low = after_s.max(after_start);
    let known = log.committed.min(log.persisted);
    let high = known.saturating_add(1);
    let yes = high > low;
    yes.then_some((low, high))
}

/// "`has_next_entries_since(s)`: min(committed, persisted) + 1 > max(s + 1, start + 1). For s = u64::MAX we answer no
/// (added)."
pub fn has_next_entries_since(log: &Log, settled: &[u64], pending: &[u64], s: u64) -> Answer<bool> {
    first_refusal(&[(1, broken(log, settled, pending))])?;
    Ok(next_range(log, s).is_some())
}

/// "`next_entries_since` gives that range as a slice, or nothing."
pub fn next_entries_since(log: &Log, settled: &[u64], pending: &[u64], s: u64) -> Answer<Part> {
    first_refusal(&[(1, broken(log, settled, pending))])?;
    match next_range(log, s) {
        Some((low, high)) => slice(log, settled, pending, low, high),
        None => Ok(Part::Empty),
    }
}

#[cfg(test)]
mod tests {
    use super::*;

    /// A log with its two stores.
    #[derive(Debug, Clone, PartialEq)]
    struct Whole {
        log: Log,
        settled: Vec<u64>,
        pending: Vec<u64>,
    }

    /// "Log A: start (0,0); terms of 1 to 5 are 1,1,2,2,3; offset 4; committed 2, persisted 3, applied 1; pending room
    /// 4 records. Each case begins from A." The body of record i is 100 + i; 77 is no record's word.
    fn log_a() -> Whole {
        let log =
            Log { start: 0, start_term: 0, offset: 4, count: 2, committed: 2, persisted: 3, applied: 1 };
        let settled = vec![1, 101, 1, 102, 2, 103];
        let pending = vec![2, 104, 3, 105, 77, 77, 77, 77];
        Whole { log, settled, pending }
    }

    /// The empty log: start (0,0), nothing settled, nothing pending, room for two records each.
    fn empty() -> Whole {
        let (settled, pending) = (vec![77; 4], vec![77; 4]);
        Whole { log: new(0, 0, 0, &settled, &pending).unwrap(), settled, pending }
    }

    /// A log that holds only its start, (10, 4).
    fn start_10() -> Whole {
        Whole { log: new(10, 4, 10, &[], &[]).unwrap(), settled: vec![], pending: vec![] }
    }

    /// Records (index, term) as a run; the body of record i is 200 + i.
    fn run(records: &[(u64, u64)]) -> Vec<u64> {
        records.iter().flat_map(|(index, term)| [*index, *term, index.wrapping_add(200)]).collect()
    }

    impl Whole {
        fn term(&self, i: u64) -> Answer<u64> {
            term(&self.log, &self.settled, &self.pending, i)
        }

        fn find(&self, i: u64, t: u64) -> Answer<(u64, Option<u64>)> {
            find_conflict_by_term(&self.log, &self.settled, &self.pending, i, t)
        }

        fn offer(&mut self, idx: u64, term: u64, records: &[(u64, u64)], commit: u64) -> Answer<(u64, u64)> {
            let run = run(records);
            maybe_append(&mut self.log, &self.settled, &mut self.pending, idx, term, commit, &run)
        }

        fn append(&mut self, records: &[(u64, u64)]) -> Answer<u64> {
            append(&mut self.log, &self.settled, &mut self.pending, &run(records))
        }

        fn stable(&mut self, i: u64, t: u64) -> Answer<()> {
            stable_entries(&mut self.log, &mut self.settled, &self.pending, i, t)
        }

        fn applied_to(&mut self, i: u64) -> Answer<()> {
            applied_to(&mut self.log, &self.settled, &self.pending, i)
        }

        fn slice(&self, low: u64, high: u64) -> Answer<Part> {
            slice(&self.log, &self.settled, &self.pending, low, high)
        }

        fn entries(&self, i: u64) -> Answer<Part> {
            entries(&self.log, &self.settled, &self.pending, i)
        }

        fn next(&self, s: u64) -> Answer<Part> {
            next_entries_since(&self.log, &self.settled, &self.pending, s)
        }
    }

    /// "P: term(0) = 0, term(5) = 3, term(6) = 0."
    #[test]
    fn case_term() {
        let a = log_a();
        assert_eq!((a.term(0), a.term(5), a.term(6)), (Ok(0), Ok(3), Ok(0)));
        assert_eq!((a.term(2), a.term(3), a.term(4), a.term(u64::MAX)), (Ok(1), Ok(2), Ok(2), Ok(0)));
        let b = start_10();
        assert_eq!((b.term(9), b.term(10), b.term(11)), (Ok(0), Ok(4), Ok(0)));
    }

    /// "P: idx 5, term 3, empty, commit 9: (0, 5), committed 5."
    #[test]
    fn case_empty_run_commits() {
        let mut a = log_a();
        assert_eq!(a.offer(5, 3, &[], 9), Ok((0, 5)));
        assert_eq!(a, Whole { log: Log { committed: 5, ..log_a().log }, ..log_a() });
    }

    /// "P: idx 3, term 2, records (4,2),(5,4),(6,4), commit 4: (5, 6), pending 4 to 6, committed 4, persisted 3."
    #[test]
    fn case_conflict_in_pending() {
        let mut a = log_a();
        assert_eq!(a.offer(3, 2, &[(4, 2), (5, 4), (6, 4)], 4), Ok((5, 6)));
        assert_eq!(a.log, Log { offset: 4, count: 3, committed: 4, persisted: 3, ..log_a().log });
        assert_eq!(a.pending, [2, 104, 4, 205, 4, 206, 77, 77]);
        assert_eq!(a.settled, log_a().settled);
    }

    /// "P: idx 2, term 1, record (3,5), commit 2: (3, 3), offset 3, persisted 2."
    #[test]
    fn case_conflict_in_settled() {
        let mut a = log_a();
        assert_eq!(a.offer(2, 1, &[(3, 5)], 2), Ok((3, 3)));
        assert_eq!(a.log, Log { offset: 3, count: 1, persisted: 2, ..log_a().log });
        assert_eq!(a.pending, [5, 203, 3, 105, 77, 77, 77, 77]);
        assert_eq!(a.settled, log_a().settled);
    }

    /// "P: idx 1, term 1, record (2,7): refusal 6. Idx 5, term 2: refusal 5."
    /// "P: idx 9, term 0, empty, commit 2: refusal 4. The crate answers (0, 9)."
    #[test]
    fn case_refusals() {
        let mut a = log_a();
        assert_eq!(a.offer(1, 1, &[(2, 7)], 2), Err(6));
        assert_eq!(a.offer(5, 2, &[], 2), Err(5));
        assert_eq!(a.offer(9, 0, &[], 2), Err(4));
        assert_eq!(a.offer(9, 1, &[], 2), Err(5));
        assert_eq!(a, log_a());
    }

    /// "Idx 5, term 3: two more records fit, three give 7."
    #[test]
    fn case_room() {
        let mut a = log_a();
        assert_eq!(a.offer(5, 3, &[(6, 3), (7, 3), (8, 3)], 0), Err(7));
        assert_eq!(a, log_a());
        assert_eq!(a.offer(5, 3, &[(6, 3), (7, 3)], 0), Ok((6, 7)));
        assert_eq!(a.log, Log { count: 4, ..log_a().log });
        assert_eq!(a.pending, [2, 104, 3, 105, 3, 206, 3, 207]);
    }

    /// "Idx 2, term 1, record (3,2), commit 0: (0, 3), nothing cut."
    #[test]
    fn case_nothing_cut() {
        let mut a = log_a();
        assert_eq!(a.offer(2, 1, &[(3, 2)], 0), Ok((0, 3)));
        assert_eq!(a, log_a());
    }

    /// "P: find_conflict_by_term: (5,2) gives (4,2); (5,1) gives (2,1); (5,0) gives (0,0); (6,9) gives 6, none. With
    /// start (10,4): (10,3) gives (9,0)."
    #[test]
    fn case_find_conflict_by_term() {
        let a = log_a();
        assert_eq!(a.find(5, 2), Ok((4, Some(2))));
        assert_eq!(a.find(5, 1), Ok((2, Some(1))));
        assert_eq!(a.find(5, 0), Ok((0, Some(0))));
        assert_eq!(a.find(6, 9), Ok((6, None)));
        assert_eq!(start_10().find(10, 3), Ok((9, Some(0))));
        assert_eq!(start_10().find(10, 4), Ok((10, Some(4))));
        assert_eq!(start_10().find(3, 0), Ok((3, Some(0))));
    }

    /// "committing to `commit` without the minimum" is a tempting mistake.
    #[test]
    fn commit_is_bounded() {
        let mut a = log_a();
        assert_eq!(a.offer(2, 1, &[(3, 2)], u64::MAX), Ok((0, 3)));
        assert_eq!(a.log, Log { committed: 3, ..log_a().log });
        assert_eq!(a.offer(0, 0, &[], u64::MAX), Ok((0, 0)));
        assert_eq!(a.log.committed, 3);
    }

    /// 2: "run length not a multiple of three, indices not rising by one from idx + 1, [..] or idx + count [..] above
    /// the limit"; 3: "a zero term in a run"
    #[test]
    fn refusals_2_and_3() {
        let Whole { mut log, settled, mut pending } = log_a();
        for broken_run in [vec![6], vec![6, 3], vec![6, 3, 1, 7], vec![7, 3, 1], vec![5, 3, 1]] {
            assert_eq!(maybe_append(&mut log, &settled, &mut pending, 5, 3, 9, &broken_run), Err(2));
        }
        let mut a = log_a();
        assert_eq!(a.offer(u64::MAX, 0, &[], 0), Err(2));
        assert_eq!(a.offer(u64::MAX - 1, 0, &[], 0), Err(4));
        assert_eq!(a.offer(u64::MAX - 1, 0, &[(u64::MAX, 1)], 0), Err(2));
        assert_eq!(a.offer(u64::MAX, 0, &[(0, 1)], 0), Err(2));
        assert_eq!(a.offer(9, 0, &[(10, 0)], 0), Err(3));
        assert_eq!(a.offer(5, 3, &[(6, 3), (8, 0)], 0), Err(2));
        assert_eq!((a, log, pending), (log_a(), log_a().log, log_a().pending));
    }

    /// "`append(run)`: the cut above from its own first index, no term compared; answers the new last. An empty run
    /// answers last. `persisted` is untouched."
    #[test]
    fn append_cuts() {
        let mut a = log_a();
        assert_eq!(a.append(&[]), Ok(5));
        assert_eq!(a, log_a());
        assert_eq!(a.append(&[(5, 3)]), Ok(5));
        assert_eq!(a.pending, [2, 104, 3, 205, 77, 77, 77, 77]);
        assert_eq!(a.append(&[(4, 6), (5, 6), (6, 6)]), Ok(6));
        assert_eq!(a.pending, [6, 204, 6, 205, 6, 206, 77, 77]);
        assert_eq!(a.log, Log { count: 3, ..log_a().log });
        let mut b = log_a();
        b.log.persisted = 2;
        assert_eq!(b.append(&[(3, 9)]), Ok(3));
        assert_eq!(b.log, Log { offset: 3, count: 1, persisted: 2, ..log_a().log });
        assert_eq!(b.pending, [9, 203, 3, 105, 77, 77, 77, 77]);
    }

    /// "in `append` a gap (8) before 7"; "`append` at or below persisted and no room | 7"
    #[test]
    fn append_refusals() {
        let mut a = log_a();
        assert_eq!(a.append(&[(0, 1)]), Err(2));
        assert_eq!(a.append(&[(6, 1), (6, 1)]), Err(2));
        assert_eq!(a.append(&[(u64::MAX, 1)]), Err(2));
        assert_eq!(a.append(&[(u64::MAX - 1, 1)]), Err(8));
        assert_eq!(a.append(&[(6, 0)]), Err(3));
        assert_eq!(a.append(&[(2, 1)]), Err(6));
        assert_eq!(a.append(&[(7, 1)]), Err(8));
        assert_eq!(a.append(&[(7, 1), (8, 1), (9, 1), (10, 1)]), Err(8));
        assert_eq!(a.append(&[(6, 1), (7, 1), (8, 1)]), Err(7));
        assert_eq!(a.append(&[(3, 1)]), Err(8));
        assert_eq!(a.append(&[(3, 1), (4, 1), (5, 1), (6, 1), (7, 1)]), Err(7));
        assert_eq!(append(&mut a.log, &a.settled, &mut a.pending, &[6, 1]), Err(2));
        assert_eq!(a, log_a());
    }

    /// "`commit_to(i)`: nothing if i <= committed, else committed is i."; "`maybe_commit(i, t)`: yes exactly if
    /// committed < i <= last (the upper bound is added) and term(i) = t, then commits."
    #[test]
    fn commits() {
        let Whole { mut log, settled, pending } = log_a();
        assert_eq!(commit_to(&mut log, &settled, &pending, 6), Err(8));
        assert_eq!(maybe_commit(&mut log, &settled, &pending, 6, 0), Ok(false));
        assert_eq!(maybe_commit(&mut log, &settled, &pending, 2, 1), Ok(false));
        assert_eq!(maybe_commit(&mut log, &settled, &pending, 4, 1), Ok(false));
        assert_eq!(commit_to(&mut log, &settled, &pending, 1), Ok(()));
        assert_eq!(log, log_a().log);
        assert_eq!(maybe_commit(&mut log, &settled, &pending, 4, 2), Ok(true));
        assert_eq!(log, Log { committed: 4, ..log_a().log });
        assert_eq!(commit_to(&mut log, &settled, &pending, 5), Ok(()));
        assert_eq!(log, Log { committed: 5, ..log_a().log });
        assert_eq!(commit_info(&log, &settled, &pending), Ok((5, 3)));
    }

    /// "`applied_to(0)` does nothing; `applied_to(i)` makes applied i."; 8: "a nonzero `applied_to` above
    /// min(committed, persisted) or below applied"
    #[test]
    fn applies() {
        let mut a = log_a();
        assert_eq!(a.applied_to(0), Ok(()));
        assert_eq!(a.applied_to(3), Err(8));
        assert_eq!(a, log_a());
        assert_eq!(a.applied_to(2), Ok(()));
        assert_eq!(a.applied_to(1), Err(8));
        assert_eq!(a.log, Log { applied: 2, ..log_a().log });
        a.log.committed = 5;
        assert_eq!(a.applied_to(4), Err(8));
        assert_eq!(a.applied_to(3), Ok(()));
    }

    /// "`maybe_persist(i, t)`: yes exactly if persisted < i < offset and the settled term at i is t; then persisted
    /// is i."
    #[test]
    fn persists() {
        let Whole { mut log, settled, pending } = log_a();
        log.persisted = 2;
        assert_eq!(maybe_persist(&mut log, &settled, &pending, 2, 1), Ok(false));
        assert_eq!(maybe_persist(&mut log, &settled, &pending, 3, 1), Ok(false));
        assert_eq!(maybe_persist(&mut log, &settled, &pending, 4, 2), Ok(false));
        assert_eq!(log.persisted, 2);
        assert_eq!(maybe_persist(&mut log, &settled, &pending, 3, 2), Ok(true));
        assert_eq!(log, log_a().log);
    }

    /// "`stable_entries(i, t)`: pending's last record must be (i, t); pending is copied to settled [..] and offset
    /// becomes i + 1."; "`stable_entries` with another last record and a full settled store | 7 (the lowest)"
    #[test]
    fn stables() {
        let mut a = log_a();
        assert_eq!(a.stable(5, 3), Err(7));
        assert_eq!(a.stable(4, 2), Err(7));
        a.settled.extend([77; 5]);
        let before = a.clone();
        assert_eq!(a.stable(5, 2), Err(10));
        assert_eq!(a.stable(4, 3), Err(10));
        assert_eq!(a, before);
        assert_eq!(a.stable(5, 3), Ok(()));
        assert_eq!(a.log, Log { offset: 6, count: 0, ..log_a().log });
        assert_eq!(a.settled, [1, 101, 1, 102, 2, 103, 2, 104, 3, 105, 77]);
        assert_eq!(a.pending, log_a().pending);
        assert_eq!(a.stable(5, 3), Err(10));
    }

    /// "`is_up_to_date(i, t)`: t > last term, or equal and i >= last. `commit_info`: committed and its term."
    #[test]
    fn questions() {
        let Whole { log, settled, pending } = log_a();
        let newer = |i, t| is_up_to_date(&log, &settled, &pending, i, t);
        assert_eq!((newer(0, 4), newer(5, 3), newer(6, 3)), (Ok(true), Ok(true), Ok(true)));
        assert_eq!((newer(4, 3), newer(9, 2)), (Ok(false), Ok(false)));
        assert_eq!(commit_info(&log, &settled, &pending), Ok((2, 1)));
        assert_eq!(first_index(&log, &settled, &pending), Ok(1));
        assert_eq!(last_index(&log, &settled, &pending), Ok(5));
        assert_eq!(last_term(&log, &settled, &pending), Ok(3));
    }

    /// "it gives a run from low, ending at high or at the store boundary, whichever comes first."
    #[test]
    fn slices() {
        let a = log_a();
        assert_eq!(a.slice(2, 3), Ok(Part::Settled { low: 2, end: 3, word: 2 }));
        assert_eq!(a.slice(2, 6), Ok(Part::Settled { low: 2, end: 4, word: 2 }));
        assert_eq!(a.slice(4, 6), Ok(Part::Pending { low: 4, end: 6, word: 0 }));
        assert_eq!(a.slice(5, 6), Ok(Part::Pending { low: 5, end: 6, word: 2 }));
        assert_eq!((a.slice(3, 3), a.slice(6, 6)), (Ok(Part::Empty), Ok(Part::Empty)));
        assert_eq!((a.slice(3, 2), a.slice(1, 0), a.slice(1, 7)), (Err(8), Err(8), Err(8)));
        assert_eq!((a.slice(0, 6), a.slice(0, 7)), (Err(9), Err(9)));
        assert_eq!(a.entries(3), Ok(Part::Settled { low: 3, end: 4, word: 4 }));
        assert_eq!((a.entries(6), a.entries(u64::MAX)), (Ok(Part::Empty), Ok(Part::Empty)));
    }

    /// "refusals first: on the empty log `slice(0,0)` is 9 and `slice(2,2)` is 8. `entries(0)` on the empty log is 9"
    #[test]
    fn slices_of_the_empty_log() {
        let e = empty();
        assert_eq!((e.slice(0, 0), e.slice(2, 2), e.entries(0)), (Err(9), Err(8), Err(9)));
        assert_eq!((e.slice(1, 1), e.entries(1)), (Ok(Part::Empty), Ok(Part::Empty)));
    }

    /// "`has_next_entries_since(s)`: min(committed, persisted) + 1 > max(s + 1, start + 1). For s = u64::MAX we answer
    /// no (added)."
    #[test]
    fn next_entries() {
        let mut a = log_a();
        assert_eq!(a.next(0), Ok(Part::Settled { low: 1, end: 3, word: 0 }));
        assert_eq!(a.next(1), Ok(Part::Settled { low: 2, end: 3, word: 2 }));
        assert_eq!((a.next(2), a.next(u64::MAX)), (Ok(Part::Empty), Ok(Part::Empty)));
        a.log.committed = 5;
        assert_eq!(a.next(1), Ok(Part::Settled { low: 2, end: 4, word: 2 }));
        for s in [0, 1, 2, 3, 4, u64::MAX] {
            let has = has_next_entries_since(&a.log, &a.settled, &a.pending, s);
            assert_eq!(has, Ok(a.next(s) != Ok(Part::Empty)));
        }
    }

    /// "A last below start or above the limit is 1; a settled store too short is 1; any pending store will do"
    #[test]
    fn set_up() {
        let log =
            Log { start: 3, start_term: 2, offset: 6, count: 0, committed: 3, persisted: 5, applied: 3 };
        assert_eq!(new(3, 2, 5, &[2, 0, 4, 0, 0], &[]), Ok(log));
        assert_eq!(new(3, 2, 5, &[2, 0, 4], &[]), Err(1));
        assert_eq!(new(3, 2, 5, &[2, 0, 0, 9], &[]), Err(3));
        assert_eq!(new(3, 2, 4, &[2, 0, 0, 9], &[]).map(|log| log.offset), Ok(5));
        assert_eq!((new(3, 0, 3, &[], &[]), new(0, 3, 0, &[], &[])), (Err(1), Err(1)));
        assert_eq!((new(3, 2, 2, &[], &[]), new(0, 0, u64::MAX, &[], &[])), (Err(1), Err(1)));
        assert_eq!(new(u64::MAX, 1, u64::MAX, &[], &[]), Err(1));
        assert_eq!(new(u64::MAX - 1, 1, u64::MAX - 1, &[], &[]).map(|log| log.offset), Ok(u64::MAX));
    }

    /// "State rules, checked at each call"; ""long enough" is words divided by the width, rounded down"
    #[test]
    fn refusal_1() {
        let Whole { log, settled, pending } = log_a();
        let refused = |log: Log| log.check(&settled, &pending) == Err(1);
        assert!(!refused(log));
        assert!(refused(Log { start_term: 1, ..log }) && refused(Log { start: 1, ..log }));
        assert!(refused(Log { start: 2, start_term: 1, ..log }));
        assert!(refused(Log { committed: 0, ..log }) && refused(Log { committed: 6, ..log }));
        assert!(refused(Log { persisted: 0, ..log }) && refused(Log { persisted: 4, ..log }));
        assert!(refused(Log { offset: 5, ..log }) && refused(Log { count: 5, ..log }));
        assert!(refused(Log { offset: 0, ..log }) && refused(Log { count: u64::MAX, ..log }));
        assert_eq!(log.check(&settled[..5], &pending), Err(1));
        assert_eq!(log.check(&settled, &pending[..4]), Ok(()));
        assert_eq!(log.check(&settled, &pending[..3]), Err(1));
    }

    /// "last within the limit": at the upper end of the indices.
    #[test]
    fn at_the_limit() {
        let (start, pending) = (u64::MAX - 2, vec![77; 4]);
        let mut top = Whole { log: new(start, 1, start, &[], &pending).unwrap(), settled: vec![], pending };
        assert_eq!(top.offer(start, 1, &[(start + 1, 1), (start + 2, 1)], 0), Err(2));
        assert_eq!(top.offer(start, 1, &[(start + 1, 1)], u64::MAX), Ok((start + 1, start + 1)));
        assert_eq!(top.log.committed, start + 1);
        assert_eq!(top.append(&[(start + 2, 1)]), Err(2));
        assert_eq!(top.entries(start + 1), Ok(Part::Pending { low: start + 1, end: u64::MAX, word: 0 }));
        assert_eq!(top.slice(u64::MAX, u64::MAX), Ok(Part::Empty));
        top.log.count = 2;
        assert_eq!(top.term(start), Err(1));
    }

    /// Each call, by number, with two numbers and a run as its arguments.
    fn call(number: u64, a: &mut Whole, i: u64, t: u64, run: &[u64]) -> Answer<()> {
        let Whole { log, settled, pending } = a;
        match number {
            0 => maybe_append(log, settled, pending, i, t, i, run).map(|_| ()),
            1 => append(log, settled, pending, run).map(|_| ()),
            2 => commit_to(log, settled, pending, i),
            3 => maybe_commit(log, settled, pending, i, t).map(|_| ()),
            4 => applied_to(log, settled, pending, i),
            5 => maybe_persist(log, settled, pending, i, t).map(|_| ()),
            6 => stable_entries(log, settled, pending, i, t),
            7 => term(log, settled, pending, i).map(|_| ()),
            8 => first_index(log, settled, pending).map(|_| ()),
            9 => last_index(log, settled, pending).map(|_| ()),
            10 => last_term(log, settled, pending).map(|_| ()),
            11 => commit_info(log, settled, pending).map(|_| ()),
            12 => is_up_to_date(log, settled, pending, i, t).map(|_| ()),
            13 => find_conflict_by_term(log, settled, pending, i, t).map(|_| ()),
            14 => slice(log, settled, pending, i, t).map(|_| ()),
            15 => entries(log, settled, pending, i).map(|_| ()),
            16 => has_next_entries_since(log, settled, pending, i).map(|_| ()),
            17 => next_entries_since(log, settled, pending, i).map(|_| ()),
            _ => new(i, t, i, settled, pending).map(|_| ()),
        }
    }

    /// Nothing panics, a refusal changes nothing, a broken state is refused, and what is not refused stays whole.
    fn try_all_calls(before: &Whole, i: u64, t: u64, run: &[u64]) {
        let was_broken = broken(&before.log, &before.settled, &before.pending);
        for number in 0..18 {
            let mut after = before.clone();
            let answer = call(number, &mut after, i, t, run);
            assert!(!was_broken || answer == Err(1));
            let refused_and_same = answer.is_err() && after == *before;
            let done_and_whole = answer.is_ok() && !broken(&after.log, &after.settled, &after.pending);
            assert!(refused_and_same || done_and_whole, "{number} {before:?} {i} {t} {run:?}");
        }
        let _ = call(18, &mut before.clone(), i, t, run);
    }

    /// Words by chance: small ones, and where `high` now and then one at the upper end.
    struct Chance {
        seed: u64,
        high: bool,
    }

    impl Chance {
        fn below(&mut self, bound: u64) -> u64 {
            self.seed = self.seed.wrapping_mul(6364136223846793005).wrapping_add(1442695040888963407);
            (self.seed >> 33) % bound
        }

        fn word(&mut self) -> u64 {
            if self.high && self.below(3) == 0 {
                return u64::MAX - self.below(4);
            }
            self.below(6)
        }

        fn words(&mut self, bound: u64) -> Vec<u64> {
            (0..self.below(bound)).map(|_| self.word()).collect()
        }

        fn log(&mut self) -> Log {
            let (start, start_term) = [(0, 0), (1, 2), (self.word(), self.word())][self.below(3) as usize];
            let (applied, count) = (start.saturating_add(self.below(2)), self.below(3));
            let (offset, committed, persisted) = (self.word(), self.word(), self.word());
            Log { start, start_term, offset, count, committed, persisted, applied }
        }

        fn run(&mut self, idx: u64) -> Vec<u64> {
            let mut run = self.words(13);
            let rising = self.below(4) != 0;
            for (index, record) in (1..).zip(run.chunks_exact_mut(TRIPLE_WORDS)).filter(|_| rising) {
                record[0] = idx.wrapping_add(index);
            }
            run
        }
    }

    /// "Every refusal returns its number alone and changes nothing.": any words, many of them broken states.
    #[test]
    fn any_state_any_number() {
        let mut chance = Chance { seed: 1, high: false };
        let mut whole = 0;
        for _ in 0..100_000 {
            chance.high = chance.below(4) == 0;
            let log = chance.log();
            let state = Whole { log, settled: chance.words(12), pending: chance.words(10) };
            let (i, t) = (chance.word(), chance.word());
            try_all_calls(&state, i, t, &chance.run(i));
            whole += !broken(&state.log, &state.settled, &state.pending) as u64;
        }
        assert!(whole > 1_000, "{whole}");
    }
}

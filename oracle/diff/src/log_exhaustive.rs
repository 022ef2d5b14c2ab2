//! Every small log with every call and the arguments near its boundaries, from small to large: the first
//! mismatch is on a smallest input.

use crate::calls::{Call, OUTGOING, PENDING, ROWS, RUN, SETTLED, VOTERS};
use crate::check::{Checked, Checker};
use crate::input::Input;
use crate::report::Report;

const MAX: u64 = u64::MAX;

/// A log's start and the terms of the records behind it.
#[derive(Clone)]
struct Shape {
    start: u64,
    start_term: u64,
    settled: Vec<u64>,
    pending: Vec<u64>,
}

/// Where committed, persisted and applied stand.
type Places = (u64, u64, u64);

/// Spare room of the two stores, in words.
type Room = (usize, usize);

impl Shape {
    fn offset(&self) -> u64 {
        self.start + 1 + self.settled.len() as u64
    }

    fn last(&self) -> u64 {
        self.offset() - 1 + self.pending.len() as u64
    }

    /// The term that the log should answer at an index: only to choose arguments that match.
    fn term(&self, i: u64) -> u64 {
        if i < self.start || i > self.last() {
            0
        } else if i == self.start {
            self.start_term
        } else {
            let k = (i - self.start - 1) as usize;
            *self.settled.get(k).unwrap_or_else(|| &self.pending[k - self.settled.len()])
        }
    }

    /// All places that the state rules allow.
    fn places(&self) -> Vec<Places> {
        let mut all = Vec::new();
        for applied in self.start..self.offset() {
            for persisted in applied..self.offset() {
                for committed in applied..=self.last() {
                    all.push((committed, persisted, applied));
                }
            }
        }
        all
    }

    /// A few places, for calls that read none of them.
    fn some_places(&self) -> Vec<Places> {
        let all = self.places();
        let mut some = vec![all[0], all[all.len() / 2], all[all.len() - 1]];
        some.dedup();
        some
    }

    /// Indices around the log and at the ends of the numbers.
    fn indices(&self) -> Vec<u64> {
        let mut all = self.near();
        all.extend([0, MAX - 1, MAX]);
        all.sort_unstable();
        all.dedup();
        all
    }

    /// Indices around the log alone.
    fn near(&self) -> Vec<u64> {
        (self.start.saturating_sub(1)..=self.last().saturating_add(2)).collect()
    }

    /// Whether calls that read no term meet this shape: every small one, of the larger ones those with one
    /// term.
    fn stands_for_its_terms(&self) -> bool {
        let mut terms = self.settled.iter().chain(&self.pending);
        self.settled.len() + self.pending.len() <= 3 || terms.all(|term| *term == 1)
    }

    /// Lends the log: its records, then words that look like records but are none.
    fn lend(&self, input: &mut Input, (committed, persisted, applied): Places, (settled, pending): Room) {
        let count = self.pending.len() as u64;
        input.set_state(&[self.start, self.start_term, self.offset(), count, committed, persisted, applied]);
        lend_store(&mut input.slices[SETTLED], &self.settled, 100, settled);
        lend_store(&mut input.slices[PENDING], &self.pending, 200, pending);
    }
}

fn lend_store(store: &mut Vec<u64>, terms: &[u64], body: u64, spare: usize) {
    store.clear();
    for (term, body) in terms.iter().zip(body..) {
        store.extend([*term, body]);
    }
    for k in 0..spare {
        store.push(if k % 2 == 0 { 3 } else { 900 + k as u64 });
    }
}

/// A run from an index on, with these terms.
fn lend_run(input: &mut Input, first: u64, terms: &[u64]) {
    input.slices[RUN].clear();
    for (k, term) in terms.iter().enumerate() {
        input.slices[RUN].extend([first.wrapping_add(k as u64), *term, 300 + k as u64]);
    }
}

/// All lists of a length over some terms.
fn lists(terms: &[u64], length: usize) -> Vec<Vec<u64>> {
    (0..length).fold(vec![vec![]], |shorter, _| {
        let longer = |list: &Vec<u64>| terms.iter().map(|t| [&list[..], &[*t]].concat()).collect::<Vec<_>>();
        shorter.iter().flat_map(longer).collect()
    })
}

/// The starts, and how many records fit behind them: nothing, a start inside, and one just below the index
/// limit.
const STARTS: [(u64, u64, usize); 3] = [(0, 0, 64), (3, 2, 64), (MAX - 4, 2, 3)];

/// All shapes with up to `most` records in either store and terms from a list, small ones first.
fn shapes(most: usize, together: usize, terms: &[u64]) -> Vec<Shape> {
    let mut all = Vec::new();
    for (start, start_term, fit) in STARTS {
        for records in 0..=(2 * most).min(together).min(fit) {
            for settled in records.saturating_sub(most)..=records.min(most) {
                for list in lists(terms, records) {
                    let (settled, pending) = list.split_at(settled);
                    all.push(Shape {
                        start,
                        start_term,
                        settled: settled.to_vec(),
                        pending: pending.to_vec(),
                    });
                }
            }
        }
    }
    all
}

/// How large the logs of a run are.
pub struct Bounds {
    /// Records in either store.
    pub most: usize,
    /// The largest term in a store; 0 is always among them.
    pub terms: u64,
    /// Records in both stores of the logs that meet every message.
    pub full: usize,
}

/// The calls that the crate may answer come first, with the smallest logs first; then what is refused.
pub fn run(ck: &mut Checker, report: &mut Report, bounds: &Bounds) -> Checked {
    look_ups(ck, report, bounds)?;
    report.phase("log: look-ups and slices", ck);
    pointers(ck, report, bounds)?;
    report.phase("log: commit, persist, apply, settle", ck);
    full_messages(ck, report, bounds)?;
    report.phase("log: every message to small logs", ck);
    cut_messages(ck, report, bounds)?;
    report.phase("log: every cut of larger logs", ck);
    appends(ck, bounds)?;
    report.phase("log: append", ck);
    leader(ck, bounds)?;
    report.phase("log: the leader's commit step", ck);
    odd_runs(ck, bounds)?;
    report.phase("log: runs that are refused", ck);
    off_by_one(ck, bounds)?;
    report.phase("log: states one off the rules, every call", ck);
    set_up(ck)?;
    report.phase("log: set-up", ck);
    Ok(())
}

fn set_up(ck: &mut Checker) -> Checked {
    let mut input = Input::new(Call::LogNew);
    input.set_state(&[7; plain::words::LOG]);
    for start in [0, 1, 2, 3, MAX - 4, MAX - 2, MAX - 1, MAX] {
        for start_term in [0, 1, 2, MAX] {
            for records in 0..4 {
                for terms in lists(&[0, 1, 2], records) {
                    for spare in 0..4 {
                        lend_store(&mut input.slices[SETTLED], &terms, 100, spare);
                        for last in (0..6).map(|k| start.wrapping_add(k)).chain([
                            0,
                            start.wrapping_sub(1),
                            MAX - 1,
                            MAX,
                        ]) {
                            for pending in [0, 1, 4] {
                                lend_store(&mut input.slices[PENDING], &[], 200, pending);
                                input.set(Call::LogNew, [start, start_term, last]);
                                ck.check(&input)?;
                            }
                        }
                    }
                }
            }
        }
    }
    Ok(())
}

/// Every call of the log with the given numbers, a run of one record after `a` and three voters behind `a`.
fn every_call(ck: &mut Checker, input: &mut Input, (a, b, c): (u64, u64, u64)) -> Checked {
    for call in crate::calls::CALLS {
        if call.family() != crate::calls::Family::Log || call.sets_up() {
            continue;
        }
        match call {
            Call::LogMaybeAppend | Call::LogAppend => lend_run(input, a.wrapping_add(1), &[2]),
            Call::LeaderMaybeCommit => lend_voters(input, &[1], &[], a),
            _ => {}
        }
        input.set(*call, [a, b, c]);
        ck.check(input)?;
    }
    Ok(())
}

/// Committed, persisted and applied everywhere from one below the start to one above the last; offset and
/// count one off; stores a word short.
fn off_by_one(ck: &mut Checker, bounds: &Bounds) -> Checked {
    let mut input = Input::new(Call::LogTerm);
    let most = bounds.most.min(2);
    for shape in shapes(most, 2 * most, &[2]) {
        let around: Vec<u64> =
            (shape.start.wrapping_sub(1)..=MAX).take(1).chain(shape.start..=shape.last() + 1).collect();
        let near = |n: u64| [n.wrapping_sub(1), n, n.wrapping_add(1)];
        for committed in &around {
            for persisted in &around {
                for applied in &around {
                    shape.lend(&mut input, (*committed, *persisted, *applied), (5, 5));
                    every_call(ck, &mut input, (shape.last(), shape.term(shape.last()), *committed))?;
                }
            }
        }
        for offset in near(shape.offset()) {
            for count in near(shape.pending.len() as u64) {
                for room in [(0, 0), (1, 3), (4, 4)] {
                    shape.lend(&mut input, shape.some_places()[0], room);
                    input.slices[0][2] = offset;
                    input.slices[0][3] = count;
                    every_call(ck, &mut input, (shape.last(), shape.term(shape.last()), 1))?;
                }
            }
        }
        for start in near(shape.start) {
            for start_term in [0, 1, 2] {
                shape.lend(&mut input, shape.some_places()[0], (4, 4));
                input.slices[0][0] = start;
                input.slices[0][1] = start_term;
                every_call(ck, &mut input, (shape.last(), shape.term(shape.last()), 1))?;
            }
        }
        for (settled, pending) in [(1, 0), (0, 1), (2, 0), (0, 2)] {
            shape.lend(&mut input, shape.some_places()[0], (0, 0));
            let cut = |store: &mut Vec<u64>, by: usize| store.truncate(store.len().saturating_sub(by));
            cut(&mut input.slices[SETTLED], settled);
            cut(&mut input.slices[PENDING], pending);
            every_call(ck, &mut input, (shape.last(), shape.term(shape.last()), 1))?;
        }
    }
    Ok(())
}

/// Calls that read the records and neither committed nor persisted nor applied.
fn look_ups(ck: &mut Checker, report: &mut Report, bounds: &Bounds) -> Checked {
    let mut input = Input::new(Call::LogTerm);
    let terms: Vec<u64> = (0..=bounds.terms).collect();
    for shape in shapes(bounds.most, 2 * bounds.most, &terms) {
        report.alive("look-ups", ck);
        for places in shape.some_places() {
            shape.lend(&mut input, places, (1, 2));
            for call in [Call::LogFirstIndex, Call::LogLastIndex, Call::LogLastTerm] {
                input.set(call, [0; 3]);
                ck.check(&input)?;
            }
            for i in shape.indices() {
                for call in [Call::LogTerm, Call::LogEntries] {
                    input.set(call, [i, 0, 0]);
                    ck.check(&input)?;
                }
                for t in 0..=bounds.terms + 1 {
                    for call in [Call::LogIsUpToDate, Call::LogFindConflictByTerm] {
                        input.set(call, [i, t, 0]);
                        ck.check(&input)?;
                    }
                }
            }
        }
        if shape.stands_for_its_terms() {
            for places in shape.some_places() {
                shape.lend(&mut input, places, (1, 2));
                for low in shape.indices() {
                    for high in shape.indices() {
                        input.set(Call::LogSlice, [low, high, 0]);
                        ck.check(&input)?;
                    }
                }
            }
        }
    }
    Ok(())
}

/// Calls that read or move committed, persisted, applied or offset.
fn pointers(ck: &mut Checker, report: &mut Report, bounds: &Bounds) -> Checked {
    let mut input = Input::new(Call::LogTerm);
    let terms: Vec<u64> = (0..=bounds.terms).collect();
    for shape in shapes(bounds.most, 2 * bounds.most, &terms) {
        report.alive("commit, persist, apply, settle", ck);
        for places in shape.places() {
            shape.lend(&mut input, places, (1, 0));
            input.set(Call::LogCommitInfo, [0; 3]);
            ck.check(&input)?;
            for i in shape.indices() {
                let held = shape.term(i);
                for t in [held, 0, held + 1] {
                    for call in [Call::LogMaybeCommit, Call::LogMaybePersist] {
                        input.set(call, [i, t, 0]);
                        ck.check(&input)?;
                    }
                }
                if shape.stands_for_its_terms() {
                    moves(ck, &mut input, i)?;
                }
            }
        }
        for places in shape.some_places() {
            settle(ck, &mut input, &shape, places)?;
        }
    }
    Ok(())
}

/// Calls that read committed, persisted and applied alone.
fn moves(ck: &mut Checker, input: &mut Input, i: u64) -> Checked {
    for call in
        [Call::LogCommitTo, Call::LogAppliedTo, Call::LogHasNextEntriesSince, Call::LogNextEntriesSince]
    {
        input.set(call, [i, 0, 0]);
        ck.check(input)?;
    }
    Ok(())
}

/// `stable_entries` with the last record and with others, in stores without room, with room and with a spare
/// word.
fn settle(ck: &mut Checker, input: &mut Input, shape: &Shape, places: Places) -> Checked {
    let (last, needed) = (shape.last(), 2 * shape.pending.len());
    for room in [0, needed.saturating_sub(1), needed, needed + 1, needed + 4] {
        shape.lend(input, places, (room, 1));
        for (i, t) in [
            (last, shape.term(last)),
            (last, shape.term(last) + 1),
            (last - u64::from(last > 0), shape.term(last)),
            (last + 1, 0),
        ] {
            input.set(Call::LogStableEntries, [i, t, 0]);
            ck.check(input)?;
        }
    }
    Ok(())
}

/// `append` from every index, with every spare room.
fn appends(ck: &mut Checker, bounds: &Bounds) -> Checked {
    let mut input = Input::new(Call::LogAppend);
    for shape in shapes(bounds.most, 2 * bounds.most, &[2]) {
        for places in shape.places() {
            for room in 0..8 {
                shape.lend(&mut input, places, (0, room));
                for first in shape.indices() {
                    for length in 0..4 {
                        lend_run(&mut input, first, &[3, 1, 3][..length]);
                        ck.check(&input)?;
                    }
                }
            }
        }
    }
    Ok(())
}

/// Runs with a length, an index or a term that is refused, and runs up to the index limit.
fn odd_runs(ck: &mut Checker, bounds: &Bounds) -> Checked {
    let mut input = Input::new(Call::LogMaybeAppend);
    let most = bounds.most.min(2);
    for shape in shapes(most, 2 * most, &[2]) {
        for places in shape.some_places() {
            for room in [0, 6] {
                shape.lend(&mut input, places, (0, room));
                for idx in shape.indices() {
                    for terms in lists(&[0, 2, 3], 1).into_iter().chain(lists(&[0, 2, 3], 3)) {
                        lend_run(&mut input, idx.wrapping_add(1), &terms);
                        both_appends(ck, &mut input, idx, shape.term(idx))?;
                    }
                    odd_numbers(ck, &mut input, idx, shape.term(idx))?;
                }
            }
        }
    }
    Ok(())
}

fn both_appends(ck: &mut Checker, input: &mut Input, idx: u64, term: u64) -> Checked {
    for t in [term, 0, term + 1] {
        input.set(Call::LogMaybeAppend, [idx, t, idx]);
        ck.check(input)?;
    }
    input.set(Call::LogAppend, [0; 3]);
    ck.check(input)
}

/// A run of three with one index changed, or cut within a record.
fn odd_numbers(ck: &mut Checker, input: &mut Input, idx: u64, term: u64) -> Checked {
    for record in 0..3 {
        for other in [0, 1, idx, idx.wrapping_add(1), idx.wrapping_add(3), MAX - 1, MAX] {
            lend_run(input, idx.wrapping_add(1), &[2, 3, 3]);
            input.slices[RUN][3 * record] = other;
            both_appends(ck, input, idx, term)?;
        }
    }
    for words in 0..9 {
        lend_run(input, idx.wrapping_add(1), &[2, 3, 3]);
        input.slices[RUN].truncate(words);
        both_appends(ck, input, idx, term)?;
    }
    Ok(())
}

/// Every message of up to two records to every small log, every term free.
fn full_messages(ck: &mut Checker, report: &mut Report, bounds: &Bounds) -> Checked {
    let mut input = Input::new(Call::LogMaybeAppend);
    let terms: Vec<u64> = (0..=bounds.terms).collect();
    let runs: Vec<Vec<u64>> = (0..3).flat_map(|length| lists(&terms[1..], length)).collect();
    for shape in shapes(bounds.full, bounds.full, &terms) {
        for places in shape.places() {
            report.alive("every message", ck);
            for room in [0, 3, 8] {
                shape.lend(&mut input, places, (0, room));
                for idx in shape.near() {
                    for run in &runs {
                        lend_run(&mut input, idx.wrapping_add(1), run);
                        for term in &terms {
                            for commit in [0, places.0, idx.saturating_add(1), MAX] {
                                input.set(Call::LogMaybeAppend, [idx, *term, commit]);
                                ck.check(&input)?;
                            }
                        }
                    }
                }
            }
        }
    }
    Ok(())
}

/// Larger logs: every previous record, every length and every first difference, with every place of
/// committed, persisted and applied.
fn cut_messages(ck: &mut Checker, report: &mut Report, bounds: &Bounds) -> Checked {
    let mut input = Input::new(Call::LogMaybeAppend);
    for shape in shapes(bounds.most, 2 * bounds.most, &[1, 2]) {
        for places in shape.places() {
            report.alive("every cut", ck);
            for room in [0, 3, 8] {
                shape.lend(&mut input, places, (0, room));
                for idx in shape.indices() {
                    cuts_after(ck, &mut input, &shape, idx, places.0)?;
                }
            }
        }
    }
    Ok(())
}

/// Runs that are as held up to some record and differ from there on.
fn cuts_after(ck: &mut Checker, input: &mut Input, shape: &Shape, idx: u64, committed: u64) -> Checked {
    let held = |k: usize| shape.term(idx.wrapping_add(1 + k as u64));
    for length in 0..5 {
        for same in 0..=length {
            let terms: Vec<u64> = (0..length).map(|k| if k < same { held(k).max(1) } else { 3 }).collect();
            lend_run(input, idx.wrapping_add(1), &terms);
            for commit in [committed, idx.saturating_add(1), idx.saturating_add(length as u64), MAX] {
                input.set(Call::LogMaybeAppend, [idx, shape.term(idx), commit]);
                ck.check(input)?;
            }
        }
    }
    // Another previous term: nothing is looked at behind it.
    input.set(Call::LogMaybeAppend, [idx, shape.term(idx) + 1, MAX]);
    ck.check(input)
}

/// Voters of both halves, each of which has acknowledged the index.
fn lend_voters(input: &mut Input, incoming: &[u64], outgoing: &[u64], acknowledged: u64) {
    input.set_slice(VOTERS, incoming);
    input.set_slice(OUTGOING, outgoing);
    input.slices[ROWS].clear();
    let mut ids = [incoming, outgoing].concat();
    ids.sort_unstable();
    ids.dedup();
    for id in ids {
        input.slices[ROWS].extend([id, 1, acknowledged, 0]);
    }
}

fn leader(ck: &mut Checker, bounds: &Bounds) -> Checked {
    let mut input = Input::new(Call::LeaderMaybeCommit);
    let halves: [&[u64]; 5] = [&[], &[1], &[1, 2, 3], &[1, 1], &[1, 2, 3, 4, 5, 6, 7, 8]];
    let most = bounds.most.min(2);
    for shape in shapes(most, 2 * most, &[1, 2]) {
        // The last place breaks the state rules: 1 comes before 12.
        for places in shape.places().into_iter().chain([(shape.start, shape.offset(), shape.start)]) {
            shape.lend(&mut input, places, (0, 1));
            for incoming in halves {
                for outgoing in halves {
                    for i in shape.indices() {
                        lend_voters(&mut input, incoming, outgoing, i);
                        for term in [shape.term(i), 0, 3] {
                            input.set(Call::LeaderMaybeCommit, [term, 0, 0]);
                            ck.check(&input)?;
                        }
                    }
                }
            }
        }
    }
    Ok(())
}

//! The calls over words, as include/deckplover.h declares them: a state stands as words at the beginning of a
//! lent slice, and so do the values of an answer; further words stay. Each call returns 0 or the number of
//! the refusal; "a slice too short for a state or an answer is refusal 1".

use crate::inflights::{self, Window};
use crate::leader;
use crate::log::{self, Log, Part};
use crate::quorum::{self, Peer, VoteResult};
use crate::Answer;

/// Words of a log's state, of a part, of a peer row, of the ids of both halves, of a window's state.
pub const LOG: usize = 7;
pub const PART: usize = 5;
pub const ROW: usize = 4;
pub const IDS: usize = 15;
pub const WINDOW: usize = 5;

/// A state that stands as words.
trait State<const N: usize>: Sized {
    fn from_words(words: [u64; N]) -> Self;
    fn to_words(&self) -> [u64; N];

    fn read(slice: &[u64]) -> Answer<Self> {
        Ok(Self::from_words(*slice.first_chunk().ok_or(1u64)?))
    }

    fn write(&self, slice: &mut [u64]) {
        slice[..N].copy_from_slice(&self.to_words());
    }
}

impl State<LOG> for Log {
    fn from_words(words: [u64; LOG]) -> Log {
        let [start, start_term, offset, count, committed, persisted, applied] = words;
        Log { start, start_term, offset, count, committed, persisted, applied }
    }

    fn to_words(&self) -> [u64; LOG] {
        [self.start, self.start_term, self.offset, self.count, self.committed, self.persisted, self.applied]
    }
}

impl State<WINDOW> for Window {
    fn from_words(words: [u64; WINDOW]) -> Window {
        let [start, count, cap, is_deferred, deferred] = words;
        Window { start, count, cap, deferred: (is_deferred != 0).then_some(deferred) }
    }

    fn to_words(&self) -> [u64; WINDOW] {
        [self.start, self.count, self.cap, self.deferred.is_some() as u64, self.deferred.unwrap_or(0)]
    }
}

fn part_words(part: Part) -> [u64; PART] {
    let words = |low: u64, end: u64| 2 * (end - low);
    match part {
        Part::Empty => [0; PART],
        Part::Settled { low, end, word } => [1, low, end, word, words(low, end)],
        Part::Pending { low, end, word } => [2, low, end, word, words(low, end)],
    }
}

fn vote_word(vote: VoteResult) -> u64 {
    match vote {
        VoteResult::Pending => 0,
        VoteResult::Lost => 1,
        VoteResult::Won => 2,
    }
}

fn ids_words(ids: Vec<u64>) -> [u64; IDS] {
    let mut words = [0; IDS];
    words[0] = ids.len() as u64;
    words[1..=ids.len()].copy_from_slice(&ids);
    words
}

fn peers(rows: &[u64]) -> Vec<Peer> {
    rows.chunks_exact(ROW)
        .map(|row| Peer {
            id: row[0],
            ack: (row[1] != 0).then_some(row[2]),
            vote: match row[3] {
                1 => Some(true),
                2 => Some(false),
                _ => None,
            },
        })
        .collect()
}

/// 0, or the refusal's number.
fn number(answer: Answer<()>) -> u64 {
    answer.err().unwrap_or(0)
}

/// Room for an answer of N words, looked at before the call is made: too little is 1, the lowest number.
fn answer_into<const N: usize>(slice: &mut [u64], call: impl FnOnce() -> Answer<[u64; N]>) -> u64 {
    let Some(room) = slice.first_chunk_mut::<N>() else {
        return 1;
    };
    number(call().map(|words| *room = words))
}

/// A call that changes a state: written back only where it is not refused.
fn change<const N: usize, S: State<N>, T>(
    slice: &mut [u64],
    call: impl FnOnce(&mut S) -> Answer<T>,
) -> Answer<T> {
    let mut state = S::read(slice)?;
    let answer = call(&mut state)?;
    state.write(slice);
    Ok(answer)
}

pub fn log_new(
    start: u64,
    start_term: u64,
    last: u64,
    settled: &[u64],
    pending: &[u64],
    log: &mut [u64],
) -> u64 {
    answer_into(log, || Ok(log::new(start, start_term, last, settled, pending)?.to_words()))
}

pub fn log_term(log: &[u64], settled: &[u64], pending: &[u64], i: u64, answer: &mut [u64]) -> u64 {
    answer_into(answer, || Ok([log::term(&Log::read(log)?, settled, pending, i)?]))
}

pub fn log_first_index(log: &[u64], settled: &[u64], pending: &[u64], answer: &mut [u64]) -> u64 {
    answer_into(answer, || Ok([log::first_index(&Log::read(log)?, settled, pending)?]))
}

pub fn log_last_index(log: &[u64], settled: &[u64], pending: &[u64], answer: &mut [u64]) -> u64 {
    answer_into(answer, || Ok([log::last_index(&Log::read(log)?, settled, pending)?]))
}

pub fn log_last_term(log: &[u64], settled: &[u64], pending: &[u64], answer: &mut [u64]) -> u64 {
    answer_into(answer, || Ok([log::last_term(&Log::read(log)?, settled, pending)?]))
}

pub fn log_commit_info(log: &[u64], settled: &[u64], pending: &[u64], answer: &mut [u64]) -> u64 {
    answer_into(answer, || {
        let (committed, term) = log::commit_info(&Log::read(log)?, settled, pending)?;
        Ok([committed, term])
    })
}

pub fn log_is_up_to_date(
    log: &[u64],
    settled: &[u64],
    pending: &[u64],
    i: u64,
    t: u64,
    answer: &mut [u64],
) -> u64 {
    answer_into(answer, || Ok([log::is_up_to_date(&Log::read(log)?, settled, pending, i, t)? as u64]))
}

pub fn log_find_conflict_by_term(
    log: &[u64],
    settled: &[u64],
    pending: &[u64],
    i: u64,
    t: u64,
    answer: &mut [u64],
) -> u64 {
    answer_into(answer, || {
        let (index, term) = log::find_conflict_by_term(&Log::read(log)?, settled, pending, i, t)?;
        Ok([index, term.is_some() as u64, term.unwrap_or(0)])
    })
}

#[allow(clippy::too_many_arguments)]
pub fn log_maybe_append(
    log: &mut [u64],
    settled: &[u64],
    pending: &mut [u64],
    idx: u64,
    term: u64,
    commit: u64,
    run: &[u64],
    answer: &mut [u64],
) -> u64 {
    answer_into(answer, || {
        let (conflict, last) =
            change(log, |log| log::maybe_append(log, settled, pending, idx, term, commit, run))?;
        Ok([conflict, last])
    })
}

pub fn log_append(
    log: &mut [u64],
    settled: &[u64],
    pending: &mut [u64],
    run: &[u64],
    answer: &mut [u64],
) -> u64 {
    answer_into(answer, || Ok([change(log, |log| log::append(log, settled, pending, run))?]))
}

pub fn log_commit_to(log: &mut [u64], settled: &[u64], pending: &[u64], i: u64) -> u64 {
    number(change(log, |log| log::commit_to(log, settled, pending, i)))
}

pub fn log_maybe_commit(
    log: &mut [u64],
    settled: &[u64],
    pending: &[u64],
    i: u64,
    t: u64,
    answer: &mut [u64],
) -> u64 {
    answer_into(answer, || Ok([change(log, |log| log::maybe_commit(log, settled, pending, i, t))? as u64]))
}

pub fn log_applied_to(log: &mut [u64], settled: &[u64], pending: &[u64], i: u64) -> u64 {
    number(change(log, |log| log::applied_to(log, settled, pending, i)))
}

pub fn log_maybe_persist(
    log: &mut [u64],
    settled: &[u64],
    pending: &[u64],
    i: u64,
    t: u64,
    answer: &mut [u64],
) -> u64 {
    answer_into(answer, || Ok([change(log, |log| log::maybe_persist(log, settled, pending, i, t))? as u64]))
}

pub fn log_stable_entries(log: &mut [u64], settled: &mut [u64], pending: &[u64], i: u64, t: u64) -> u64 {
    number(change(log, |log| log::stable_entries(log, settled, pending, i, t)))
}

pub fn log_slice(
    log: &[u64],
    settled: &[u64],
    pending: &[u64],
    low: u64,
    high: u64,
    answer: &mut [u64],
) -> u64 {
    answer_into(answer, || Ok(part_words(log::slice(&Log::read(log)?, settled, pending, low, high)?)))
}

pub fn log_entries(log: &[u64], settled: &[u64], pending: &[u64], i: u64, answer: &mut [u64]) -> u64 {
    answer_into(answer, || Ok(part_words(log::entries(&Log::read(log)?, settled, pending, i)?)))
}

pub fn log_next_entries_since(
    log: &[u64],
    settled: &[u64],
    pending: &[u64],
    s: u64,
    answer: &mut [u64],
) -> u64 {
    answer_into(answer, || Ok(part_words(log::next_entries_since(&Log::read(log)?, settled, pending, s)?)))
}

pub fn log_has_next_entries_since(
    log: &[u64],
    settled: &[u64],
    pending: &[u64],
    s: u64,
    answer: &mut [u64],
) -> u64 {
    answer_into(answer, || Ok([log::has_next_entries_since(&Log::read(log)?, settled, pending, s)? as u64]))
}

pub fn majority_committed_index(voters: &[u64], rows: &[u64], answer: &mut [u64]) -> u64 {
    answer_into(answer, || {
        let (index, free) = quorum::majority_committed_index(voters, &peers(rows))?;
        Ok([index, free as u64])
    })
}

pub fn joint_committed_index(incoming: &[u64], outgoing: &[u64], rows: &[u64], answer: &mut [u64]) -> u64 {
    answer_into(answer, || {
        let (index, free) = quorum::joint_committed_index(incoming, outgoing, &peers(rows))?;
        Ok([index, free as u64])
    })
}

pub fn majority_vote_result(voters: &[u64], rows: &[u64], answer: &mut [u64]) -> u64 {
    answer_into(answer, || Ok([vote_word(quorum::majority_vote_result(voters, &peers(rows))?)]))
}

pub fn joint_vote_result(incoming: &[u64], outgoing: &[u64], rows: &[u64], answer: &mut [u64]) -> u64 {
    answer_into(answer, || Ok([vote_word(quorum::joint_vote_result(incoming, outgoing, &peers(rows))?)]))
}

pub fn joint_is_singleton(incoming: &[u64], outgoing: &[u64], answer: &mut [u64]) -> u64 {
    answer_into(answer, || Ok([quorum::joint_is_singleton(incoming, outgoing)? as u64]))
}

pub fn joint_contains(incoming: &[u64], outgoing: &[u64], id: u64, answer: &mut [u64]) -> u64 {
    answer_into(answer, || Ok([quorum::joint_contains(incoming, outgoing, id)? as u64]))
}

pub fn joint_ids(incoming: &[u64], outgoing: &[u64], answer: &mut [u64]) -> u64 {
    answer_into(answer, || Ok(ids_words(quorum::joint_ids(incoming, outgoing)?)))
}

pub fn joint_clear(incoming: &[u64], outgoing: &[u64], answer: &mut [u64]) -> u64 {
    answer_into(answer, || {
        let (incoming, outgoing) = quorum::joint_clear(incoming, outgoing)?;
        Ok([incoming.len() as u64, outgoing.len() as u64])
    })
}

pub fn voters_checked(voters: &[u64]) -> u64 {
    number(quorum::voters_checked(voters))
}

pub fn joint_checked(incoming: &[u64], outgoing: &[u64]) -> u64 {
    number(quorum::joint_checked(incoming, outgoing))
}

pub fn rows_checked(rows: &[u64]) -> u64 {
    number(quorum::rows_checked(&peers(rows)))
}

#[allow(clippy::too_many_arguments)]
pub fn leader_maybe_commit(
    log: &mut [u64],
    settled: &[u64],
    pending: &[u64],
    term: u64,
    incoming: &[u64],
    outgoing: &[u64],
    rows: &[u64],
    answer: &mut [u64],
) -> u64 {
    answer_into(answer, || {
        let rows = peers(rows);
        let yes =
            change(log, |log| leader::maybe_commit(log, settled, pending, term, incoming, outgoing, &rows))?;
        Ok([yes as u64])
    })
}

pub fn inflights_new(cap: u64, ring: &[u64], window: &mut [u64]) -> u64 {
    answer_into(window, || Ok(inflights::new(cap, ring)?.to_words()))
}

pub fn inflights_set_cap(window: &mut [u64], ring: &[u64], cap: u64) -> u64 {
    number(change(window, |window| inflights::set_cap(window, ring, cap)))
}

pub fn inflights_add(window: &mut [u64], ring: &mut [u64], inflight: u64) -> u64 {
    number(change(window, |window| inflights::add(window, ring, inflight)))
}

pub fn inflights_free_to(window: &mut [u64], ring: &[u64], to: u64) -> u64 {
    number(change(window, |window| inflights::free_to(window, ring, to)))
}

pub fn inflights_free_first_one(window: &mut [u64], ring: &[u64]) -> u64 {
    number(change(window, |window| inflights::free_first_one(window, ring)))
}

pub fn inflights_reset(window: &mut [u64], ring: &[u64]) -> u64 {
    number(change(window, |window| inflights::reset(window, ring)))
}

pub fn inflights_maybe_free_buffer(window: &mut [u64], ring: &[u64]) -> u64 {
    number(change(window, |window| inflights::maybe_free_buffer(window, ring)))
}

pub fn inflights_full(window: &[u64], ring: &[u64], answer: &mut [u64]) -> u64 {
    answer_into(answer, || Ok([inflights::full(&Window::read(window)?, ring)? as u64]))
}

pub fn inflights_count(window: &[u64], ring: &[u64], answer: &mut [u64]) -> u64 {
    answer_into(answer, || Ok([inflights::count(&Window::read(window)?, ring)?]))
}

//! Random calls from a fixed seed: long runs on one log and on one window, quorums of any size, and the same
//! with broken states, odd lengths and huge numbers.

use crate::calls::{Call, Family, Slices, CALLS, OUTGOING, PENDING, RING, ROWS, RUN, SETTLED, STATE, VOTERS};
use crate::check::{Checked, Checker, Mismatch};
use crate::crate_log::{last_of, APPLIED, COMMITTED, OFFSET, PERSISTED, START, START_TERM};
use crate::crate_window;
use crate::input::Input;
use crate::report::Report;
use crate::rng::Rng;
use crate::script::{Run, Script, Step};

const MAX: u64 = u64::MAX;

pub fn run(ck: &mut Checker, report: &mut Report, seed: u64, rounds: u64) -> Checked {
    let mut rng = Rng::new(seed);
    scripts(ck, &mut rng, rounds, log_set_up, log_step)?;
    report.phase("random: long runs on one log, and damage on the way", ck);
    scripts(ck, &mut rng, rounds, window_set_up, window_step)?;
    report.phase("random: long runs on one window, and damage on the way", ck);
    quorums(ck, &mut rng, 50 * rounds)?;
    report.phase("random: quorums of any size", ck);
    Ok(())
}

/// Runs of random calls. Now and then what the next call is handed gets damaged, in a copy.
fn scripts(
    ck: &mut Checker,
    rng: &mut Rng,
    rounds: u64,
    set_up: fn(&mut Rng) -> Input,
    step: fn(&mut Rng, &Slices) -> Step,
) -> Checked {
    for _ in 0..rounds {
        let mut script = Script { set_up: set_up(rng), steps: Vec::new() };
        let Some(mut run) = Run::begin(ck, &script.set_up)? else { continue };
        for _ in 0..rng.below(400) {
            script.steps.push(step(rng, &run.input.slices));
            let step = script.steps.last().expect("just pushed");
            if let Err(mismatch) = run.step(ck, step) {
                return Err(smallest(ck, script, mismatch));
            }
            if rng.one_in(2) {
                let mut damaged = run.input.clone();
                damage(rng, &mut damaged);
                ck.check(&damaged)?;
            }
        }
    }
    Ok(())
}

/// Prints the shortest run that shows the mismatch.
fn smallest(ck: &mut Checker, script: Script, mismatch: Box<Mismatch>) -> Box<Mismatch> {
    println!("a mismatch after {} random calls; dropping calls", script.steps.len());
    let (script, mismatch) = script.shrink(ck, mismatch);
    println!("the shortest run that shows it, {} calls behind the set-up:", script.steps.len());
    script.print();
    mismatch
}

/// Words for a store, its terms small and nonzero; sometimes a spare word.
fn store(rng: &mut Rng, records: u64) -> Vec<u64> {
    let mut words: Vec<u64> = (0..records).flat_map(|_| [1 + rng.below(4), rng.below(1000)]).collect();
    if rng.one_in(4) {
        words.push(rng.below(4));
    }
    words
}

fn log_set_up(rng: &mut Rng) -> Input {
    let mut input = Input::new(Call::LogNew);
    input.set_state(&[0; plain::words::LOG]);
    let near_the_limit = MAX - 1 - rng.below(30);
    let start = rng.pick(&[0, 0, 1, 3, 1 << 40, near_the_limit, near_the_limit]);
    let start_term = if start == 0 { 0 } else { 1 + rng.below(3) };
    let settled = rng.below(5);
    let (settled_room, pending_room) = (settled + rng.below(60), rng.below(16));
    input.slices[SETTLED] = store(rng, settled_room);
    input.slices[PENDING] = store(rng, pending_room);
    input.numbers = [start, start_term, start.saturating_add(settled)];
    input
}

/// An index near one of the state's own, sometimes a huge one.
fn index(rng: &mut Rng, state: &[u64]) -> u64 {
    let last = last_of(state);
    let base = match rng.below(8) {
        0 => state[START],
        1 => state[APPLIED],
        2 => state[PERSISTED],
        3 => state[COMMITTED],
        4 => state[OFFSET],
        5 => last,
        6 => state[START] + rng.below(last - state[START] + 1),
        _ => rng.pick(&[0, 1, 2, MAX, MAX - 1, last, last]),
    };
    match rng.below(6) {
        0 => base.saturating_sub(1),
        1 => base.saturating_add(1),
        _ => base,
    }
}

/// The term that a good log holds at an index: to choose arguments that match.
fn held(slices: &Slices, i: u64) -> u64 {
    let state = &slices[STATE];
    if i < state[START] || i > last_of(state) {
        0
    } else if i == state[START] {
        state[START_TERM]
    } else if i < state[OFFSET] {
        slices[SETTLED][2 * (i - state[START] - 1) as usize]
    } else {
        slices[PENDING][2 * (i - state[OFFSET]) as usize]
    }
}

/// The held term mostly, else another.
fn term(rng: &mut Rng, slices: &Slices, i: u64) -> u64 {
    match rng.below(8) {
        0 => rng.below(6),
        1 => rng.pick(&[0, 1, MAX]),
        _ => held(slices, i),
    }
}

/// A run after an index: as held up to somewhere, then other terms. Seldom with a flaw.
fn random_run(rng: &mut Rng, slices: &Slices, idx: u64) -> Vec<u64> {
    let length = if rng.one_in(3) { 0 } else { rng.below(7) };
    let as_held = rng.below(length + 2);
    let mut run = Vec::new();
    for k in 0..length {
        let i = idx.wrapping_add(1 + k);
        let term = if k < as_held { held(slices, i).max(1) } else { 1 + rng.below(5) };
        run.extend([i, term, rng.below(1000)]);
    }
    if rng.one_in(30) && !run.is_empty() {
        let k = rng.below(run.len() as u64) as usize;
        run[k] = rng.pick(&[0, 1, MAX, MAX - 1, run[k].wrapping_add(1)]);
    }
    if rng.one_in(60) {
        run.pop();
    }
    run
}

/// The next call on a log: half of the time one that moves it on, else any.
fn log_step(rng: &mut Rng, slices: &Slices) -> Step {
    let state = &slices[STATE];
    let last = last_of(state);
    if rng.one_in(2) {
        return match rng.below(6) {
            0 => Step::new(Call::LogStableEntries, [last, held(slices, last), 0]),
            1 => Step::new(Call::LogMaybePersist, [state[OFFSET] - 1, held(slices, state[OFFSET] - 1), 0]),
            2 => Step::new(
                Call::LogCommitTo,
                [state[COMMITTED] + rng.below(last - state[COMMITTED] + 1), 0, 0],
            ),
            3 => Step::new(Call::LogAppliedTo, [state[COMMITTED].min(state[PERSISTED]), 0, 0]),
            4 => append_step(rng, slices, last),
            _ => message_step(rng, slices, last),
        };
    }
    let i = index(rng, state);
    let t = term(rng, slices, i);
    let calls: Vec<Call> =
        CALLS.iter().copied().filter(|call| call.family() == Family::Log && !call.sets_up()).collect();
    match rng.pick(&calls) {
        Call::LogMaybeAppend => message_step(rng, slices, i),
        Call::LogAppend => append_step(rng, slices, i.saturating_sub(1)),
        Call::LogSlice => Step::new(Call::LogSlice, [i, index(rng, state), 0]),
        Call::LeaderMaybeCommit => leader_step(rng, slices),
        call => Step::new(call, [i, t, 0]),
    }
}

fn message_step(rng: &mut Rng, slices: &Slices, idx: u64) -> Step {
    let commit = index(rng, &slices[STATE]);
    let numbers = [idx, term(rng, slices, idx), commit];
    Step::with_run(Call::LogMaybeAppend, numbers, random_run(rng, slices, idx))
}

fn append_step(rng: &mut Rng, slices: &Slices, after: u64) -> Step {
    Step::with_run(Call::LogAppend, [0; 3], random_run(rng, slices, after))
}

fn leader_step(rng: &mut Rng, slices: &Slices) -> Step {
    let ack = index(rng, &slices[STATE]);
    let (incoming, outgoing, mut rows) = configuration(rng);
    // Most voters have the same index of the log, so that it is often the quorum's.
    for row in rows.chunks_exact_mut(4).filter(|_| !rng.one_in(4)) {
        row[1] = 1;
        row[2] = ack;
    }
    let t = term(rng, slices, ack);
    let mut step = Step::new(Call::LeaderMaybeCommit, [t, 0, 0]);
    step.lent = [incoming, outgoing, rows];
    step
}

/// An id: mostly from a small range, so that halves overlap and rows are found.
fn id(rng: &mut Rng) -> u64 {
    match rng.below(12) {
        0 => MAX - rng.below(3),
        1 => rng.word(),
        _ => rng.below(12),
    }
}

/// So many different ids, or fewer.
fn ids(rng: &mut Rng, most: u64) -> Vec<u64> {
    let mut ids = Vec::new();
    for _ in 0..most {
        let id = id(rng);
        if !ids.contains(&id) {
            ids.push(id);
        }
    }
    ids
}

fn half(rng: &mut Rng) -> Vec<u64> {
    let most = rng.pick(&[0, 1, 2, 3, 4, 5, 6, 7, 8, 9, 10, 12]);
    let mut half = ids(rng, most);
    // Mostly within the limit.
    if !rng.one_in(6) {
        half.truncate(plain::quorum::VOTERS);
    }
    if rng.one_in(20) && !half.is_empty() {
        half.push(rng.pick(&half));
    }
    half
}

/// Two halves and the rows of most of their voters and of some others.
fn configuration(rng: &mut Rng) -> (Vec<u64>, Vec<u64>, Vec<u64>) {
    let (incoming, outgoing) = (half(rng), if rng.one_in(3) { vec![] } else { half(rng) });
    let mut with_row: Vec<u64> =
        incoming.iter().chain(&outgoing).copied().filter(|_| !rng.one_in(5)).collect();
    with_row.extend(ids(rng, 6));
    if rng.one_in(10) {
        with_row.extend((0..rng.pick(&[50, 55, 60, 64, 65, 70])).map(|k| 1000 + k));
    }
    with_row.sort_unstable();
    with_row.dedup();
    if rng.one_in(20) && !with_row.is_empty() {
        with_row.push(rng.pick(&with_row));
    }
    // Seldom words that say the same as others: any word but 0 for "there", any but 1 and 2 for a missing
    // vote.
    let odd = rng.one_in(4);
    let (there, votes): (&[u64], &[u64]) =
        if odd { (&[0, 1, 2, MAX], &[0, 1, 2, 3, MAX]) } else { (&[0, 1, 1, 1], &[0, 1, 2]) };
    let mut rows = Vec::new();
    while !with_row.is_empty() {
        let id = with_row.swap_remove(rng.below(with_row.len() as u64) as usize);
        let there = rng.pick(there);
        let ack = match rng.below(6) {
            0 => rng.pick(&[0, MAX, MAX - 1]),
            1 => rng.word(),
            _ => rng.below(8),
        };
        rows.extend([id, there, if there == 0 && !odd { 0 } else { ack }, rng.pick(votes)]);
    }
    if odd {
        // Words after the last whole row are not read.
        rows.extend((0..rng.below(4)).map(|_| 1));
    }
    (incoming, outgoing, rows)
}

fn quorums(ck: &mut Checker, rng: &mut Rng, calls: u64) -> Checked {
    let questions: Vec<Call> = CALLS.iter().copied().filter(|call| call.family() == Family::Quorum).collect();
    for _ in 0..calls {
        let mut input = Input::new(rng.pick(&questions));
        (input.slices[VOTERS], input.slices[OUTGOING], input.slices[ROWS]) = configuration(rng);
        input.numbers[0] = id(rng);
        if rng.one_in(50) {
            input.set_room(rng.below(input.call.form().answer as u64 + 1) as usize);
        }
        ck.check(&input)?;
    }
    Ok(())
}

fn window_set_up(rng: &mut Rng) -> Input {
    let mut input = Input::new(Call::InflightsNew);
    input.set_state(&[0; plain::words::WINDOW]);
    let length = rng.pick(&[0, 1, 2, 3, 4, 5, 8, 13, 20]);
    input.slices[RING] = (0..length).map(|_| rng.below(10)).collect();
    input.numbers[0] = rng.below(length + 1);
    input
}

fn window_step(rng: &mut Rng, slices: &Slices) -> Step {
    let ring = slices[RING].len() as u64;
    let flights: Vec<u64> = crate_window::flights(slices).collect();
    let last = flights.last().copied().unwrap_or(0);
    let flight = match rng.below(6) {
        0 => rng.below(8),
        1 => rng.pick(&[0, MAX, MAX - 1]),
        2 => last,
        // Rising mostly, as a leader sends.
        _ => last.saturating_add(1),
    };
    let to = match rng.below(4) {
        0 => flight,
        _ if flights.is_empty() => 3,
        _ => rng.pick(&flights),
    };
    match rng.below(20) {
        0..=8 => Step::new(Call::InflightsAdd, [flight, 0, 0]),
        9..=11 => Step::new(Call::InflightsFreeTo, [to, 0, 0]),
        12 => Step::new(Call::InflightsFreeFirstOne, [0; 3]),
        13..=15 => Step::new(Call::InflightsSetCap, [rng.below(ring + 2), 0, 0]),
        16 => Step::new(Call::InflightsSetCap, [rng.pick(&[ring, MAX, 0]), 0, 0]),
        17 => Step::new(rng.pick(&[Call::InflightsReset, Call::InflightsMaybeFreeBuffer]), [0; 3]),
        18 => Step::new(Call::InflightsFull, [0; 3]),
        _ => Step::new(Call::InflightsCount, [0; 3]),
    }
}

/// Breaks what a call is handed: a word of the state, a length, a number; up to three times.
fn damage(rng: &mut Rng, input: &mut Input) {
    let family = input.call.family();
    let calls: Vec<Call> = CALLS.iter().copied().filter(|call| call.family() == family).collect();
    let numbers = input.numbers;
    input.set(rng.pick(&calls), numbers);
    for _ in 0..1 + rng.below(3) {
        match rng.below(9) {
            0..=4 => {
                let place = rng.below(family.state_words() as u64) as usize;
                let word = input.slices[STATE][place];
                input.slices[STATE][place] = odd_number(rng, word);
            }
            5 | 6 => {
                let place = rng.pick(&[SETTLED, PENDING, RUN, OUTGOING, ROWS]);
                odd_length(rng, &mut input.slices[place]);
            }
            7 => {
                let place = rng.below(3) as usize;
                input.numbers[place] = odd_number(rng, numbers[place]);
            }
            _ => {
                let place = rng.pick(&[SETTLED, PENDING, RUN, OUTGOING, ROWS]);
                if !input.slices[place].is_empty() {
                    let k = rng.below(input.slices[place].len() as u64) as usize;
                    input.slices[place][k] = odd_number(rng, input.slices[place][k]);
                }
            }
        }
    }
    if rng.one_in(8) {
        short(rng, input);
    }
}

/// Another number: one off, huge, or any.
fn odd_number(rng: &mut Rng, number: u64) -> u64 {
    match rng.below(5) {
        0 => number.wrapping_add(1),
        1 => number.wrapping_sub(1),
        2 => rng.below(4),
        3 => rng.pick(&[MAX, MAX - 1, MAX / 2, MAX / 2 + 1, 1 << 32, (1 << 32) - 1, MAX / 3, MAX - 2]),
        _ => rng.word() >> rng.below(64),
    }
}

/// A word more or fewer, or none.
fn odd_length(rng: &mut Rng, slice: &mut Vec<u64>) {
    match rng.below(4) {
        0 => slice.clear(),
        1 => slice.push(rng.below(4)),
        _ => slice.truncate(slice.len().saturating_sub(1 + rng.below(3) as usize)),
    }
}

/// Too few words for a state or an answer.
fn short(rng: &mut Rng, input: &mut Input) {
    if rng.one_in(2) {
        input.slices[STATE].truncate(rng.below(input.call.family().state_words() as u64 + 1) as usize);
    } else {
        input.set_room(rng.below(input.call.form().answer as u64 + 1) as usize);
    }
}

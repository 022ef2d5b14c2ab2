//! The plain programs written for these runs, held to the one of the differential runs on random inputs, good and bad: what is
//! measured does all the work, refusals included.

use crate::rng::Rng;
use crate::{plain_quorum, plain_window};
use plain::words;

const INPUTS: usize = 100_000;

/// Mostly different small ids, so that every refusal and every answer comes up.
fn ids(rng: &mut Rng, most: u64) -> Vec<u64> {
    let count = rng.below(most + 1);
    let shift = rng.below(4);
    (0..count).map(|k| if rng.one_in(40) { rng.below(8) } else { k + shift }).collect()
}

fn rows(rng: &mut Rng) -> Vec<u64> {
    let most = if rng.one_in(20) { 66 } else { 9 };
    let mut rows: Vec<u64> =
        ids(rng, most).into_iter().flat_map(|id| [id, rng.below(4), rng.below(6), rng.below(3)]).collect();
    // Words behind the last whole row are not read.
    rows.extend(vec![0; rng.below(4) as usize]);
    rows
}

/// The same answer and the same words afterwards, whatever the call wrote.
fn same(what: &str, seen: &mut [u64; 14], ours: (u64, Vec<u64>), theirs: (u64, Vec<u64>)) {
    assert_eq!(ours, theirs, "{what}");
    seen[ours.0 as usize] += 1;
}

/// A call, and the words that it may write as they are afterwards.
fn after(mut words: Vec<u64>, call: impl FnOnce(&mut [u64]) -> u64) -> (u64, Vec<u64>) {
    let number = call(&mut words);
    (number, words)
}

fn quorums(rng: &mut Rng, seen: &mut [u64; 14]) {
    let (incoming, outgoing, rows) = (ids(rng, 8), ids(rng, 8), rows(rng));
    let answer = vec![77; rng.below(16).min(3) as usize];
    same(
        "majority_committed_index",
        seen,
        after(answer.clone(), |a| plain_quorum::majority_committed_index(&incoming, &rows, a)),
        after(answer.clone(), |a| words::majority_committed_index(&incoming, &rows, a)),
    );
    same(
        "joint_committed_index",
        seen,
        after(answer.clone(), |a| plain_quorum::joint_committed_index(&incoming, &outgoing, &rows, a)),
        after(answer, |a| words::joint_committed_index(&incoming, &outgoing, &rows, a)),
    );
}

fn windows(rng: &mut Rng, seen: &mut [u64; 14]) {
    let ring: Vec<u64> = (0..rng.below(6)).map(|_| rng.below(5)).collect();
    let state: Vec<u64> = (0..rng.below(40).min(5)).map(|_| rng.below(7)).collect();
    let number = rng.below(6);
    // State and ring in one list, so that both are compared.
    let both = [&state[..], &ring].concat();
    let place = state.len();
    let split = |call: fn(&mut [u64], &mut [u64], u64) -> u64| {
        after(both.clone(), |all| {
            let (state, ring) = all.split_at_mut(place);
            call(state, ring, number)
        })
    };
    same("inflights_add", seen, split(plain_window::add), split(words::inflights_add));
    same(
        "inflights_free_to",
        seen,
        split(|state, ring, to| plain_window::free_to(state, ring, to)),
        split(|state, ring, to| words::inflights_free_to(state, ring, to)),
    );
}

/// Stops the program where they differ, or where an answer never came up.
pub fn check() {
    let mut rng = Rng::new(12);
    let mut seen = [0; 14];
    for _ in 0..INPUTS {
        quorums(&mut rng, &mut seen);
        windows(&mut rng, &mut seen);
    }
    assert!([0, 1, 11, 12, 13].iter().all(|number| seen[*number] > 1000), "{seen:?}");
}

//! The cases of document 01, with the values that the document itself gives.

use crate::calls::{Call, Numbers, OUTGOING, PENDING, RING, ROWS, RUN, SETTLED, STATE, VOTERS};
use crate::check::{Checked, Checker};
use crate::input::Input;

/// What the document says of a case: the answer's words and, where it names them, words of the new state by
/// place.
enum Says {
    Refusal(u64),
    Answer(Vec<u64>, Vec<(usize, u64)>),
}

use Says::{Answer, Refusal};

pub fn run(ck: &mut Checker) -> Checked {
    for (input, says) in all() {
        ck.check(&input)?;
        let sheet = ck.plain();
        let agrees = match &says {
            Refusal(number) => sheet.refusal == *number,
            Answer(words, state) => {
                sheet.refusal == 0
                    && sheet.answer.starts_with(words)
                    && state.iter().all(|(place, word)| sheet.slices[STATE][*place] == *word)
            }
        };
        if !agrees {
            return Err(ck.mismatch(&input, "document 01 says otherwise".into()));
        }
    }
    Ok(())
}

fn all() -> Vec<(Input, Says)> {
    let mut all = log_cases();
    all.extend(quorum_cases());
    all.extend(window_cases());
    all
}

/// "Log A: start (0,0); terms of 1 to 5 are 1,1,2,2,3; offset 4; committed 2, persisted 3, applied 1; pending
/// room 4 records."
fn log_a(call: Call, numbers: Numbers, run: &[u64]) -> Input {
    let mut input = Input::new(call);
    input.set_state(&[0, 0, 4, 2, 2, 3, 1]);
    input.set_slice(SETTLED, &[1, 1, 1, 2, 2, 3]);
    input.set_slice(PENDING, &[2, 4, 3, 5, 0, 0, 0, 0]);
    input.set_slice(RUN, run);
    input.numbers = numbers;
    input
}

/// Places of words that the cases name.
const OFFSET: usize = 2;
const COUNT: usize = 3;
const COMMITTED: usize = 4;
const PERSISTED: usize = 5;

fn log_cases() -> Vec<(Input, Says)> {
    let term = |i, t| (log_a(Call::LogTerm, [i, 0, 0], &[]), Answer(vec![t], vec![]));
    let message =
        |idx, term, commit, run: &[u64], says| (log_a(Call::LogMaybeAppend, [idx, term, commit], run), says);
    let probe = |i, t, found: [u64; 3]| {
        (log_a(Call::LogFindConflictByTerm, [i, t, 0], &[]), Answer(found.into(), vec![]))
    };
    let mut from_ten = log_a(Call::LogFindConflictByTerm, [10, 3, 0], &[]);
    from_ten.set_state(&[10, 4, 11, 0, 10, 10, 10]);
    vec![
        term(0, 0),
        term(5, 3),
        term(6, 0),
        message(5, 3, 9, &[], Answer(vec![0, 5], vec![(COMMITTED, 5)])),
        message(
            3,
            2,
            4,
            &[4, 2, 4, 5, 4, 8, 6, 4, 9],
            Answer(vec![5, 6], vec![(OFFSET, 4), (COUNT, 3), (COMMITTED, 4), (PERSISTED, 3)]),
        ),
        message(2, 1, 2, &[3, 5, 7], Answer(vec![3, 3], vec![(OFFSET, 3), (PERSISTED, 2)])),
        message(1, 1, 0, &[2, 7, 7], Refusal(6)),
        message(5, 2, 0, &[], Refusal(5)),
        message(9, 0, 2, &[], Refusal(4)),
        message(5, 3, 0, &[6, 3, 6, 7, 3, 7], Answer(vec![6, 7], vec![(COUNT, 4)])),
        message(5, 3, 0, &[6, 3, 6, 7, 3, 7, 8, 3, 8], Refusal(7)),
        message(
            2,
            1,
            0,
            &[3, 2, 3],
            Answer(vec![0, 3], vec![(OFFSET, 4), (COUNT, 2), (COMMITTED, 2), (PERSISTED, 3)]),
        ),
        probe(5, 2, [4, 1, 2]),
        probe(5, 1, [2, 1, 1]),
        probe(5, 0, [0, 1, 0]),
        probe(6, 9, [6, 0, 0]),
        (from_ten, Answer(vec![9, 1, 0], vec![])),
    ]
}

/// Voters 1, 2, .. with these acknowledgements (MISSING for none) or votes.
const MISSING: u64 = u64::MAX;

fn quorum_cases() -> Vec<(Input, Says)> {
    let half = |call, acks: &[u64], votes: &[u64]| {
        let mut input = Input::new(call);
        let voters = acks.len().max(votes.len()) as u64;
        input.set_slice(VOTERS, &(1..=voters).collect::<Vec<_>>());
        for id in 1..=voters {
            let ack = acks.get(id as usize - 1).copied().unwrap_or(MISSING);
            let vote = votes.get(id as usize - 1).copied().unwrap_or(0);
            let row = if ack == MISSING { [id, 0, 0, vote] } else { [id, 1, ack, vote] };
            input.slices[ROWS].extend(row);
        }
        input
    };
    let index =
        |acks: &[u64], index| (half(Call::MajorityCommittedIndex, acks, &[]), Answer(vec![index, 0], vec![]));
    let vote =
        |votes: &[u64], result| (half(Call::MajorityVoteResult, &[], votes), Answer(vec![result], vec![]));
    let mut joint = half(Call::JointCommittedIndex, &[5, 4, 3, 3, 8], &[]);
    joint.set_slice(VOTERS, &[1, 2, 3]);
    joint.set_slice(OUTGOING, &[4, 5]);
    vec![
        index(&[2, 2, 2, 4, 5], 2),
        index(&[9, 7, 7, 3], 7),
        index(&[5, MISSING, MISSING], 0),
        (half(Call::MajorityCommittedIndex, &[], &[]), Answer(vec![u64::MAX, 1], vec![])),
        (joint, Answer(vec![3, 0], vec![])),
        vote(&[1, 1, 2, 0], 0),
        vote(&[1, 1, 2, 2], 1),
        vote(&[], 2),
    ]
}

/// "Cap 4, flights 5,5,6: set_cap(2) defers and is full; free_to(5) leaves 6, not full."
fn window_cases() -> Vec<(Input, Says)> {
    let window = |call, number, state: [u64; 5]| {
        let mut input = Input::new(call);
        input.set_state(&state);
        input.set_slice(RING, &[5, 5, 6, 0]);
        input.numbers[0] = number;
        input
    };
    let whole = |state: [u64; 5]| state.into_iter().enumerate().collect::<Vec<_>>();
    let deferred = [0, 3, 4, 1, 2];
    let freed = [2, 1, 4, 1, 2];
    vec![
        (window(Call::InflightsSetCap, 2, [0, 3, 4, 0, 0]), Answer(vec![], whole(deferred))),
        (window(Call::InflightsFull, 0, deferred), Answer(vec![1], vec![])),
        (window(Call::InflightsFreeTo, 5, deferred), Answer(vec![], whole(freed))),
        (window(Call::InflightsFull, 0, freed), Answer(vec![0], vec![])),
    ]
}

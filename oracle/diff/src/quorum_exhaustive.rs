//! Every small voter set with every acknowledgement and vote, from small to large.

use crate::calls::{Call, OUTGOING, ROWS, VOTERS};
use crate::check::{Checked, Checker};
use crate::input::Input;
use crate::report::Report;
use plain::quorum;

const MAX: u64 = u64::MAX;

/// How far a run goes.
pub struct Bounds {
    /// Voters of one half with small acknowledgements.
    pub half: usize,
    /// Ids that both halves of a joint configuration are drawn from, at most three a half.
    pub ids: u64,
}

pub fn run(ck: &mut Checker, report: &mut Report, bounds: &Bounds) -> Checked {
    checks(ck)?;
    report.phase("quorum: the checks and clear at the limits, and on lists of up to three ids", ck);
    everything_free(ck)?;
    report.phase("quorum: three peers, everything free", ck);
    one_half(ck, bounds.half)?;
    report.phase("quorum: one half with small acknowledgements, and with votes", ck);
    joint_pairs(ck, report, bounds.ids)?;
    report.phase("quorum: joint pairs of up to three and three", ck);
    limits(ck)?;
    report.phase("quorum: at the limits of voters, rows and numbers", ck);
    Ok(())
}

/// A row of four words: with an acknowledgement or none, with a vote.
fn row(id: u64, ack: Option<u64>, vote: u64) -> [u64; 4] {
    [id, ack.is_some() as u64, ack.unwrap_or(0), vote]
}

/// The questions about one half and the check of the rows, then the questions about both halves.
fn ask_majority(ck: &mut Checker, input: &mut Input) -> Checked {
    for call in [Call::MajorityCommittedIndex, Call::MajorityVoteResult] {
        input.set(call, [0; 3]);
        ck.check(input)?;
    }
    ask_rows(ck, input)
}

fn ask_rows(ck: &mut Checker, input: &mut Input) -> Checked {
    input.set(Call::RowsChecked, [0; 3]);
    ck.check(input)
}

fn ask_joint(ck: &mut Checker, input: &mut Input) -> Checked {
    for call in [Call::JointCommittedIndex, Call::JointVoteResult] {
        input.set(call, [0; 3]);
        ck.check(input)?;
    }
    Ok(())
}

fn ask_membership(ck: &mut Checker, input: &mut Input, ids: &[u64]) -> Checked {
    for call in [Call::JointIsSingleton, Call::JointIds] {
        input.set(call, [0; 3]);
        ck.check(input)?;
    }
    for id in ids {
        input.set(Call::JointContains, [*id, 0, 0]);
        ck.check(input)?;
    }
    ask_checks(ck, input)
}

/// The checks of one half and of both, and `clear`.
fn ask_checks(ck: &mut Checker, input: &mut Input) -> Checked {
    for call in [Call::VotersChecked, Call::JointChecked, Call::JointClear] {
        input.set(call, [0; 3]);
        ck.check(input)?;
    }
    Ok(())
}

/// The members of 1, 2, .. that a number's bits name.
fn subset(bits: u64) -> Vec<u64> {
    (0..64).filter(|k| bits >> k & 1 == 1).map(|k| k + 1).collect()
}

/// All numbers of so many digits, digit by digit, each below a base.
fn digits(base: u64, length: usize) -> impl Iterator<Item = Vec<u64>> {
    (0..base.pow(length as u32))
        .map(move |number| (0..length).map(|k| number / base.pow(k as u32) % base).collect())
}

/// As many voters and rows as may be, one more of each, an id twice; then lists of up to three ids of 0 to 3
/// in every order: as one half, as both, as the ids of the rows.
fn checks(ck: &mut Checker) -> Checked {
    let mut input = Input::new(Call::RowsChecked);
    let (voters, rows) = (quorum::VOTERS as u64, quorum::ROWS as u64);
    for (more, repeated) in [(0, None), (1, None), (0, Some(0))] {
        large(&mut input, voters + more, rows + more, repeated, repeated, 0);
        input.slices[OUTGOING].clear();
        ask_rows(ck, &mut input)?;
        ask_checks(ck, &mut input)?;
        input.slices.swap(VOTERS, OUTGOING);
        ask_checks(ck, &mut input)?;
    }
    let lists: Vec<Vec<u64>> = (0..=3).flat_map(|length| digits(4, length)).collect();
    for incoming in &lists {
        input.set_slice(VOTERS, incoming);
        input.slices[ROWS] = incoming.iter().flat_map(|id| row(*id, None, 0)).collect();
        ask_rows(ck, &mut input)?;
        for outgoing in &lists {
            input.set_slice(OUTGOING, outgoing);
            ask_checks(ck, &mut input)?;
        }
    }
    Ok(())
}

/// Three peers: each without a row, or with any acknowledgement of 0 to 3 or none and any vote; every set of
/// voters.
fn everything_free(ck: &mut Checker) -> Checked {
    let mut input = Input::new(Call::MajorityCommittedIndex);
    for voters in 0..8 {
        input.set_slice(VOTERS, &subset(voters));
        for choice in digits(16, 3) {
            input.slices[ROWS].clear();
            for (id, digit) in (1..).zip(&choice) {
                if *digit > 0 {
                    let ack = (digit - 1) % 5;
                    input.slices[ROWS].extend(row(id, (ack > 0).then(|| ack - 1), (digit - 1) / 5));
                }
            }
            ask_majority(ck, &mut input)?;
        }
    }
    Ok(())
}

/// Up to seven voters (and eight, which is refused): acknowledgements missing or 0 to 2, then votes.
fn one_half(ck: &mut Checker, most: usize) -> Checked {
    let mut input = Input::new(Call::MajorityCommittedIndex);
    for voters in 0..=most {
        let ids: Vec<u64> = (1..=voters as u64).collect();
        input.set_slice(VOTERS, &ids);
        for acks in digits(4, voters) {
            input.slices[ROWS].clear();
            for (id, ack) in ids.iter().zip(&acks) {
                input.slices[ROWS].extend(row(*id, (*ack > 0).then(|| ack - 1), 0));
            }
            input.set(Call::MajorityCommittedIndex, [0; 3]);
            ck.check(&input)?;
        }
        for votes in digits(3, voters) {
            input.slices[ROWS].clear();
            for (id, vote) in ids.iter().zip(&votes) {
                input.slices[ROWS].extend(row(*id, None, *vote));
            }
            input.set(Call::MajorityVoteResult, [0; 3]);
            ck.check(&input)?;
        }
    }
    Ok(())
}

/// Pairs of halves with up to three voters each, overlapping in every way: acknowledgements missing or 0 to
/// 2, votes.
fn joint_pairs(ck: &mut Checker, report: &mut Report, ids: u64) -> Checked {
    let halves: Vec<Vec<u64>> = (0..1 << ids).map(subset).filter(|half| half.len() <= 3).collect();
    let mut input = Input::new(Call::JointCommittedIndex);
    for incoming in &halves {
        for outgoing in &halves {
            report.alive("joint pairs", ck);
            input.set_slice(VOTERS, incoming);
            input.set_slice(OUTGOING, outgoing);
            let mut both = [&incoming[..], &outgoing[..]].concat();
            both.sort_unstable();
            both.dedup();
            ask_membership(ck, &mut input, &(0..=ids + 1).collect::<Vec<_>>())?;
            for acks in digits(4, both.len()) {
                input.slices[ROWS].clear();
                for (id, ack) in both.iter().zip(&acks) {
                    input.slices[ROWS].extend(row(*id, (*ack > 0).then(|| ack - 1), 0));
                }
                input.set(Call::JointCommittedIndex, [0; 3]);
                ck.check(&input)?;
            }
            for votes in digits(3, both.len()) {
                input.slices[ROWS].clear();
                for (id, vote) in both.iter().zip(&votes) {
                    input.slices[ROWS].extend(row(*id, None, *vote));
                }
                input.set(Call::JointVoteResult, [0; 3]);
                ck.check(&input)?;
            }
        }
    }
    Ok(())
}

/// 7 and 8 voters, 64 and 65 rows, repeated ids, words behind the last row, the largest numbers, short
/// answers.
fn limits(ck: &mut Checker) -> Checked {
    let mut input = Input::new(Call::MajorityCommittedIndex);
    for voters in quorum::VOTERS as u64 - 1..=quorum::VOTERS as u64 + 2 {
        for rows in quorum::ROWS as u64 - 1..=quorum::ROWS as u64 + 2 {
            for repeated_voter in [None, Some(0), Some(voters - 2)] {
                for repeated_row in [None, Some(0), Some(rows - 2)] {
                    for odd_words in 0..4 {
                        large(&mut input, voters, rows, repeated_voter, repeated_row, odd_words);
                        for outgoing in [vec![], vec![MAX], (1..=voters).collect(), vec![3, 3]] {
                            input.slices[OUTGOING] = outgoing;
                            ask_majority(ck, &mut input)?;
                            ask_joint(ck, &mut input)?;
                            ask_membership(ck, &mut input, &[0, 1, voters, MAX])?;
                        }
                    }
                }
            }
        }
    }
    short_answers(ck)
}

/// Many voters and rows with numbers at the end of their range; where asked, the last but one id stands
/// twice.
fn large(
    input: &mut Input,
    voters: u64,
    rows: u64,
    repeated_voter: Option<u64>,
    repeated_row: Option<u64>,
    odd_words: u64,
) {
    let mut ids: Vec<u64> = (1..=voters).collect();
    if let Some(k) = repeated_voter {
        ids[voters as usize - 1] = ids[k as usize];
    }
    input.slices[VOTERS] = ids;
    input.slices[ROWS].clear();
    for id in 1..=rows {
        let ack = [Some(MAX), None, Some(MAX - 1), Some(0)][id as usize % 4];
        input.slices[ROWS].extend(row(id, ack, id % 3));
    }
    if let Some(k) = repeated_row {
        input.slices[ROWS][4 * (rows as usize - 1)] = k + 1;
    }
    input.slices[ROWS].extend((0..odd_words).map(|_| 1));
}

fn short_answers(ck: &mut Checker) -> Checked {
    let mut input = Input::new(Call::JointIds);
    for voters in [vec![], vec![1], vec![1, 1]] {
        input.set_slice(VOTERS, &voters);
        input.set_slice(OUTGOING, &[2, 3]);
        input.set_slice(ROWS, &[]);
        for call in crate::calls::CALLS.iter().filter(|call| call.family() == crate::calls::Family::Quorum) {
            for room in 0..=call.form().answer {
                input.set(*call, [1, 0, 0]);
                input.set_room(room);
                ck.check(&input)?;
            }
        }
    }
    Ok(())
}

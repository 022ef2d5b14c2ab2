//! The committed index of a majority and of a joint quorum.

use crate::rng::Rng;
use crate::{plain_quorum, Load, Side};
use fxhash::FxHasher;
use raft_crate::{joint, AckedIndexer, Index, JointConfig, MajorityConfig};
use std::collections::HashMap;
use std::hash::BuildHasherDefault;
use std::time::Instant;

const QUESTIONS: u64 = 500;
/// Each question is asked this often in a round: few enough questions to stay near the processor.
const PASSES: usize = 20;

/// Acknowledgements by id, hashed as the crate's tracker hashes its peers.
struct Acks(HashMap<u64, Index, BuildHasherDefault<FxHasher>>);

impl AckedIndexer for Acks {
    fn acked_index(&self, voter_id: u64) -> Option<Index> {
        self.0.get(&voter_id).copied()
    }
}

/// The peers' acknowledgements in both forms, made before anything is timed.
struct Question {
    rows: Vec<u64>,
    acks: Acks,
}

impl Question {
    /// Acknowledgements lie near each other; one in sixteen is missing.
    fn random(peers: u64, rng: &mut Rng) -> Question {
        let acks: Vec<_> = (1..=peers).map(|id| (id, rng.below(16) != 0, 1_000 + rng.below(100))).collect();
        Question {
            rows: acks.iter().flat_map(|(id, known, index)| [*id, u64::from(*known), *index, 0]).collect(),
            acks: Acks(acks.iter().filter(|a| a.1).map(|a| (a.0, Index { index: a.2, group_id: 0 })).collect()),
        }
    }
}

/// The voters in both forms.
struct Voters {
    incoming: Vec<u64>,
    outgoing: Vec<u64>,
    majority: MajorityConfig,
    joint: JointConfig,
}

impl Voters {
    fn new(incoming: &[u64], outgoing: &[u64]) -> Voters {
        let set = |ids: &[u64]| ids.iter().copied().collect();
        Voters {
            incoming: incoming.to_vec(),
            outgoing: outgoing.to_vec(),
            majority: MajorityConfig::new(set(incoming)),
            joint: joint(set(incoming), set(outgoing)),
        }
    }
}

/// Writes the index and the flag; 0 or the refusal's number.
type CommittedIndex = fn(&Voters, &Question, &mut [u64; 2]) -> u64;

#[inline(never)]
fn majority_by_engine(v: &Voters, q: &Question, answer: &mut [u64; 2]) -> u64 {
    engine::calls::majority_committed_index(&v.incoming, &q.rows, answer)
}

#[inline(never)]
fn majority_by_plain(v: &Voters, q: &Question, answer: &mut [u64; 2]) -> u64 {
    plain_quorum::majority_committed_index(&v.incoming, &q.rows, answer)
}

#[inline(never)]
fn majority_by_rules(v: &Voters, q: &Question, answer: &mut [u64; 2]) -> u64 {
    plain::words::majority_committed_index(&v.incoming, &q.rows, answer)
}

#[inline(never)]
fn majority_by_crate(v: &Voters, q: &Question, answer: &mut [u64; 2]) -> u64 {
    let (index, flag) = v.majority.committed_index(false, &q.acks);
    *answer = [index, u64::from(flag)];
    0
}

#[inline(never)]
fn joint_by_engine(v: &Voters, q: &Question, answer: &mut [u64; 2]) -> u64 {
    engine::calls::joint_committed_index(&v.incoming, &v.outgoing, &q.rows, answer)
}

#[inline(never)]
fn joint_by_plain(v: &Voters, q: &Question, answer: &mut [u64; 2]) -> u64 {
    plain_quorum::joint_committed_index(&v.incoming, &v.outgoing, &q.rows, answer)
}

#[inline(never)]
fn joint_by_rules(v: &Voters, q: &Question, answer: &mut [u64; 2]) -> u64 {
    plain::words::joint_committed_index(&v.incoming, &v.outgoing, &q.rows, answer)
}

#[inline(never)]
fn joint_by_crate(v: &Voters, q: &Question, answer: &mut [u64; 2]) -> u64 {
    let (index, flag) = v.joint.committed_index(false, &q.acks);
    *answer = [index, u64::from(flag)];
    0
}

fn majority_of(side: Side) -> CommittedIndex {
    match side {
        Side::Engine => majority_by_engine,
        Side::Plain => majority_by_plain,
        Side::Rules => majority_by_rules,
        Side::Crate => majority_by_crate,
    }
}

fn joint_of(side: Side) -> CommittedIndex {
    match side {
        Side::Engine => joint_by_engine,
        Side::Plain => joint_by_plain,
        Side::Rules => joint_by_rules,
        Side::Crate => joint_by_crate,
    }
}

pub struct Indices {
    name: &'static str,
    call_of: fn(Side) -> CommittedIndex,
    voters: Voters,
    questions: Vec<Question>,
}

pub fn majority() -> Indices {
    Indices::new("majority of 5", majority_of, Voters::new(&[1, 2, 3, 4, 5], &[]), 5)
}

/// One voter is in both halves.
pub fn joint_of_5_and_3() -> Indices {
    Indices::new("joint of 5 and 3", joint_of, Voters::new(&[1, 2, 3, 4, 5], &[5, 6, 7]), 7)
}

impl Indices {
    fn new(name: &'static str, call_of: fn(Side) -> CommittedIndex, voters: Voters, peers: u64) -> Indices {
        let mut rng = Rng::new(7);
        let questions = (0..QUESTIONS).map(|_| Question::random(peers, &mut rng)).collect();
        Indices { name, call_of, voters, questions }
    }
}

impl Load for Indices {
    fn name(&self) -> &'static str {
        self.name
    }

    fn compare(&mut self) {
        for q in &self.questions {
            let answers = Side::ALL.map(|side| {
                let mut answer = [0; 2];
                let refused = (self.call_of)(side)(&self.voters, q, &mut answer);
                (refused, answer)
            });
            assert!(answers.iter().all(|answer| *answer == (0, answers[0].1)), "{answers:?}");
        }
    }

    fn round(&mut self, side: Side) -> f64 {
        let call = (self.call_of)(side);
        let mut answer = [0; 2];
        let mut refused = 0;
        let begun = Instant::now();
        for _ in 0..PASSES {
            for q in &self.questions {
                refused |= call(&self.voters, q, &mut answer);
            }
        }
        let nanos = begun.elapsed().as_nanos() as f64;
        assert_eq!(refused, 0);
        nanos / (PASSES * self.questions.len()) as f64
    }
}

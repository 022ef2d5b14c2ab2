//! The crate's quorums on the inputs of the other sides.

use crate::calls::{Call, OUTGOING, ROWS, VOTERS};
use crate::crate_side::Reply;
use crate::input::Input;
use crate::panics::guarded;
use plain::words::ROW;
use raft_crate::{joint, sizes, AckedIndexer, HashSet, Index, MajorityConfig, VoteResult};

/// The peer rows, looked up by id.
struct Rows<'a>(&'a [u64]);

impl Rows<'_> {
    fn row(&self, id: u64) -> Option<&[u64]> {
        self.0.chunks_exact(ROW).find(|row| row[0] == id)
    }

    fn vote(&self, id: u64) -> Option<bool> {
        match self.row(id)?[3] {
            1 => Some(true),
            2 => Some(false),
            _ => None,
        }
    }
}

impl AckedIndexer for Rows<'_> {
    fn acked_index(&self, voter_id: u64) -> Option<Index> {
        let row = self.row(voter_id)?;
        (row[1] != 0).then_some(Index { index: row[2], group_id: 0 })
    }
}

fn set(ids: &[u64]) -> HashSet<u64> {
    ids.iter().copied().collect()
}

fn vote_word(vote: VoteResult) -> u64 {
    match vote {
        VoteResult::Pending => 0,
        VoteResult::Lost => 1,
        VoteResult::Won => 2,
    }
}

/// How far both halves have acknowledged.
pub fn joint_index(input: &Input) -> u64 {
    let config = joint(set(&input.slices[VOTERS]), set(&input.slices[OUTGOING]));
    config.committed_index(false, &Rows(&input.slices[ROWS])).0
}

/// Makes the call. No call of the quorums stops in the crate, so that any panic is odd.
pub fn call(input: &Input) -> Reply {
    guarded(|| Reply::Words(answer(input))).unwrap_or_else(Reply::Odd)
}

fn answer(input: &Input) -> Vec<u64> {
    let rows = Rows(&input.slices[ROWS]);
    let voters = || MajorityConfig::new(set(&input.slices[VOTERS]));
    let both = || joint(set(&input.slices[VOTERS]), set(&input.slices[OUTGOING]));
    match input.call {
        Call::MajorityCommittedIndex => {
            let (index, flag) = voters().committed_index(false, &rows);
            vec![index, flag as u64]
        }
        Call::JointCommittedIndex => {
            let (index, flag) = both().committed_index(false, &rows);
            vec![index, flag as u64]
        }
        Call::MajorityVoteResult => vec![vote_word(voters().vote_result(|id| rows.vote(id)))],
        Call::JointVoteResult => vec![vote_word(both().vote_result(|id| rows.vote(id)))],
        Call::JointIsSingleton => vec![both().is_singleton() as u64],
        Call::JointContains => vec![both().contains(input.numbers[0]) as u64],
        Call::JointIds => {
            // In the hash set's order: sorted here, never made unique, so that an id given twice would show.
            let config = both();
            let mut ids: Vec<u64> = config.ids().iter().collect();
            ids.sort_unstable();
            let mut words = vec![config.ids().len() as u64];
            words.extend(ids);
            words.resize(plain::words::IDS, 0);
            words
        }
        Call::JointClear => {
            let mut config = both();
            config.clear();
            let (incoming, outgoing) = sizes(&config);
            vec![incoming as u64, outgoing as u64]
        }
        _ => unreachable!("not a call of the crate's quorums"),
    }
}

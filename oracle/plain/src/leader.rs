//! The leader's commit step (raft.rs, `maybe_commit`): the joint committed index, offered to the log with the
//! leader's term. A broken log (1) comes before a broken configuration (12).

use crate::log::{self, Log};
use crate::quorum::{self, Peer};
use crate::Answer;

pub fn maybe_commit(
    log: &mut Log,
    settled: &[u64],
    pending: &[u64],
    term: u64,
    incoming: &[u64],
    outgoing: &[u64],
    rows: &[Peer],
) -> Answer<bool> {
    log.check(settled, pending)?;
    let (index, _) = quorum::joint_committed_index(incoming, outgoing, rows)?;
    log::maybe_commit(log, settled, pending, index, term)
}

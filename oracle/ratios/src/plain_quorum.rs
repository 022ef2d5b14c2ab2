//! The committed index by the rules of document 01 in the obvious way, over the words that the engine reads and with no
//! allocation. (oracle/plain has the same rules to be read: it makes a list of rows and one of acknowledgements first.)

use plain::quorum::{ROWS, VOTERS};
use plain::words::ROW;

const BAD_INPUT: u64 = 1;
const BAD_QUORUM: u64 = 12;

fn bad_voters(voters: &[u64]) -> bool {
    voters.len() > VOTERS || (1..voters.len()).any(|k| voters[..k].contains(&voters[k]))
}

fn bad_rows(rows: &[[u64; ROW]]) -> bool {
    rows.len() > ROWS || (1..rows.len()).any(|k| rows[..k].iter().any(|row| row[0] == rows[k][0]))
}

/// A missing row or acknowledgement counts as 0.
fn ack_of(rows: &[[u64; ROW]], id: u64) -> u64 {
    match rows.iter().find(|row| row[0] == id) {
        Some(row) if row[1] != 0 => row[2],
        _ => 0,
    }
}

/// The quorum-th largest acknowledgement, and whether nobody had a say.
fn half_index(voters: &[u64], rows: &[[u64; ROW]]) -> (u64, bool) {
    if voters.is_empty() {
        return (u64::MAX, true);
    }
    let mut acks = [0; VOTERS];
    let acks = &mut acks[..voters.len()];
    for (ack, id) in acks.iter_mut().zip(voters) {
        *ack = ack_of(rows, *id);
    }
    acks.sort_unstable();
    (acks[acks.len() - (acks.len() / 2 + 1)], false)
}

#[inline(never)]
pub fn majority_committed_index(voters: &[u64], rows: &[u64], answer: &mut [u64]) -> u64 {
    if answer.len() < 2 {
        return BAD_INPUT;
    }
    let rows = rows.as_chunks().0;
    if bad_voters(voters) || bad_rows(rows) {
        return BAD_QUORUM;
    }
    let (index, free) = half_index(voters, rows);
    answer[..2].copy_from_slice(&[index, u64::from(free)]);
    0
}

#[inline(never)]
pub fn joint_committed_index(incoming: &[u64], outgoing: &[u64], rows: &[u64], answer: &mut [u64]) -> u64 {
    if answer.len() < 2 {
        return BAD_INPUT;
    }
    let rows = rows.as_chunks().0;
    if bad_voters(incoming) || bad_voters(outgoing) || bad_rows(rows) {
        return BAD_QUORUM;
    }
    let (i, i_free) = half_index(incoming, rows);
    let (o, o_free) = half_index(outgoing, rows);
    answer[..2].copy_from_slice(&[i.min(o), u64::from(i_free && o_free)]);
    0
}

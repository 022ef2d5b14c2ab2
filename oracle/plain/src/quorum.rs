//! Quorums: document 01, "Modules in port order" 1 (Majority) and 2 (Joint), the peer rows of "State and stores",
//! and refusal 12.
//!
//! "`HashSet`: a duplicate-free array with a count. `AckedIndexer`: the peer rows." Here a voter set is a slice of
//! ids; that it is duplicate-free and short enough is looked at in each call.

use crate::{first_refusal, Answer};

/// "A peer row holds its acknowledgement as missing or a number, and its vote as missing, yes or no."
#[derive(Debug, Clone, Copy, PartialEq, Eq)]
pub struct Peer {
    pub id: u64,
    pub ack: Option<u64>,
    pub vote: Option<bool>,
}

/// What a vote has come to.
#[derive(Debug, Clone, Copy, PartialEq, Eq)]
pub enum VoteResult {
    Pending,
    Lost,
    Won,
}

/// "A voter set of 0 to 7 different ids."
pub const VOTERS: usize = 7;

/// "Quorum questions read a lent list of peer rows, at most 64"
pub const ROWS: usize = 64;

// Refusal 12: "over 7 voters, a repeated voter id, over 64 rows, a repeated row id".

/// 12: "over 7 voters"
fn too_many_voters(voters: &[u64]) -> bool {
    voters.len() > VOTERS
}

/// An id that stands in the list a second time.
fn repeats(ids: &[u64]) -> bool {
    (0..ids.len()).any(|at| ids[..at].contains(&ids[at]))
}

/// 12: "a repeated voter id"
fn repeated_voter(voters: &[u64]) -> bool {
    repeats(voters)
}

/// 12: "over 64 rows"
fn too_many_rows(rows: &[Peer]) -> bool {
    rows.len() > ROWS
}

/// 12: "a repeated row id"
fn repeated_row(rows: &[Peer]) -> bool {
    let ids: Vec<u64> = rows.iter().map(|row| row.id).collect();
    repeats(&ids)
}

/// Refusal 12 of a voter set.
pub fn voters_checked(voters: &[u64]) -> Answer<()> {
    first_refusal(&[
        (12, too_many_voters(voters)), // "over 7 voters"
        (12, repeated_voter(voters)),  // "a repeated voter id"
    ])
}

/// Refusal 12 of two voter sets. An id in both halves is not repeated: each half is a set of its own.
pub fn joint_checked(incoming: &[u64], outgoing: &[u64]) -> Answer<()> {
    voters_checked(incoming)?;
    voters_checked(outgoing)
}

/// Refusal 12 of the peer rows: "given exactly when the table says: also for an empty voter set with 65 rows, or a
/// repeated row id of no voter" (open points).
pub fn rows_checked(rows: &[Peer]) -> Answer<()> {
    first_refusal(&[
        (12, too_many_rows(rows)), // "over 64 rows"
        (12, repeated_row(rows)),  // "a repeated row id"
    ])
}

// The rows of voters.

/// A voter's row, if there is one: "looked up by id".
fn row_of(rows: &[Peer], voter: u64) -> Option<Peer> {
    rows.iter().copied().find(|row| row.id == voter)
}

/// "a missing one counts as 0", "a voter without a row is missing everywhere."
fn acknowledgement(rows: &[Peer], voter: u64) -> u64 {
    let ack = row_of(rows, voter).and_then(|row| row.ack);
    ack.unwrap_or(0)
}

/// A voter's vote: missing, yes or no; "a voter without a row is missing everywhere."
fn vote(rows: &[Peer], voter: u64) -> Option<bool> {
    row_of(rows, voter).and_then(|row| row.vote)
}

/// How many voters voted so.
fn votes(voters: &[u64], rows: &[Peer], wanted: Option<bool>) -> usize {
    voters.iter().filter(|voter| vote(rows, **voter) == wanted).count()
}

// Majority.

/// "The quorum of n voters is n/2 rounded down, plus 1."
fn quorum(n: usize) -> usize {
    let half = n / 2;
    half + 1
}

/// The voters' acknowledgements, the largest first.
fn acknowledgements_falling(voters: &[u64], rows: &[Peer]) -> Vec<u64> {
    let mut acks: Vec<u64> = voters.iter().map(|voter| acknowledgement(rows, *voter)).collect();
    acks.sort();
    acks.reverse();
    acks
}

/// "The committed index is the quorum-th largest acknowledgement; a missing one counts as 0. An empty set gives
/// (u64::MAX, true); any other gives (index, false)."
fn committed_index(voters: &[u64], rows: &[Peer]) -> (u64, bool) {
    if voters.is_empty() {
        return (u64::MAX, true);
    }
    let acks = acknowledgements_falling(voters, rows);
    let place = quorum(voters.len()) - 1;
    (acks[place], false)
}

/// "Votes: an empty set is Won; otherwise Won if yes reaches the quorum, else Pending if yes plus missing reaches
/// it, else Lost."
fn vote_result(voters: &[u64], rows: &[Peer]) -> VoteResult {
    if voters.is_empty() {
        return VoteResult::Won;
    }
    let quorum = quorum(voters.len());
    let yes = votes(voters, rows, Some(true));
    let missing = votes(voters, rows, None);
    if yes >= quorum {
        return VoteResult::Won;
    }
    if yes + missing >= quorum {
        return VoteResult::Pending;
    }
    VoteResult::Lost
}

/// "The committed index is the quorum-th largest acknowledgement"
pub fn majority_committed_index(voters: &[u64], rows: &[Peer]) -> Answer<(u64, bool)> {
    voters_checked(voters)?;
    rows_checked(rows)?;
    Ok(committed_index(voters, rows))
}

/// "Votes: an empty set is Won; otherwise Won if yes reaches the quorum, else Pending if yes plus missing reaches
/// it, else Lost."
pub fn majority_vote_result(voters: &[u64], rows: &[Peer]) -> Answer<VoteResult> {
    voters_checked(voters)?;
    rows_checked(rows)?;
    Ok(vote_result(voters, rows))
}

// Joint.

/// "Two sets, incoming and outgoing. The index is the smaller of the two, the flag is true only if both are."
pub fn joint_committed_index(incoming: &[u64], outgoing: &[u64], rows: &[Peer]) -> Answer<(u64, bool)> {
    joint_checked(incoming, outgoing)?;
    rows_checked(rows)?;
    let (incoming_index, incoming_flag) = committed_index(incoming, rows);
    let (outgoing_index, outgoing_flag) = committed_index(outgoing, rows);
    let index = incoming_index.min(outgoing_index);
    let flag = incoming_flag && outgoing_flag;
    Ok((index, flag))
}

/// "Won if Won in both, Lost if Lost in either, else Pending."
fn joined(incoming: VoteResult, outgoing: VoteResult) -> VoteResult {
    if incoming == VoteResult::Won && outgoing == VoteResult::Won {
        return VoteResult::Won;
    }
    if incoming == VoteResult::Lost || outgoing == VoteResult::Lost {
        return VoteResult::Lost;
    }
    VoteResult::Pending
}

/// "Won if Won in both, Lost if Lost in either, else Pending."
pub fn joint_vote_result(incoming: &[u64], outgoing: &[u64], rows: &[Peer]) -> Answer<VoteResult> {
    joint_checked(incoming, outgoing)?;
    rows_checked(rows)?;
    let incoming_result = vote_result(incoming, rows);
    let outgoing_result = vote_result(outgoing, rows);
    Ok(joined(incoming_result, outgoing_result))
}

/// "`is_singleton`, `contains`, `clear` and the ids of both, each once." The document only names `is_singleton`;
/// decided: exactly one incoming voter and no outgoing voter.
pub fn joint_is_singleton(incoming: &[u64], outgoing: &[u64]) -> Answer<bool> {
    joint_checked(incoming, outgoing)?;
    let one_incoming = incoming.len() == 1;
    let no_outgoing = outgoing.is_empty();
    Ok(one_incoming && no_outgoing)
}

/// "`is_singleton`, `contains`, `clear` and the ids of both, each once." An id is contained if a half holds it.
pub fn joint_contains(incoming: &[u64], outgoing: &[u64], id: u64) -> Answer<bool> {
    joint_checked(incoming, outgoing)?;
    let in_incoming = incoming.contains(&id);
    let in_outgoing = outgoing.contains(&id);
    Ok(in_incoming || in_outgoing)
}

/// "the ids of both, each once. We list ids in rising order"
pub fn joint_ids(incoming: &[u64], outgoing: &[u64]) -> Answer<Vec<u64>> {
    joint_checked(incoming, outgoing)?;
    let mut ids = [incoming, outgoing].concat();
    ids.sort();
    ids.dedup();
    Ok(ids)
}

/// "`clear` reads nothing and refuses nothing" (open points): the configuration after it, both halves empty.
pub fn joint_clear(_incoming: &[u64], _outgoing: &[u64]) -> Answer<(Vec<u64>, Vec<u64>)> {
    Ok((Vec::new(), Vec::new()))
}

#[cfg(test)]
mod tests {
    use super::*;

    /// Rows of ids 1, 2, 3 and so on with these acknowledgements.
    fn acked(acks: &[Option<u64>]) -> Vec<Peer> {
        (1..).zip(acks).map(|(id, ack)| Peer { id, ack: *ack, vote: None }).collect()
    }

    /// Rows of ids 1, 2, 3 and so on with these votes.
    fn voted(votes: &[Option<bool>]) -> Vec<Peer> {
        (1..).zip(votes).map(|(id, vote)| Peer { id, ack: None, vote: *vote }).collect()
    }

    fn bare_rows(count: u64) -> Vec<Peer> {
        (0..count).map(|id| Peer { id, ack: Some(id), vote: Some(true) }).collect()
    }

    /// "P: acknowledgements 2,2,2,4,5 give 2; 9,7,7,3 give 7; one 5 and two missing give 0."
    #[test]
    fn case_acknowledgements() {
        let rows = acked(&[Some(2), Some(2), Some(2), Some(4), Some(5)]);
        assert_eq!(majority_committed_index(&[1, 2, 3, 4, 5], &rows), Ok((2, false)));
        let rows = acked(&[Some(9), Some(7), Some(7), Some(3)]);
        assert_eq!(majority_committed_index(&[1, 2, 3, 4], &rows), Ok((7, false)));
        let rows = acked(&[Some(5), None]);
        assert_eq!(majority_committed_index(&[1, 2, 3], &rows), Ok((0, false)));
    }

    /// "P: incoming 5,4,3 gives 4, outgoing 3,8 gives 3, joint 3."
    #[test]
    fn case_joint() {
        let rows = acked(&[Some(5), Some(4), Some(3), Some(8)]);
        assert_eq!(majority_committed_index(&[1, 2, 3], &rows), Ok((4, false)));
        assert_eq!(majority_committed_index(&[3, 4], &rows), Ok((3, false)));
        assert_eq!(joint_committed_index(&[1, 2, 3], &[3, 4], &rows), Ok((3, false)));
    }

    /// "P: four voters, two yes, one no: Pending; two yes, two no: Lost."
    #[test]
    fn case_votes() {
        let rows = voted(&[Some(true), Some(true), Some(false)]);
        assert_eq!(majority_vote_result(&[1, 2, 3, 4], &rows), Ok(VoteResult::Pending));
        let rows = voted(&[Some(true), Some(true), Some(false), Some(false)]);
        assert_eq!(majority_vote_result(&[1, 2, 3, 4], &rows), Ok(VoteResult::Lost));
        let rows = voted(&[Some(true), Some(true), Some(true), Some(false)]);
        assert_eq!(majority_vote_result(&[1, 2, 3, 4], &rows), Ok(VoteResult::Won));
    }

    /// "An empty set gives (u64::MAX, true)"; "an empty set is Won"; "It is the largest number that a majority of
    /// every nonempty half has reached, u64::MAX if both are empty."
    #[test]
    fn empty_halves() {
        let rows = acked(&[Some(5)]);
        assert_eq!(majority_committed_index(&[], &rows), Ok((u64::MAX, true)));
        assert_eq!(majority_vote_result(&[], &rows), Ok(VoteResult::Won));
        assert_eq!(joint_committed_index(&[], &[], &rows), Ok((u64::MAX, true)));
        assert_eq!(joint_committed_index(&[1], &[], &rows), Ok((5, false)));
        assert_eq!(joint_committed_index(&[], &[1], &rows), Ok((5, false)));
        assert_eq!(joint_vote_result(&[], &[], &rows), Ok(VoteResult::Won));
        assert_eq!(joint_vote_result(&[1], &[], &rows), Ok(VoteResult::Pending));
    }

    /// "Won if Won in both, Lost if Lost in either, else Pending."
    #[test]
    fn joint_votes() {
        use VoteResult::{Lost, Pending, Won};
        let rows = voted(&[Some(true), Some(false), None]);
        let table = [(1, 1, Won), (1, 2, Lost), (1, 3, Pending), (2, 1, Lost), (2, 2, Lost)];
        let further = [(2, 3, Lost), (3, 1, Pending), (3, 2, Lost), (3, 3, Pending)];
        for (incoming, outgoing, result) in table.into_iter().chain(further) {
            assert_eq!(joint_vote_result(&[incoming], &[outgoing], &rows), Ok(result));
        }
    }

    /// "over 7 voters, a repeated voter id, over 64 rows, a repeated row id"
    #[test]
    fn refusal_12() {
        assert_eq!(voters_checked(&[1, 2, 3, 4, 5, 6, 7]), Ok(()));
        assert_eq!(voters_checked(&[1, 2, 3, 4, 5, 6, 7, 8]), Err(12));
        assert_eq!(voters_checked(&[1, 2, 1]), Err(12));
        assert_eq!(joint_checked(&[1, 2], &[2, 3]), Ok(()));
        assert_eq!(joint_checked(&[1, 1], &[]), Err(12));
        assert_eq!(joint_checked(&[], &[1, 1]), Err(12));
        assert_eq!(rows_checked(&bare_rows(64)), Ok(()));
        assert_eq!(rows_checked(&bare_rows(65)), Err(12));
        assert_eq!(rows_checked(&[bare_rows(3), bare_rows(1)].concat()), Err(12));
    }

    /// "also for an empty voter set with 65 rows, or a repeated row id of no voter, and for `ids`, `contains`,
    /// `is_singleton` of a broken set. `clear` reads nothing and refuses nothing"
    #[test]
    fn refusal_12_where_the_list_is_not_needed() {
        assert_eq!(majority_committed_index(&[], &bare_rows(65)), Err(12));
        assert_eq!(majority_vote_result(&[], &bare_rows(65)), Err(12));
        let twice = [bare_rows(1), bare_rows(1)].concat();
        assert_eq!(joint_committed_index(&[7], &[], &twice), Err(12));
        assert_eq!(joint_vote_result(&[7], &[], &twice), Err(12));
        assert_eq!(joint_ids(&[1, 1], &[]), Err(12));
        assert_eq!(joint_contains(&[1], &[2, 2], 1), Err(12));
        assert_eq!(joint_is_singleton(&[1], &[2, 2]), Err(12));
        assert_eq!(joint_clear(&[1, 1], &[2; 9]), Ok((vec![], vec![])));
    }

    /// "`is_singleton`, `contains`, `clear` and the ids of both, each once. We list ids in rising order"
    #[test]
    fn sets() {
        assert_eq!(joint_is_singleton(&[4], &[]), Ok(true));
        assert_eq!(joint_is_singleton(&[], &[4]), Ok(false));
        assert_eq!(joint_is_singleton(&[4], &[4]), Ok(false));
        assert_eq!(joint_is_singleton(&[4, 5], &[]), Ok(false));
        assert_eq!(joint_contains(&[4], &[5], 4), Ok(true));
        assert_eq!(joint_contains(&[4], &[5], 5), Ok(true));
        assert_eq!(joint_contains(&[4], &[5], 6), Ok(false));
        assert_eq!(joint_ids(&[9, 3, u64::MAX], &[3, 0]), Ok(vec![0, 3, 9, u64::MAX]));
    }
}

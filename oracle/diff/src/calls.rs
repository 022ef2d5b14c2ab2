//! The calls of include/deckplover.h: what each is handed, and how a side is run on it.

/// The slices that a call may be lent, by place. Each call uses some of them (see the table).
pub const SLICES: usize = 6;
pub type Slices = [Vec<u64>; SLICES];
/// A log's or a window's state.
pub const STATE: usize = 0;
pub const SETTLED: usize = 1;
pub const RING: usize = 1;
pub const PENDING: usize = 2;
pub const RUN: usize = 3;
/// The voters of a majority, or the incoming half.
pub const VOTERS: usize = 3;
pub const OUTGOING: usize = 4;
pub const ROWS: usize = 5;

/// Up to three numbers beside the slices.
pub type Numbers = [u64; 3];

/// What one of the calls is handed and may write.
pub struct Form {
    /// Its number in a list.
    pub number: u64,
    pub name: &'static str,
    /// The slices that it is lent.
    pub lent: &'static [usize],
    /// Those that it may write.
    pub written: &'static [usize],
    pub numbers: &'static [&'static str],
    /// Words of its answer.
    pub answer: usize,
}

macro_rules! calls {
    ($($number:literal $call:ident $name:literal $lent:tt => $written:tt $numbers:tt $answer:literal)*) => {
        /// The calls of the header.
        #[derive(Clone, Copy, Debug, PartialEq, Eq)]
        pub enum Call { $($call),* }

        pub const CALLS: &[Call] = &[$(Call::$call),*];

        const FORMS: &[Form] = &[
            $(Form { number: $number, name: $name, lent: &$lent, written: &$written, numbers: &$numbers, answer: $answer }),*
        ];
    };
}

calls! {
     1 InflightsNew             "inflights_new"               [RING]                         => [STATE]          ["cap"]                         0
     2 InflightsSetCap          "inflights_set_cap"           [STATE, RING]                  => [STATE]          ["cap"]                         0
     3 InflightsAdd             "inflights_add"               [STATE, RING]                  => [STATE, RING]    ["inflight"]                    0
     4 InflightsFreeTo          "inflights_free_to"           [STATE, RING]                  => [STATE]          ["to"]                          0
     5 InflightsFreeFirstOne    "inflights_free_first_one"    [STATE, RING]                  => [STATE]          []                              0
     6 InflightsReset           "inflights_reset"             [STATE, RING]                  => [STATE]          []                              0
     7 InflightsMaybeFreeBuffer "inflights_maybe_free_buffer" [STATE, RING]                  => [STATE]          []                              0
     8 InflightsFull            "inflights_full"              [STATE, RING]                  => []               []                              1
     9 InflightsCount           "inflights_count"             [STATE, RING]                  => []               []                              1
    11 LogNew                   "log_new"                     [SETTLED, PENDING]             => [STATE]          ["start", "start_term", "last"] 0
    12 LogTerm                  "log_term"                    [STATE, SETTLED, PENDING]      => []               ["i"]                           1
    13 LogFirstIndex            "log_first_index"             [STATE, SETTLED, PENDING]      => []               []                              1
    14 LogLastIndex             "log_last_index"              [STATE, SETTLED, PENDING]      => []               []                              1
    15 LogLastTerm              "log_last_term"               [STATE, SETTLED, PENDING]      => []               []                              1
    16 LogCommitInfo            "log_commit_info"             [STATE, SETTLED, PENDING]      => []               []                              2
    17 LogIsUpToDate            "log_is_up_to_date"           [STATE, SETTLED, PENDING]      => []               ["i", "t"]                      1
    18 LogFindConflictByTerm    "log_find_conflict_by_term"   [STATE, SETTLED, PENDING]      => []               ["i", "t"]                      3
    19 LogMaybeAppend           "log_maybe_append"            [STATE, SETTLED, PENDING, RUN] => [STATE, PENDING] ["idx", "term", "commit"]       2
    20 LogAppend                "log_append"                  [STATE, SETTLED, PENDING, RUN] => [STATE, PENDING] []                              1
    21 LogCommitTo              "log_commit_to"               [STATE, SETTLED, PENDING]      => [STATE]          ["i"]                           0
    22 LogMaybeCommit           "log_maybe_commit"            [STATE, SETTLED, PENDING]      => [STATE]          ["i", "t"]                      1
    23 LogAppliedTo             "log_applied_to"              [STATE, SETTLED, PENDING]      => [STATE]          ["i"]                           0
    24 LogMaybePersist          "log_maybe_persist"           [STATE, SETTLED, PENDING]      => [STATE]          ["i", "t"]                      1
    25 LogStableEntries         "log_stable_entries"          [STATE, SETTLED, PENDING]      => [STATE, SETTLED] ["i", "t"]                      0
    26 LogSlice                 "log_slice"                   [STATE, SETTLED, PENDING]      => []               ["low", "high"]                 5
    27 LogEntries               "log_entries"                 [STATE, SETTLED, PENDING]      => []               ["i"]                           5
    28 LogHasNextEntriesSince   "log_has_next_entries_since"  [STATE, SETTLED, PENDING]      => []               ["s"]                           1
    29 LogNextEntriesSince      "log_next_entries_since"      [STATE, SETTLED, PENDING]      => []               ["s"]                           5
    30 LeaderMaybeCommit        "leader_maybe_commit"         [STATE, SETTLED, PENDING, VOTERS, OUTGOING, ROWS] => [STATE]          ["term"]                        1
    31 MajorityCommittedIndex   "majority_committed_index"    [VOTERS, ROWS]                 => []               []                              2
    32 MajorityVoteResult       "majority_vote_result"        [VOTERS, ROWS]                 => []               []                              1
    33 JointCommittedIndex      "joint_committed_index"       [VOTERS, OUTGOING, ROWS]       => []               []                              2
    34 JointVoteResult          "joint_vote_result"           [VOTERS, OUTGOING, ROWS]       => []               []                              1
    35 JointIsSingleton         "joint_is_singleton"          [VOTERS, OUTGOING]             => []               []                              1
    36 JointContains            "joint_contains"              [VOTERS, OUTGOING]             => []               ["id"]                          1
    37 JointIds                 "joint_ids"                   [VOTERS, OUTGOING]             => []               []                              15
    38 JointClear               "joint_clear"                 [VOTERS, OUTGOING]             => []               []                              2
    39 VotersChecked            "voters_checked"              [VOTERS]                       => []               []                              0
    40 JointChecked             "joint_checked"               [VOTERS, OUTGOING]             => []               []                              0
    41 RowsChecked              "rows_checked"                [ROWS]                         => []               []                              0
}

/// Which of the crate's files a call comes from.
#[derive(Clone, Copy, Debug, PartialEq, Eq)]
pub enum Family {
    Log,
    Quorum,
    Inflights,
}

impl Family {
    /// Words of the family's state.
    pub fn state_words(self) -> usize {
        match self {
            Family::Log => plain::words::LOG,
            Family::Quorum => 0,
            Family::Inflights => plain::words::WINDOW,
        }
    }
}

impl Call {
    pub fn form(self) -> &'static Form {
        &FORMS[self as usize]
    }

    pub fn by_number(number: u64) -> Option<Call> {
        CALLS.iter().copied().find(|call| call.form().number == number)
    }

    pub fn family(self) -> Family {
        match self.form().number {
            1..=9 => Family::Inflights,
            11..=30 => Family::Log,
            _ => Family::Quorum,
        }
    }

    /// Whether the crate has no such call.
    pub fn is_ours_alone(self) -> bool {
        matches!(self, Call::VotersChecked | Call::JointChecked | Call::RowsChecked)
    }

    /// Whether it makes a state from nothing.
    pub fn sets_up(self) -> bool {
        matches!(self, Call::LogNew | Call::InflightsNew)
    }
}

/// Runs a call on one side: its slices as they stand, the answer's words into `answer`.
macro_rules! side {
    ($(#[$doc:meta])* $name:ident, $calls:path) => {
        $(#[$doc])*
        pub fn $name(call: Call, numbers: &Numbers, slices: &mut Slices, answer: &mut [u64]) -> u64 {
            use $calls as side;
            let [state, settled, pending, run, outgoing, rows] = slices;
            let [a, b, c] = *numbers;
            match call {
                Call::LogNew => side::log_new(a, b, c, settled, pending, state),
                Call::LogTerm => side::log_term(state, settled, pending, a, answer),
                Call::LogFirstIndex => side::log_first_index(state, settled, pending, answer),
                Call::LogLastIndex => side::log_last_index(state, settled, pending, answer),
                Call::LogLastTerm => side::log_last_term(state, settled, pending, answer),
                Call::LogCommitInfo => side::log_commit_info(state, settled, pending, answer),
                Call::LogIsUpToDate => side::log_is_up_to_date(state, settled, pending, a, b, answer),
                Call::LogFindConflictByTerm => side::log_find_conflict_by_term(state, settled, pending, a, b, answer),
                Call::LogMaybeAppend => side::log_maybe_append(state, settled, pending, a, b, c, run, answer),
                Call::LogAppend => side::log_append(state, settled, pending, run, answer),
                Call::LogCommitTo => side::log_commit_to(state, settled, pending, a),
                Call::LogMaybeCommit => side::log_maybe_commit(state, settled, pending, a, b, answer),
                Call::LogAppliedTo => side::log_applied_to(state, settled, pending, a),
                Call::LogMaybePersist => side::log_maybe_persist(state, settled, pending, a, b, answer),
                Call::LogStableEntries => side::log_stable_entries(state, settled, pending, a, b),
                Call::LogSlice => side::log_slice(state, settled, pending, a, b, answer),
                Call::LogEntries => side::log_entries(state, settled, pending, a, answer),
                Call::LogNextEntriesSince => side::log_next_entries_since(state, settled, pending, a, answer),
                Call::LogHasNextEntriesSince => side::log_has_next_entries_since(state, settled, pending, a, answer),
                Call::MajorityCommittedIndex => side::majority_committed_index(run, rows, answer),
                Call::JointCommittedIndex => side::joint_committed_index(run, outgoing, rows, answer),
                Call::MajorityVoteResult => side::majority_vote_result(run, rows, answer),
                Call::JointVoteResult => side::joint_vote_result(run, outgoing, rows, answer),
                Call::JointIsSingleton => side::joint_is_singleton(run, outgoing, answer),
                Call::JointContains => side::joint_contains(run, outgoing, a, answer),
                Call::JointIds => side::joint_ids(run, outgoing, answer),
                Call::JointClear => side::joint_clear(run, outgoing, answer),
                Call::VotersChecked => side::voters_checked(run),
                Call::JointChecked => side::joint_checked(run, outgoing),
                Call::RowsChecked => side::rows_checked(rows),
                Call::LeaderMaybeCommit => {
                    side::leader_maybe_commit(state, settled, pending, a, run, outgoing, rows, answer)
                }
                Call::InflightsNew => side::inflights_new(a, settled, state),
                Call::InflightsSetCap => side::inflights_set_cap(state, settled, a),
                Call::InflightsAdd => side::inflights_add(state, settled, a),
                Call::InflightsFreeTo => side::inflights_free_to(state, settled, a),
                Call::InflightsFreeFirstOne => side::inflights_free_first_one(state, settled),
                Call::InflightsReset => side::inflights_reset(state, settled),
                Call::InflightsMaybeFreeBuffer => side::inflights_maybe_free_buffer(state, settled),
                Call::InflightsFull => side::inflights_full(state, settled, answer),
                Call::InflightsCount => side::inflights_count(state, settled, answer),
            }
        }
    };
}

side!(
    /// The plain program of document 01.
    run_plain,
    plain::words
);

#[cfg(feature = "engine")]
side!(
    /// The proved engine.
    run_engine,
    engine::calls
);

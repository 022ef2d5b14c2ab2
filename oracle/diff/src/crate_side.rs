//! The crate's side of a call: which calls it is asked, what it is asked on, and what it says.

use crate::calls::{Call, Family, Slices, RUN, SETTLED, STATE};
use crate::check::Sheet;
use crate::crate_log::{last_of, CrateLog, PERSISTED};
use crate::crate_quorum;
use crate::crate_window::CrateWindow;
use crate::input::Input;
use raft_crate::eraftpb::Entry;
use raft_crate::Logger;

/// What the crate gives for a call.
#[derive(Debug, PartialEq)]
pub enum Reply {
    /// The words of the answer.
    Words(Vec<u64>),
    /// Whole records, where ours gives parts of a store.
    Records(Vec<Entry>),
    /// A fatal error, a `None` or an error that stands for a refusal.
    Refused(u64),
    /// A panic or an error that stands for no refusal.
    Odd(String),
}

/// What the crate makes its calls on.
pub enum Subject {
    Log(CrateLog),
    Window(CrateWindow),
    /// Quorum questions have no state.
    Nothing,
}

impl Subject {
    /// Made from what the call is handed, which must meet the rules; for a set-up, what the crate's own
    /// set-up makes. `turn`: how far a window's queue is turned in the crate's buffer.
    pub fn of(input: &Input, logger: &Logger, turn: u64) -> Subject {
        let [a, b, c] = input.numbers;
        match input.call.family() {
            Family::Quorum => Subject::Nothing,
            _ if input.call == Call::LogNew => {
                Subject::Log(CrateLog::set_up(a, b, c, &input.slices[SETTLED], logger))
            }
            _ if input.call == Call::InflightsNew => Subject::Window(CrateWindow::set_up(a)),
            Family::Log => Subject::Log(CrateLog::of(&input.slices, logger)),
            Family::Inflights => Subject::Window(CrateWindow::of(&input.slices, turn)),
        }
    }

    pub fn call(&mut self, input: &Input) -> Reply {
        match self {
            _ if input.call.sets_up() => Reply::Words(vec![]),
            Subject::Log(log) => log.call(input),
            Subject::Window(window) => window.call(input),
            Subject::Nothing => crate_quorum::call(input),
        }
    }

    /// Where it differs from a state and its stores, if it does.
    pub fn differs(&self, slices: &Slices) -> Option<String> {
        match self {
            Subject::Log(log) => log.differs(slices),
            Subject::Window(window) => window.differs(slices),
            Subject::Nothing => None,
        }
    }
}

/// "The domain of demand 2 is every call not refused by 1, 2, 3, 4, 7, 12, 13 or the parts marked added."
pub fn on_domain(input: &Input, sheet: &Sheet) -> bool {
    !matches!(sheet.refusal, 1 | 2 | 3 | 4 | 7 | 12 | 13) && !is_added(input, sheet)
}

/// The parts marked added that are no refusals of their own: `append` "starting at or below persisted (the
/// latter added)"; `maybe_commit` above last, where the crate reads term 0 ("the upper bound is added"); "for
/// s = u64::MAX we answer no (added)". The added copying is done for the crate by its storage, the added
/// shape of slices undone by joining them. Calls that the crate does not have are added whole.
fn is_added(input: &Input, sheet: &Sheet) -> bool {
    let state = &input.slices[STATE];
    let [a, b, _] = input.numbers;
    let above_last_with_term_zero = |i: u64, t: u64| t == 0 && i > last_of(state);
    match input.call {
        Call::LogAppend => sheet.refusal == 8 && input.slices[RUN][0] <= state[PERSISTED],
        Call::LogMaybeCommit => above_last_with_term_zero(a, b),
        Call::LeaderMaybeCommit => above_last_with_term_zero(crate_quorum::joint_index(input), a),
        Call::LogNextEntriesSince | Call::LogHasNextEntriesSince => a == u64::MAX,
        call => call.is_ours_alone(),
    }
}

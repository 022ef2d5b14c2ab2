//! The crate's window on the inputs of the other sides. It uses its buffer modulo its cap where ours uses the
//! ring modulo its length: the two are compared as queues, with cap, deferred cap and fullness.

use crate::calls::{Call, Slices, RING, STATE};
use crate::crate_side::Reply;
use crate::input::Input;
use crate::panics::{guarded, refusal_of};
use raft_crate::Inflights;

/// Places of a state's words.
pub const START: usize = 0;
pub const COUNT: usize = 1;
pub const CAP: usize = 2;
pub const IS_DEFERRED: usize = 3;
pub const DEFERRED: usize = 4;

/// The deferred cap of a state.
fn deferred(state: &[u64]) -> Option<usize> {
    (state[IS_DEFERRED] != 0).then_some(state[DEFERRED] as usize)
}

/// The flights of a window that meets the rules, first to last.
pub fn flights(slices: &Slices) -> impl Iterator<Item = u64> + '_ {
    let (state, ring) = (&slices[STATE], &slices[RING]);
    (0..state[COUNT] as usize).map(move |k| ring[(state[START] as usize + k) % ring.len()])
}

#[derive(Clone)]
pub struct CrateWindow {
    window: Inflights,
}

impl CrateWindow {
    /// The crate's window with the same queue, made by its own calls alone. `turn` adds and frees that many
    /// flights first, so that the queue begins inside the crate's buffer, and wraps around in it.
    pub fn of(slices: &Slices, turn: u64) -> CrateWindow {
        let state = &slices[STATE];
        let mut window = Inflights::new(state[CAP] as usize);
        for _ in 0..turn.min(state[CAP].saturating_sub(1)) {
            window.add(0);
        }
        window.free_to(0);
        flights(slices).for_each(|flight| window.add(flight));
        if let Some(cap) = deferred(state) {
            window.set_cap(cap);
        }
        CrateWindow { window }
    }

    pub fn set_up(cap: u64) -> CrateWindow {
        CrateWindow { window: Inflights::new(cap as usize) }
    }

    /// Makes the call; a panic is read by its message.
    pub fn call(&mut self, input: &Input) -> Reply {
        match guarded(|| self.call_unguarded(input)) {
            Ok(words) => Reply::Words(words),
            Err(message) => refusal_of(&message).map_or(Reply::Odd(message), Reply::Refused),
        }
    }

    fn call_unguarded(&mut self, input: &Input) -> Vec<u64> {
        let window = &mut self.window;
        let number = input.numbers[0];
        match input.call {
            Call::InflightsSetCap => window.set_cap(number as usize),
            Call::InflightsAdd => window.add(number),
            Call::InflightsFreeTo => window.free_to(number),
            Call::InflightsFreeFirstOne => window.free_first_one(),
            Call::InflightsReset => window.reset(),
            Call::InflightsMaybeFreeBuffer => window.maybe_free_buffer(),
            Call::InflightsFull => return vec![window.full() as u64],
            Call::InflightsCount => return vec![window.count() as u64],
            _ => unreachable!("not a call of the window"),
        }
        vec![]
    }

    /// Where the crate's window differs from a state and its ring, if it does.
    pub fn differs(&self, slices: &Slices) -> Option<String> {
        let (window, state) = (&self.window, &slices[STATE]);
        let same = window.count() as u64 == state[COUNT]
            && window.cap() as u64 == state[CAP]
            && window.deferred() == deferred(state)
            && window.flights().eq(flights(slices));
        (!same).then(|| format!("the crate's window is {window:?}"))
    }

    pub fn start(&self) -> usize {
        self.window.start()
    }
}

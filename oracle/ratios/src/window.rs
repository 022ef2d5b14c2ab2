//! `add` and `free_to` on a window of 256 flights: filled by 256 calls of `add`, emptied by 32 calls of `free_to` that free
//! eight flights each, 40 times a round. The queue begins inside the ring, so that it wraps around every time.

use crate::{plain_window, Load, Side};
use plain::words::WINDOW;
use raft_crate::Inflights;
use std::time::{Duration, Instant};

const FLIGHTS: u64 = 256;
const FREED: u64 = 8;
const FILLS: u64 = 40;
/// Where the queue begins.
const TURN: u64 = 100;

/// A window in both forms: a side uses one. So every side is called through one signature.
struct Window {
    state: [u64; WINDOW],
    ring: Vec<u64>,
    raft: Inflights,
}

/// 0 or the refusal's number. The crate stops the program where we refuse.
type Call = fn(&mut Window, u64) -> u64;

#[inline(never)]
fn add_by_engine(w: &mut Window, flight: u64) -> u64 {
    engine::calls::inflights_add(&mut w.state, &mut w.ring, flight)
}

#[inline(never)]
fn add_by_plain(w: &mut Window, flight: u64) -> u64 {
    plain_window::add(&mut w.state, &mut w.ring, flight)
}

#[inline(never)]
fn add_by_rules(w: &mut Window, flight: u64) -> u64 {
    plain::words::inflights_add(&mut w.state, &mut w.ring, flight)
}

#[inline(never)]
fn add_by_crate(w: &mut Window, flight: u64) -> u64 {
    w.raft.add(flight);
    0
}

#[inline(never)]
fn free_by_engine(w: &mut Window, to: u64) -> u64 {
    engine::calls::inflights_free_to(&mut w.state, &w.ring, to)
}

#[inline(never)]
fn free_by_plain(w: &mut Window, to: u64) -> u64 {
    plain_window::free_to(&mut w.state, &w.ring, to)
}

#[inline(never)]
fn free_by_rules(w: &mut Window, to: u64) -> u64 {
    plain::words::inflights_free_to(&mut w.state, &w.ring, to)
}

#[inline(never)]
fn free_by_crate(w: &mut Window, to: u64) -> u64 {
    w.raft.free_to(to);
    0
}

fn calls_of(side: Side) -> [Call; 2] {
    match side {
        Side::Engine => [add_by_engine, free_by_engine],
        Side::Plain => [add_by_plain, free_by_plain],
        Side::Rules => [add_by_rules, free_by_rules],
        Side::Crate => [add_by_crate, free_by_crate],
    }
}

/// Adds all flights, rising from `first`.
#[inline(never)]
fn fill(add: Call, window: &mut Window, first: u64) {
    let refused = (first..first + FLIGHTS).fold(0, |refused, flight| refused | add(window, flight));
    assert_eq!(refused, 0);
}

/// Frees them, some at a time.
#[inline(never)]
fn empty(free_to: Call, window: &mut Window, first: u64) {
    let steps = 1..=FLIGHTS / FREED;
    let refused = steps.fold(0, |refused, k| refused | free_to(window, first + k * FREED - 1));
    assert_eq!(refused, 0);
}

impl Window {
    fn new(side: Side) -> Window {
        let state = [0, 0, FLIGHTS, 0, 0];
        let mut window = Window { state, ring: vec![0; FLIGHTS as usize], raft: Inflights::new(FLIGHTS as usize) };
        let [add, free_to] = calls_of(side);
        // The crate's buffer gets its memory here.
        fill(add, &mut window, 0);
        empty(free_to, &mut window, 0);
        (0..TURN).for_each(|_| assert_eq!(add(&mut window, 0), 0));
        free_to(&mut window, 0);
        window
    }

    /// Where the queue begins, and its flights.
    fn held(&self, side: Side) -> (u64, Vec<u64>) {
        if side == Side::Crate {
            return (self.raft.start() as u64, self.raft.flights().collect());
        }
        let [start, count, ..] = self.state;
        (start, (0..count).map(|k| self.ring[((start + k) % FLIGHTS) as usize]).collect())
    }
}

/// What of a round is counted.
#[derive(PartialEq)]
enum Timed {
    Add,
    FreeTo,
}

pub struct Windows {
    name: &'static str,
    timed: Timed,
    /// A window for each side.
    windows: Vec<Window>,
}

pub fn add() -> Windows {
    Windows::new("window add", Timed::Add)
}

pub fn free_to() -> Windows {
    Windows::new("window free_to", Timed::FreeTo)
}

impl Windows {
    fn new(name: &'static str, timed: Timed) -> Windows {
        Windows { name, timed, windows: Side::ALL.map(Window::new).into() }
    }
}

impl Load for Windows {
    fn name(&self) -> &'static str {
        self.name
    }

    fn compare(&mut self) {
        for side in Side::ALL {
            fill(calls_of(side)[0], &mut self.windows[side as usize], 0);
        }
        for to in (0..FLIGHTS).step_by(FREED as usize).map(|first| first + FREED - 1) {
            for side in Side::ALL {
                let held = self.windows[side as usize].held(side);
                assert!(held == self.windows[0].held(Side::Engine), "{side:?}: another queue before free_to({to})");
            }
            for side in Side::ALL {
                calls_of(side)[1](&mut self.windows[side as usize], to);
            }
        }
    }

    fn round(&mut self, side: Side) -> f64 {
        let [add, free_to] = calls_of(side);
        let window = &mut self.windows[side as usize];
        let (mut adding, mut freeing) = (Duration::ZERO, Duration::ZERO);
        for first in (0..FILLS).map(|k| k * FLIGHTS) {
            let begun = Instant::now();
            fill(add, window, first);
            let filled = Instant::now();
            empty(free_to, window, first);
            adding += filled - begun;
            freeing += filled.elapsed();
        }
        let (spent, calls) = match self.timed {
            Timed::Add => (adding, FILLS * FLIGHTS),
            Timed::FreeTo => (freeing, FILLS * FLIGHTS / FREED),
        };
        spent.as_nanos() as f64 / calls as f64
    }
}

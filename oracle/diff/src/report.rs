//! Progress, as the run goes.

use crate::check::Checker;
use std::time::{Duration, Instant};

pub struct Report {
    began: Instant,
    phase_began: Instant,
    calls_before: u64,
    last_sign: Instant,
    silent: bool,
}

impl Report {
    pub fn new() -> Report {
        let now = Instant::now();
        Report { began: now, phase_began: now, calls_before: 0, last_sign: now, silent: false }
    }

    /// Says nothing.
    pub fn silent() -> Report {
        Report { silent: true, ..Report::new() }
    }

    /// Says that a phase is done.
    pub fn phase(&mut self, name: &str, ck: &Checker) {
        let calls = ck.tally.calls();
        if !self.silent {
            let seconds = self.phase_began.elapsed().as_secs_f64();
            println!("{name}: {} calls, {seconds:.1} s", calls - self.calls_before);
        }
        self.calls_before = calls;
        self.phase_began = Instant::now();
        self.last_sign = self.phase_began;
    }

    /// A sign of life inside a long phase, at most one in twenty seconds.
    pub fn alive(&mut self, name: &str, ck: &Checker) {
        if !self.silent && self.last_sign.elapsed() > Duration::from_secs(20) {
            println!("    {name}: {} calls so far", ck.tally.calls() - self.calls_before);
            self.last_sign = Instant::now();
        }
    }

    pub fn seconds(&self) -> f64 {
        self.began.elapsed().as_secs_f64()
    }
}

//! How many calls were compared, and what became of them.

use crate::calls::{Call, CALLS};

/// Refusals are 1 to 13; 0 is an answer.
pub const OUTCOMES: usize = 14;

#[derive(Clone)]
pub struct Tally {
    by_outcome: Vec<[u64; OUTCOMES]>,
    with_crate: Vec<u64>,
}

impl Tally {
    pub fn new() -> Tally {
        Tally { by_outcome: vec![[0; OUTCOMES]; CALLS.len()], with_crate: vec![0; CALLS.len()] }
    }

    pub fn count(&mut self, call: Call, refusal: u64, with_crate: bool) {
        self.by_outcome[call as usize][refusal as usize] += 1;
        self.with_crate[call as usize] += u64::from(with_crate);
    }

    pub fn calls(&self) -> u64 {
        self.by_outcome.iter().flatten().sum()
    }

    pub fn calls_with_crate(&self) -> u64 {
        self.with_crate.iter().sum()
    }

    /// A line a call: how often it was compared, how often with the crate, how often it gave which refusal.
    pub fn print(&self) {
        println!(
            "{:<28} {:>12} {:>12}  answered, then refusals as number:times",
            "call", "compared", "with crate"
        );
        for call in CALLS {
            let outcomes = &self.by_outcome[*call as usize];
            let refusals =
                (1..OUTCOMES).filter(|n| outcomes[*n] > 0).map(|n| format!(" {n}:{}", outcomes[n]));
            println!(
                "{:<28} {:>12} {:>12}  {}{}",
                call.form().name,
                outcomes.iter().sum::<u64>(),
                self.with_crate[*call as usize],
                outcomes[0],
                refusals.collect::<String>()
            );
        }
    }
}

//! Long runs of calls on one log or one window, the crate's being kept from call to call; and the shortest
//! such run that still shows a mismatch.

use crate::calls::{Call, Numbers, STATE};
use crate::check::{Checked, Checker, Mismatch};
use crate::crate_side::Subject;
use crate::input::{words, Input};

/// The slices that a run of calls carries along; the others belong to each call.
const CARRIED: usize = 3;

/// One call of a run, with the slices that only it is lent.
#[derive(Clone)]
pub struct Step {
    pub call: Call,
    pub numbers: Numbers,
    pub lent: [Vec<u64>; 3],
}

impl Step {
    pub fn new(call: Call, numbers: Numbers) -> Step {
        Step { call, numbers, lent: Default::default() }
    }

    pub fn with_run(call: Call, numbers: Numbers, run: Vec<u64>) -> Step {
        Step { call, numbers, lent: [run, vec![], vec![]] }
    }
}

/// A set-up and the calls behind it.
#[derive(Clone)]
pub struct Script {
    pub set_up: Input,
    pub steps: Vec<Step>,
}

/// A run under way: what the next call is lent, and the crate's side.
pub struct Run {
    pub input: Input,
    kept: Subject,
}

impl Run {
    /// Sets up on all sides. Nothing if the set-up is refused.
    pub fn begin(ck: &mut Checker, set_up: &Input) -> Result<Option<Run>, Box<Mismatch>> {
        ck.check(set_up)?;
        if ck.plain().refusal != 0 {
            return Ok(None);
        }
        let kept = Subject::of(set_up, ck.logger(), 0);
        let mut input = set_up.clone();
        input.slices[STATE].clone_from(&ck.plain().slices[STATE]);
        Ok(Some(Run { input, kept }))
    }

    /// Makes one call on all sides and goes on from what it leaves.
    pub fn step(&mut self, ck: &mut Checker, step: &Step) -> Checked {
        self.input.set(step.call, step.numbers);
        for (place, words) in (CARRIED..).zip(&step.lent) {
            self.input.set_slice(place, words);
        }
        ck.check_kept(&self.input, &mut self.kept)?;
        for place in 0..CARRIED {
            self.input.slices[place].clone_from(&ck.plain().slices[place]);
        }
        Ok(())
    }
}

impl Script {
    pub fn play(&self, ck: &mut Checker) -> Checked {
        if let Some(mut run) = Run::begin(ck, &self.set_up)? {
            for step in &self.steps {
                run.step(ck, step)?;
            }
        }
        Ok(())
    }

    /// Drops calls as long as a mismatch stays: larger parts first, then one by one. Gives what is left and
    /// its mismatch.
    pub fn shrink(mut self, ck: &mut Checker, mut mismatch: Box<Mismatch>) -> (Script, Box<Mismatch>) {
        let mut part = self.steps.len().max(1);
        while part > 0 {
            let mut from = 0;
            let mut dropped = false;
            while from < self.steps.len() {
                let mut fewer = self.clone();
                fewer.steps.drain(from..(from + part).min(self.steps.len()));
                match fewer.play(ck) {
                    Err(smaller) => {
                        (self, mismatch) = (fewer, smaller);
                        dropped = true;
                    }
                    Ok(()) => from += part,
                }
            }
            if !dropped || part > 1 {
                part /= 2;
            }
        }
        (self, mismatch)
    }

    /// The run for a reader: its set-up and its calls.
    pub fn print(&self) {
        println!("{}", self.set_up);
        for step in &self.steps {
            let lent = step.lent.iter().filter(|slice| !slice.is_empty()).map(|slice| words(slice));
            let numbers = &step.numbers[..step.call.form().numbers.len()];
            println!("    then {}{} {}", step.call.form().name, words(numbers), lent.collect::<String>());
        }
    }
}

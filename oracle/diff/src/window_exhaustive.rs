//! Every window of small rings with every call, and every sequence of calls on a new window.

use crate::calls::{Call, RING, STATE};
use crate::check::{Checked, Checker, Mismatch};
use crate::crate_side::Subject;
use crate::crate_window::CrateWindow;
use crate::input::Input;
use crate::report::Report;

const MAX: u64 = u64::MAX;

/// How far a run goes.
pub struct Bounds {
    /// Words of the largest ring.
    pub ring: usize,
    /// Calls of a sequence.
    pub calls: usize,
}

pub fn run(ck: &mut Checker, report: &mut Report, bounds: &Bounds) -> Checked {
    windows(ck, report, bounds.ring)?;
    report.phase("window: every window of small rings, every call", ck);
    sequences(ck, report, bounds)?;
    report.phase("window: every sequence of calls on a new window", ck);
    Ok(())
}

/// The calls that change a window, with the arguments that matter in a ring with flights 0 to 3.
fn changes(ring: u64) -> Vec<(Call, u64)> {
    let mut all = vec![
        (Call::InflightsFreeFirstOne, 0),
        (Call::InflightsReset, 0),
        (Call::InflightsMaybeFreeBuffer, 0),
    ];
    all.extend((0..=ring + 1).map(|cap| (Call::InflightsSetCap, cap)));
    all.extend([1, 2, 3].map(|flight| (Call::InflightsAdd, flight)));
    all.extend([0, 1, 2, 3].map(|to| (Call::InflightsFreeTo, to)));
    all
}

/// Every state, broken or not, with numbers up to one above the ring and the largest, over every ring of
/// flights 0 to 3.
fn windows(ck: &mut Checker, report: &mut Report, largest: usize) -> Checked {
    let mut input = Input::new(Call::InflightsFull);
    for length in 0..=largest as u64 {
        let calls: Vec<(Call, u64)> = changes(length)
            .into_iter()
            .chain([(Call::InflightsSetCap, MAX), (Call::InflightsFreeTo, MAX), (Call::InflightsAdd, MAX)])
            .chain([(Call::InflightsFull, 0), (Call::InflightsCount, 0)])
            .chain((0..=length + 1).chain([MAX]).map(|cap| (Call::InflightsNew, cap)))
            .collect();
        let numbers: Vec<u64> = (0..=length + 1).chain([MAX]).collect();
        for ring in 0..4u64.pow(length as u32) {
            let ring: Vec<u64> = (0..length).map(|k| ring >> (2 * k) & 3).collect();
            // Broken states read no flight: one ring a length will do.
            let small = if ring.iter().all(|flight| *flight == 0) {
                &numbers[..]
            } else {
                &numbers[..=length as usize]
            };
            for state in states(small) {
                report.alive("every window", ck);
                input.set_state(&state);
                input.set_slice(RING, &ring);
                for (call, number) in &calls {
                    input.set(*call, [*number, 0, 0]);
                    ck.turn = number % 3;
                    ck.check(&input)?;
                }
            }
        }
    }
    Ok(())
}

/// All states over some numbers, with no deferred cap or any.
fn states(numbers: &[u64]) -> Vec<[u64; 5]> {
    let mut all = Vec::new();
    for start in numbers {
        for count in numbers {
            for cap in numbers {
                all.push([*start, *count, *cap, 0, 0]);
                all.extend(numbers.iter().map(|deferred| [*start, *count, *cap, 1, *deferred]));
            }
        }
    }
    all
}

/// Every sequence of changes from a new window, short ones first, the crate's window being kept; after each,
/// `full` and `count`.
fn sequences(ck: &mut Checker, report: &mut Report, bounds: &Bounds) -> Checked {
    for calls in 1..=bounds.calls {
        for length in 0..=bounds.ring {
            for cap in 0..=length as u64 {
                let mut input = Input::new(Call::InflightsNew);
                input.set_state(&[0; 5]);
                input.set_slice(RING, &vec![0; length]);
                input.numbers[0] = cap;
                ck.check(&input)?;
                input.slices = ck.plain().slices.clone();
                let walk = Walk { input, window: CrateWindow::set_up(cap), path: Vec::new() };
                walk.follow(ck, report, &changes(length as u64), calls)?;
            }
        }
    }
    Ok(())
}

/// A window on the way through a sequence of calls.
struct Walk {
    input: Input,
    window: CrateWindow,
    /// The calls so far.
    path: Vec<(Call, u64)>,
}

impl Walk {
    /// Goes on with every call, as many as are left.
    fn follow(&self, ck: &mut Checker, report: &mut Report, calls: &[(Call, u64)], left: usize) -> Checked {
        report.alive("every sequence", ck);
        if left == 0 {
            self.step(ck, Call::InflightsFull, 0)?;
            self.step(ck, Call::InflightsCount, 0)?;
            return Ok(());
        }
        for (call, number) in calls {
            // A refusal changes nothing: what follows it is met without it.
            if let Some(next) = self.step(ck, *call, *number)? {
                next.follow(ck, report, calls, left - 1)?;
            }
        }
        Ok(())
    }

    /// One call more; nothing where it is refused.
    fn step(&self, ck: &mut Checker, call: Call, number: u64) -> Result<Option<Walk>, Box<Mismatch>> {
        let mut input = self.input.clone();
        input.set(call, [number, 0, 0]);
        let mut kept = Subject::Window(self.window.clone());
        let path = [&self.path[..], &[(call, number)]].concat();
        ck.check_kept(&input, &mut kept).map_err(|mut mismatch| {
            mismatch.what += &format!("\n    on a new window: {path:?}");
            mismatch
        })?;
        let Subject::Window(window) = kept else { unreachable!("a window stays a window") };
        if ck.plain().refusal != 0 {
            return Ok(None);
        }
        input.slices[STATE].clone_from(&ck.plain().slices[STATE]);
        input.slices[RING].clone_from(&ck.plain().slices[RING]);
        Ok(Some(Walk { input, window, path }))
    }
}

//! Times, and the table that sets them beside the instruction counts.

use crate::loads::{all, Load};
use crate::SIDES;
use std::time::Instant;

/// Nanoseconds an append, for each side: the least of all rounds, the sides taking turns in each.
fn least_times(load: &Load, rounds: u64) -> Vec<f64> {
    let mut stores = vec![load.empty_store(); SIDES.len()];
    let mut least = vec![f64::MAX; SIDES.len()];
    for _ in 0..rounds {
        for (k, side) in SIDES.iter().enumerate() {
            let begun = Instant::now();
            load.drive(side.call, &mut stores[k]);
            let nanos = begun.elapsed().as_nanos() as f64 / load.messages.len() as f64;
            least[k] = least[k].min(nanos);
        }
    }
    assert!(stores.iter().all(|s| *s == stores[0]), "the sides left different stores");
    least
}

/// A line for each load and side: both names, and the time.
pub fn measure(rounds: u64) {
    for load in all() {
        for (side, nanos) in SIDES.iter().zip(least_times(&load, rounds)) {
            println!("{} {} {nanos}", load.name, side.name);
        }
    }
}

/// The numbers of all lines of a load and a side, in the order of the file.
fn numbers(lines: &str, load: &str, side: &str) -> Vec<f64> {
    let of_both = lines.lines().filter_map(|line| line.strip_prefix(&format!("{load} {side} ")));
    of_both.map(|number| number.parse().expect("a number")).collect()
}

fn ratios(of: &[f64], to: &[f64]) -> Vec<f64> {
    of.iter().zip(to).map(|(a, b)| a / b).collect()
}

/// The least and the largest.
fn range(numbers: &[f64], digits: usize) -> String {
    let least = numbers.iter().copied().fold(f64::MAX, f64::min);
    let most = numbers.iter().copied().fold(f64::MIN, f64::max);
    format!("{least:.digits$} to {most:.digits$}")
}

/// COUNTS and TIMES have lines of load, side, number; TIMES has one for each place that the code was put at.
pub fn print(counts: &str, times: &str) {
    let read = |path| std::fs::read_to_string(path).expect("a file of counts or times");
    let (counts, times) = (read(counts), read(times));
    let engine = SIDES[0].name;
    println!("load     side    ns/append      instr/append  engine to it: time  instr");
    for load in all() {
        for side in &SIDES {
            let of = |lines, side| numbers(lines, load.name, side);
            println!(
                "{:8} {:7} {:14} {:12.0}  {:18}  {:.2}",
                load.name,
                side.name,
                range(&of(&times, side.name), 1),
                of(&counts, side.name)[0],
                range(&ratios(&of(&times, engine), &of(&times, side.name)), 2),
                of(&counts, engine)[0] / of(&counts, side.name)[0],
            );
        }
    }
}

//! Rounds, minima and the table.

use crate::{Load, Side};

/// Nanoseconds a call, for each side.
type Times = [f64; Side::ALL.len()];

/// The least of all rounds, the sides taking turns in each, so that other work on the machine meets them alike.
fn least_times(load: &mut dyn Load, rounds: usize) -> Times {
    let mut least = [f64::MAX; Side::ALL.len()];
    for _ in 0..rounds {
        for side in Side::ALL {
            let least = &mut least[side as usize];
            *least = least.min(load.round(side));
        }
    }
    least
}

fn least(blocks: &[Times], side: Side) -> f64 {
    blocks.iter().map(|times| times[side as usize]).fold(f64::MAX, f64::min)
}

/// The least and the largest of the blocks' ratios of the engine to a side.
fn range(blocks: &[Times], to: Side) -> String {
    let ratios = || blocks.iter().map(|times| times[Side::Engine as usize] / times[to as usize]);
    format!("{:.2} to {:.2}", ratios().fold(f64::MAX, f64::min), ratios().fold(f64::MIN, f64::max))
}

/// Blocks of rounds, one after the other over all loads, so that a load's blocks lie apart in time.
pub fn print(loads: &mut [Box<dyn Load>], blocks: usize, rounds: usize) {
    loads.iter_mut().for_each(|load| load.compare());
    println!("every side answered alike; stores are not cleared between rounds");
    let mut times = vec![Vec::new(); loads.len()];
    for _ in 0..blocks {
        for (load, times) in loads.iter_mut().zip(&mut times) {
            times.push(least_times(load.as_mut(), rounds));
        }
    }
    println!("nanoseconds a call, least of {blocks} blocks of {rounds} rounds; last columns: range over the blocks");
    println!("| load | engine | plain | rules | crate | engine : plain : crate | engine to plain | to crate |");
    println!("|---|---|---|---|---|---|---|---|");
    for (load, blocks) in loads.iter().zip(&times) {
        print_line(load.name(), blocks);
    }
}

fn print_line(name: &str, blocks: &[Times]) {
    let [engine, plain, rules, of_crate] = Side::ALL.map(|side| least(blocks, side));
    println!(
        "| {name} | {engine:.1} | {plain:.1} | {rules:.1} | {of_crate:.1} | 1 : {:.2} : {:.2} | {} | {} |",
        plain / engine,
        of_crate / engine,
        range(blocks, Side::Plain),
        range(blocks, Side::Crate)
    );
}

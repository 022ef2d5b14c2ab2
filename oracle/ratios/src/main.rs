//! Times of the proved engine beside plain Rust and the crate raft 0.7.0, all in one run. oracle/ratios.sh runs this.
//!     ratios BLOCKS ROUNDS           measure, and print the table
//!     ratios count LOAD SIDE         one round of one side, for an instruction counter:
//!         valgrind --tool=callgrind --toggle-collect='*round*' ratios count 'majority of 5' Engine

mod agree;
mod append;
mod commit;
mod plain_quorum;
mod plain_window;
mod table;
mod window;

// Shared with the other programs of this folder.
#[path = "../../sides/plain.rs"]
#[rustfmt::skip] // a program of bench.sh, not of this workspace
mod plain_append;
#[path = "../../diff/src/rng.rs"]
#[allow(dead_code)] // what of it these runs do not need
mod rng;
#[path = "../../diff/src/storage.rs"]
mod storage;

#[derive(Clone, Copy, Debug, PartialEq, Eq)]
pub enum Side {
    Engine,
    /// Written to be run: no allocation, no division.
    Plain,
    /// Written to be read: the program of the differential runs (oracle/plain).
    Rules,
    Crate,
}

impl Side {
    pub const ALL: [Side; 4] = [Side::Engine, Side::Plain, Side::Rules, Side::Crate];
}

/// The same work for every side, each with a store of its own that is never cleared.
pub trait Load {
    fn name(&self) -> &'static str;

    /// Stops the program unless the sides answer alike and hold the same afterwards.
    fn compare(&mut self);

    /// One round of a side: nanoseconds a call.
    fn round(&mut self, side: Side) -> f64;
}

fn loads() -> Vec<Box<dyn Load>> {
    vec![
        Box::new(append::replace()),
        Box::new(append::grow()),
        Box::new(commit::majority()),
        Box::new(commit::joint_of_5_and_3()),
        Box::new(window::add()),
        Box::new(window::free_to()),
    ]
}

fn main() {
    // The crate's log stands on the storage of the differential runs, held to the crate's own.
    storage::check();
    let words: Vec<String> = std::env::args().skip(1).collect();
    let words: Vec<&str> = words.iter().map(String::as_str).collect();
    match words[..] {
        ["count", load, side] => count(load, side),
        [blocks, rounds] => {
            agree::check();
            table::print(&mut loads(), number(blocks), number(rounds));
        }
        _ => panic!("ratios BLOCKS ROUNDS | count LOAD SIDE"),
    }
}

fn number(word: &str) -> usize {
    word.parse().expect("a number")
}

fn count(load: &str, side: &str) {
    let mut loads = loads();
    let load = loads.iter_mut().find(|l| l.name() == load).expect("a load");
    let side = Side::ALL.into_iter().find(|s| format!("{s:?}") == side).expect("a side");
    load.round(side);
}

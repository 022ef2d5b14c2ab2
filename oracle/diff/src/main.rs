//! Differential runs of the crate raft 0.7.0, the plain program of document 01 and the proved engine on the
//! same calls.
//!
//!     diff run [--size 0|1|2] [--seed N]   every comparison; 2, the default, takes minutes, 0 a second
//!     diff call LINE                       one call, written as in a list, on all sides
//!     diff list log|quorum|inflights DIR   writes the list of calls DIR/stdin and its answers DIR/stdout
//!     diff replay DIR                      runs such a list on all sides
//!     diff found                           writes the end of docs/DIFFERENCES.md to standard output
//!
//! Exit status: 0 all agree; 1 a mismatch; 2 bad usage or an unreadable file.

#![forbid(unsafe_code)]
#![allow(clippy::manual_is_multiple_of)]

mod calls;
mod cases;
mod check;
mod crate_log;
mod crate_quorum;
mod crate_side;
mod crate_window;
mod found;
mod input;
mod lists;
mod log_exhaustive;
mod panics;
mod quorum_exhaustive;
mod random;
mod report;
mod rng;
mod script;
mod storage;
mod tally;
mod window_exhaustive;

use calls::Family;
use check::{Checked, Checker};
use input::Input;
use report::Report;
use std::path::Path;
use std::process::ExitCode;

/// Seconds, a quarter of a minute, minutes.
const FULL: usize = 2;
const SEED: u64 = 7_001;

fn main() -> ExitCode {
    panics::keep_guarded_quiet();
    let words: Vec<String> = std::env::args().skip(1).collect();
    let words: Vec<&str> = words.iter().map(String::as_str).collect();
    match &words[..] {
        ["run", options @ ..] => match parsed(options) {
            Some((size, seed)) => run(size, seed),
            None => usage(),
        },
        ["call", line] => match Input::parse(line) {
            Some(input) => call(&input),
            None => usage(),
        },
        ["list", family, folder] => match family_of(family) {
            Some(family) => list(family, Path::new(folder)),
            None => usage(),
        },
        ["replay", folder] => replay(Path::new(folder)),
        ["found"] => verdict(found::write()),
        _ => usage(),
    }
}

fn usage() -> ExitCode {
    eprintln!(
        "diff run [--size 0|1|2] [--seed N] | call LINE | list log|quorum|inflights DIR | replay DIR | found"
    );
    ExitCode::from(2)
}

/// The size and the seed of a run.
fn parsed(options: &[&str]) -> Option<(usize, u64)> {
    let (mut size, mut seed) = (FULL, SEED);
    for option in options.chunks(2) {
        match option {
            ["--size", n] => size = n.parse().ok().filter(|n| *n <= FULL)?,
            ["--seed", n] => seed = n.parse().ok()?,
            _ => return None,
        }
    }
    Some((size, seed))
}

fn family_of(name: &str) -> Option<Family> {
    match name {
        "log" => Some(Family::Log),
        "quorum" => Some(Family::Quorum),
        "inflights" => Some(Family::Inflights),
        _ => None,
    }
}

fn run(size: usize, seed: u64) -> ExitCode {
    println!("sides: the crate raft 0.7.0, the plain program of document 01, {}", engine());
    println!("size {size}, seed {seed}");
    let mut ck = Checker::new();
    let mut report = Report::new();
    let result = compare(&mut ck, &mut report, size, seed);
    ck.tally.print();
    println!(
        "{} calls compared, {} of them on the domain and so with the crate, {:.0} s; {}",
        ck.tally.calls(),
        ck.tally.calls_with_crate(),
        report.seconds(),
        engine()
    );
    verdict(result)
}

fn engine() -> &'static str {
    if cfg!(feature = "engine") {
        "the proved engine"
    } else {
        "AND NO ENGINE: the static library is absent, nothing is said about it"
    }
}

/// Small inputs first, so that the first mismatch is on a small one.
fn compare(ck: &mut Checker, report: &mut Report, size: usize, seed: u64) -> Checked {
    storage::check();
    let (half, ids) = [(5, 3), (7, 4), (8, 6)][size];
    quorum_exhaustive::run(ck, report, &quorum_exhaustive::Bounds { half, ids })?;
    let (ring, calls) = [(2, 3), (3, 4), (4, 5)][size];
    window_exhaustive::run(ck, report, &window_exhaustive::Bounds { ring, calls })?;
    let (most, terms, full) = [(1, 2, 1), (2, 2, 2), (3, 3, 3)][size];
    log_exhaustive::run(ck, report, &log_exhaustive::Bounds { most, terms, full })?;
    cases::run(ck)?;
    report.phase("the cases of document 01", ck);
    random::run(ck, report, seed, [60, 600, 30_000][size])
}

fn call(input: &Input) -> ExitCode {
    let mut ck = Checker::new();
    let result = ck.check(input);
    if result.is_ok() {
        println!("{input}\n    all sides: {}", ck.plain());
        println!("    as a list's answer: {}", lists::answer_line(input, ck.plain()));
    }
    verdict(result)
}

fn list(family: Family, folder: &Path) -> ExitCode {
    match lists::write(family, folder) {
        Ok(result) => verdict(result),
        Err(error) => unreadable(folder, &error),
    }
}

fn replay(folder: &Path) -> ExitCode {
    match lists::replay(&mut Checker::new(), folder) {
        Ok(Ok(count)) => {
            println!("{count} calls of {} answered as written", folder.display());
            ExitCode::SUCCESS
        }
        Ok(Err(what)) => {
            println!("MISMATCH\n{what}");
            ExitCode::FAILURE
        }
        Err(error) => unreadable(folder, &error),
    }
}

fn unreadable(folder: &Path, error: &std::io::Error) -> ExitCode {
    eprintln!("{}: {error}", folder.display());
    ExitCode::from(2)
}

fn verdict(result: Checked) -> ExitCode {
    match result {
        Ok(()) => ExitCode::SUCCESS,
        Err(mismatch) => {
            println!("MISMATCH\n{mismatch}");
            ExitCode::FAILURE
        }
    }
}

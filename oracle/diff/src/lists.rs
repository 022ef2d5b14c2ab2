//! Fixed lists of calls with the answers that are expected (LISTS.md): for programs that replay them with no
//! Rust at hand.

use crate::calls::{Call, Family, CALLS, OUTGOING, PENDING, RING, ROWS, SETTLED, STATE, VOTERS};
use crate::check::{Checked, Checker, Sheet};
use crate::input::{push_words, shown, Input};
use crate::report::Report;
use crate::tally::OUTCOMES;
use crate::{cases, log_exhaustive, quorum_exhaustive, random, window_exhaustive};
use plain::words::ROW;
use std::cell::RefCell;
use std::collections::HashSet;
use std::path::Path;
use std::rc::Rc;
use std::{fs, io};

/// Lines of a list, about: as many of each call and outcome, so that rare refusals are met as often as
/// answers.
const LINES: u64 = 5_000;

/// The seed of the lists' random part: the lists are the same each time.
const SEED: u64 = 20_240_229;

/// How often each call and outcome is met, lines with many rows apart.
type Counts = Vec<[u64; 2 * OUTCOMES]>;

/// Rows of a line that is no longer short, and how many times fewer such lines a list has.
const MANY_ROWS: usize = 20;
const FEWER: u64 = 20;

/// The kind of a line: its call, and its outcome with the many rows apart.
fn kind(input: &Input, sheet: &Sheet) -> (usize, usize) {
    let many = input.call.form().lent.contains(&ROWS) && input.slices[ROWS].len() > MANY_ROWS * ROW;
    (input.call as usize, sheet.refusal as usize + if many { OUTCOMES } else { 0 })
}

#[derive(Default)]
struct Sample {
    known: HashSet<String>,
    met: Counts,
    /// So many of each call and outcome.
    a_kind: u64,
    lines: Vec<String>,
    answers: Vec<String>,
}

/// Writes FOLDER/stdin, the calls, and FOLDER/stdout, the answers. All calls are compared on all sides on the
/// way.
pub fn write(family: Family, folder: &Path) -> io::Result<Checked> {
    let counts = Rc::new(RefCell::new(vec![[0; 2 * OUTCOMES]; CALLS.len()]));
    let counting = counts.clone();
    let first = generate(family, move |input, sheet| {
        let (call, outcome) = kind(input, sheet);
        counting.borrow_mut()[call][outcome] += 1;
    });
    if first.is_err() {
        return Ok(first);
    }
    let kinds = counts.borrow().iter().flatten().filter(|count| **count > 0).count() as u64;
    let met = vec![[0; 2 * OUTCOMES]; CALLS.len()];
    let sample = Rc::new(RefCell::new(Sample { met, a_kind: LINES / kinds, ..Sample::default() }));
    let taking = sample.clone();
    let second =
        generate(family, move |input, sheet| taking.borrow_mut().take(input, sheet, &counts.borrow()));
    let sample = sample.borrow();
    fs::create_dir_all(folder)?;
    fs::write(folder.join("stdin"), sample.lines.concat())?;
    fs::write(folder.join("stdout"), sample.answers.concat())?;
    println!("{} calls, {}", sample.lines.len(), folder.display());
    Ok(second)
}

/// Boundaries first: the document's cases, then small logs, sets or windows, then random ones.
fn generate(family: Family, mut look: impl FnMut(&Input, &Sheet) + 'static) -> Checked {
    let mut ck = Checker::new();
    let mut report = Report::silent();
    ck.watch = Some(Box::new(move |input, sheet, _| {
        if input.call.family() == family && is_short(input) {
            look(input, sheet);
        }
    }));
    cases::run(&mut ck)?;
    match family {
        Family::Log => {
            let bounds = log_exhaustive::Bounds { most: 1, terms: 2, full: 1 };
            log_exhaustive::run(&mut ck, &mut report, &bounds)?;
        }
        Family::Quorum => {
            quorum_exhaustive::run(&mut ck, &mut report, &quorum_exhaustive::Bounds { half: 8, ids: 3 })?;
        }
        Family::Inflights => {
            window_exhaustive::run(&mut ck, &mut report, &window_exhaustive::Bounds { ring: 3, calls: 2 })?;
        }
    }
    random::run(&mut ck, &mut report, SEED, 200)
}

/// The longest slices of a list, in words: a program that replays it needs no more room.
fn longest(call: Call, place: usize) -> usize {
    match (call.family(), place) {
        (_, STATE) => 16,
        (Family::Inflights, RING) => 8,
        (_, SETTLED | PENDING) => 24,
        _ if matches!(call, Call::LogMaybeAppend | Call::LogAppend) => 18,
        (_, VOTERS | OUTGOING) => 9,
        _ => 66 * ROW,
    }
}

fn is_short(input: &Input) -> bool {
    input.call.form().lent.iter().all(|place| input.slices[*place].len() <= longest(input.call, *place))
}

impl Sample {
    /// Takes the first calls of a kind, which are the smallest, and then others spread over all that are met.
    fn take(&mut self, input: &Input, sheet: &Sheet, counts: &Counts) {
        let (call, outcome) = kind(input, sheet);
        let a_kind = if outcome < OUTCOMES { self.a_kind } else { self.a_kind / FEWER };
        let first = a_kind / 5;
        let every = (counts[call][outcome] / (a_kind - first)).max(1);
        let met = &mut self.met[call][outcome];
        *met += 1;
        if *met > first && *met % every != 0 {
            return;
        }
        let line = input.line() + "\n";
        if self.known.insert(line.clone()) {
            self.answers.push(answer_line(input, sheet) + "\n");
            self.lines.push(line);
        }
    }
}

/// What a replay writes for a call: the result, then the words of every slice that a call of its kind may
/// write, changed or not.
pub fn answer_line(input: &Input, sheet: &Sheet) -> String {
    let mut line = sheet.refusal.to_string();
    for place in shown(input.call) {
        push_words(&mut line, &sheet.slices[*place]);
    }
    push_words(&mut line, &sheet.answer);
    line
}

/// Replays a list: every line is read back, run on all sides, and its answer compared with the one written.
pub fn replay(ck: &mut Checker, folder: &Path) -> io::Result<Result<u64, String>> {
    let (calls, answers) =
        (fs::read_to_string(folder.join("stdin"))?, fs::read_to_string(folder.join("stdout"))?);
    if calls.lines().count() != answers.lines().count() {
        return Ok(Err("as many answers as calls are expected".into()));
    }
    let mut count = 0;
    for (line, expected) in calls.lines().zip(answers.lines()) {
        count += 1;
        let found = match Input::parse(line) {
            Some(input) => {
                if let Err(mismatch) = ck.check(&input) {
                    return Ok(Err(mismatch.to_string()));
                }
                answer_line(&input, ck.plain())
            }
            // What a replay writes for a line that names no call.
            None => "?".into(),
        };
        if found != expected {
            return Ok(Err(format!("line {count}: {line}\n    expected {expected}\n    found    {found}")));
        }
    }
    Ok(Ok(count))
}

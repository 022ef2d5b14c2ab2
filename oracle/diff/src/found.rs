//! What the crate does outside the domain of demand 2, where it differs from document 01: one example of each
//! kind, the smallest that is met. `diff found` writes the end of docs/DIFFERENCES.md.

use crate::calls::{Call, Family, OUTGOING, PENDING, RING, ROWS, RUN, SETTLED, STATE, VOTERS};
use crate::check::{Checked, Checker, Mismatch, Sheet};
use crate::crate_side::{Reply, Subject};
use crate::crate_window::{COUNT, START};
use crate::input::{words, Input};
use crate::panics::guarded;
use crate::report::Report;
use crate::{log_exhaustive, quorum_exhaustive, window_exhaustive};
use plain::words::ROW;
use raft_crate::{joint, HashSet, Logger};
use std::cell::RefCell;
use std::collections::BTreeMap;
use std::rc::Rc;

/// A kind of difference: how the crate goes on, the call, our outcome, and what tells it from others of the
/// same.
type Kind = (Way, usize, u64, String);

/// What the crate does where document 01 says otherwise.
#[derive(Clone, Copy, Debug, PartialEq, Eq, PartialOrd, Ord)]
enum Way {
    /// It answers, or goes on.
    Answers,
    /// It panics by accident: a sum that wraps, an index out of range.
    Panics,
    /// It refuses, or stops, as it would for another refusal.
    Stops,
}

/// An example: how large it is, and the two answers.
struct Example {
    size: (usize, usize, String),
    input: Input,
    theirs: String,
    ours: String,
}

type Examples = BTreeMap<Kind, Example>;

pub fn write() -> Checked {
    let examples = Rc::new(RefCell::new(Examples::new()));
    let noting = examples.clone();
    let logger = raft_crate::silent();
    let mut ck = Checker::new();
    ck.watch = Some(Box::new(move |input, sheet, with_crate| {
        if !with_crate && can_be_asked(input, sheet) {
            note(&mut noting.borrow_mut(), input, sheet, &logger);
        }
    }));
    let mut silent = Report::silent();
    log_exhaustive::run(&mut ck, &mut silent, &log_exhaustive::Bounds { most: 1, terms: 2, full: 1 })?;
    quorum_exhaustive::run(&mut ck, &mut silent, &quorum_exhaustive::Bounds { half: 3, ids: 2 })?;
    window_exhaustive::run(&mut ck, &mut silent, &window_exhaustive::Bounds { ring: 2, calls: 2 })?;
    print!("{HEAD}");
    for (way, title) in [
        (Way::Answers, "It answers where document 01 refuses"),
        (Way::Panics, "It panics by accident: a sum that wraps, an index out of range"),
        (Way::Stops, "It refuses or stops, though not as document 01 says"),
    ] {
        println!(
            "\n### {title}\n\n| call | handed | the crate (raft 0.7.0) | document 01 |\n|---|---|---|---|"
        );
        for (_, example) in examples.borrow().iter().filter(|(kind, _)| kind.0 == way) {
            let name = example.input.call.form().name;
            println!("| `{name}` | {} | {} | {} |", handed(&example.input), example.theirs, example.ours);
        }
    }
    print!("{SHAPES_HEAD}");
    shapes(&mut ck)
}

const HEAD: &str = "\
## Outside the domain

One line for each call, refusal of ours and kind of answer of the crate: the smallest input met. A log is written `start
start-term offset count committed persisted applied / settled words / pending words`, a window `start count cap is-deferred
deferred / ring`, a row `id has-ack ack vote`; MAX is u64::MAX. A state that breaks the rules (1, 13) is not among them: no
call of the crate makes one.
";

/// Whether the crate can be asked at all: it does not have every call, a state that breaks the rules can't be
/// made by its calls, it has no runs of part of a record, and it would allocate for a huge cap.
fn can_be_asked(input: &Input, sheet: &Sheet) -> bool {
    let [a, _, c] = input.numbers;
    let whole_records =
        input.call.family() != Family::Log || input.slices[RUN].len() % 3 == 0 || !has_run(input.call);
    match input.call {
        // Set-up: where there is a storage with so many records.
        Call::LogNew => a <= c && c - a <= input.slices[SETTLED].len() as u64 / 2,
        Call::InflightsNew | Call::InflightsSetCap => sheet.refusal == 7 && a < 1000,
        call => !call.is_ours_alone() && !matches!(sheet.refusal, 1 | 13) && whole_records,
    }
}

fn has_run(call: Call) -> bool {
    matches!(call, Call::LogMaybeAppend | Call::LogAppend)
}

/// Asks the crate and keeps the example if it is the smallest of its kind.
fn note(examples: &mut Examples, input: &Input, sheet: &Sheet, logger: &Logger) {
    let asked = guarded(|| {
        let mut subject = Subject::of(input, logger, 0);
        let reply = subject.call(input);
        let differs = subject.differs(&sheet.slices);
        (reply, differs)
    });
    let (reply, differs) = asked.unwrap_or_else(|message| (Reply::Odd(message), None));
    let answer = &sheet.answer[..input.call.form().answer.min(sheet.answer.len())];
    let (way, kind, theirs) = match reply {
        Reply::Refused(number) if number == sheet.refusal => return,
        Reply::Words(words) if sheet.refusal == 0 && differs.is_none() && words == answer => return,
        Reply::Refused(5) => (Way::Stops, "None".into(), "answers `None`".into()),
        Reply::Refused(number) => (Way::Stops, number.to_string(), format!("a fatal error, as for {number}")),
        Reply::Odd(message) => {
            (Way::Panics, message.chars().take(20).collect(), format!("panics: {message}"))
        }
        Reply::Words(numbers) => (Way::Answers, reason(input, sheet), theirs(&numbers, differs)),
        Reply::Records(records) => {
            (Way::Answers, String::new(), format!("answers {} records", records.len()))
        }
    };
    let line = input.line();
    let size = (line.split(' ').count(), line.len(), line);
    let kind = (way, input.call as usize, sheet.refusal, kind);
    if examples.get(&kind).is_none_or(|known| size < known.size) {
        let ours = match sheet.refusal {
            0 => format!("answers {}", words(answer)),
            number => format!("refusal {number}"),
        };
        examples.insert(kind, Example { size, input: input.clone(), theirs, ours });
    }
}

/// Which part of refusal 12 a majority's question meets; joint questions meet the same, and one example is
/// enough.
fn reason(input: &Input, sheet: &Sheet) -> String {
    let is_majority = matches!(input.call, Call::MajorityCommittedIndex | Call::MajorityVoteResult);
    let text = match sheet.refusal {
        12 if is_majority && input.slices[VOTERS].len() > plain::quorum::VOTERS => "voters",
        12 if is_majority && input.slices[ROWS].len() / ROW > plain::quorum::ROWS => "rows",
        12 if is_majority && input.slices[VOTERS].is_sorted_by(|a, b| a < b) => "a repeated row",
        _ => "",
    };
    text.into()
}

/// The crate's answer, and what it then holds where that is another state.
fn theirs(numbers: &[u64], differs: Option<String>) -> String {
    let answer =
        if numbers.is_empty() { "goes on".to_string() } else { format!("answers {}", words(numbers)) };
    differs.map_or(answer.clone(), |state| format!("{answer}; {state}"))
}

/// What a call is handed, for a table.
fn handed(input: &Input) -> String {
    let form = input.call.form();
    let mut parts: Vec<String> = Vec::new();
    for place in form.lent {
        let slice = &input.slices[*place];
        let slice = if *place == STATE { &slice[..input.call.family().state_words()] } else { slice };
        let name = match (input.call, *place) {
            (_, STATE | SETTLED | PENDING) => "",
            (call, RUN) if has_run(call) => "run ",
            (_, VOTERS) => "voters ",
            (_, OUTGOING) => "outgoing ",
            (_, ROWS) => "rows ",
            _ => "",
        };
        // Long lists are said by their length.
        let text = match slice.len() {
            0 => "-".to_string(),
            length if length > 40 => {
                format!("({} rows, the last of id {})", length / ROW, slice[length / ROW * ROW - ROW])
            }
            _ => words(slice),
        };
        parts.push(format!("{name}{}", text.trim_matches(['[', ']'])));
    }
    let numbers: Vec<String> = form
        .numbers
        .iter()
        .zip(&input.numbers)
        .map(|(name, n)| format!("{name} {}", words(&[*n]).trim_matches(['[', ']'])))
        .collect();
    [format!("`{}`", parts.join(" / ")), numbers.join(", ")].join(" ").trim().to_string()
}

const SHAPES_HEAD: &str = "
## The same answers in another shape

| where | input | the crate (raft 0.7.0) | here |
|---|---|---|---|
";

fn shapes(ck: &mut Checker) -> Checked {
    ck.watch = None;
    window_shapes(ck)?;
    ids_order();
    parts(ck)?;
    comments(ck)
}

/// The shortest runs of calls on a new window, in a ring of 2 with cap 1, after which the crate's first
/// flight stands elsewhere: one that leaves the queue empty, and one that does not.
fn window_shapes(ck: &mut Checker) -> Checked {
    const CALLS: [(Call, u64); 3] =
        [(Call::InflightsAdd, 1), (Call::InflightsFreeTo, 1), (Call::InflightsSetCap, 2)];
    let mut seen = [false; 2];
    for length in 1..=4 {
        for number in 0..CALLS.len().pow(length) {
            let path: Vec<(Call, u64)> =
                (0..length).map(|k| CALLS[number / CALLS.len().pow(k) % CALLS.len()]).collect();
            let Some((their_start, state)) = walk(ck, &path)? else { continue };
            let has_flights = state[COUNT] > 0;
            if their_start != state[START] && !seen[has_flights as usize] {
                seen[has_flights as usize] = true;
                let path: Vec<String> =
                    path.iter().map(|(call, n)| format!("`{}({n})`", call.form().name)).collect();
                println!(
                    "| start of {} window | ring of 2, cap 1: {} | start {their_start}: its buffer is used modulo the cap | start {}: modulo the ring's length |",
                    if has_flights { "a" } else { "an emptied" },
                    path.join(", "),
                    state[START]
                );
            }
        }
    }
    Ok(())
}

/// Makes the calls on a new window: the crate's start and our state, or nothing where a call is refused.
fn walk(ck: &mut Checker, path: &[(Call, u64)]) -> Result<Option<(u64, Vec<u64>)>, Box<Mismatch>> {
    let mut input = Input::new(Call::InflightsNew);
    input.set_state(&[0; 5]);
    input.set_slice(RING, &[0, 0]);
    input.numbers[0] = 1;
    ck.check(&input)?;
    let mut subject = Subject::of(&input, ck.logger(), 0);
    for (call, number) in path {
        input.slices = ck.plain().slices.clone();
        input.set(*call, [*number, 0, 0]);
        ck.check_kept(&input, &mut subject)?;
        if ck.plain().refusal != 0 {
            return Ok(None);
        }
    }
    let Subject::Window(window) = subject else { unreachable!("a window stays a window") };
    Ok(Some((window.start() as u64, ck.plain().slices[STATE].clone())))
}

/// The smallest voter set that the crate lists in another order than rising.
fn ids_order() {
    for n in 2..6u64 {
        let incoming: HashSet<u64> = (1..=n).collect();
        let listed: Vec<u64> = joint(incoming, HashSet::default()).ids().iter().collect();
        if !listed.is_sorted() {
            let rising: Vec<u64> = (1..=n).collect();
            println!(
                "| `ids` | incoming {} | {}, its hash set's order | {} |",
                words(&rising),
                words(&listed),
                words(&rising)
            );
            return;
        }
    }
}

/// A slice over both stores, and settling.
fn parts(ck: &mut Checker) -> Checked {
    let mut input = Input::new(Call::LogSlice);
    input.set_state(&[0, 0, 2, 1, 0, 1, 0]);
    input.set_slice(SETTLED, &[1, 100]);
    input.set_slice(PENDING, &[1, 200]);
    input.numbers = [1, 3, 0];
    ck.check(&input)?;
    let part = ck.plain().answer[..5].to_vec();
    println!(
        "| `slice` | {} | both records in one list | the part {}; `slice(2, 3)` goes on |",
        handed(&input),
        words(&part)
    );
    input.set(Call::LogStableEntries, [2, 1, 0]);
    input.set_slice(SETTLED, &[1, 100, 0, 0]);
    ck.check(&input)?;
    let after = &ck.plain().slices[SETTLED];
    println!(
        "| `stable_entries` | {} | writes nothing: its `Storage` has to | settled becomes {} |",
        handed(&input),
        words(after)
    );
    Ok(())
}

/// Where the crate's comment says otherwise than its code; the code decides, here too.
fn comments(ck: &mut Checker) -> Checked {
    let mut input = Input::new(Call::InflightsFreeFirstOne);
    input.set_state(&[0, 2, 2, 0, 0]);
    input.set_slice(RING, &[1, 1]);
    ck.check(&input)?;
    let left = ck.plain().slices[STATE][COUNT];
    println!("| `free_first_one`, whose comment says \"Frees the first buffer entry\" | {} | {left} flights left | the same |", handed(&input));
    let mut input = Input::new(Call::LogFindConflictByTerm);
    input.set_state(&[1, 1, 2, 0, 1, 1, 1]);
    input.numbers = [1, 0, 0];
    ck.check(&input)?;
    let found = ck.plain().answer[0];
    println!("| `find_conflict_by_term`, whose comment promises the log's first index (here 2) where no term is so low | {} | index {found} | the same |", handed(&input));
    Ok(())
}

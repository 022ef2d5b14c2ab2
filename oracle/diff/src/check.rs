//! One call on all sides, compared: every answer, the whole state, every word of every lent slice.

#[cfg(feature = "engine")]
use crate::calls::run_engine;
use crate::calls::{run_plain, Call, Family, Numbers, Slices, PENDING, SETTLED, SLICES, STATE};
use crate::crate_log::{self, COUNT, OFFSET, START};
use crate::crate_side::{on_domain, Reply, Subject};
use crate::input::{words, Input};
use crate::panics::guarded;
use crate::tally::Tally;
use plain::words::PART;
use raft_crate::eraftpb::Entry;
use raft_crate::Logger;
use std::fmt;

/// What a call left behind on one side.
#[derive(Clone, Debug, Default, PartialEq, Eq)]
pub struct Sheet {
    pub refusal: u64,
    pub slices: Slices,
    pub answer: Vec<u64>,
}

type Side = fn(Call, &Numbers, &mut Slices, &mut [u64]) -> u64;

impl Sheet {
    /// Runs one side on copies of what the call is lent. A panic is no answer.
    fn run(&mut self, side: Side, input: &Input) -> Result<(), String> {
        for place in 0..SLICES {
            self.slices[place].clone_from(&input.slices[place]);
        }
        self.answer.clone_from(&input.answer);
        self.refusal = guarded(|| side(input.call, &input.numbers, &mut self.slices, &mut self.answer))?;
        Ok(())
    }
}

impl fmt::Display for Sheet {
    fn fmt(&self, f: &mut fmt::Formatter<'_>) -> fmt::Result {
        match self.refusal {
            0 => write!(f, "answer {}", words(&self.answer))?,
            number => write!(f, "refusal {number}")?,
        }
        let slices = self.slices.iter().filter(|slice| !slice.is_empty());
        write!(f, ", slices after it {}", slices.map(|slice| words(slice)).collect::<Vec<_>>().join(" "))
    }
}

/// Where two sides differ: the input, what each side says, and what was seen.
#[derive(Debug)]
pub struct Mismatch {
    pub input: Input,
    pub sides: Vec<String>,
    pub what: String,
}

impl fmt::Display for Mismatch {
    fn fmt(&self, f: &mut fmt::Formatter<'_>) -> fmt::Result {
        writeln!(f, "{}", self.input)?;
        self.sides.iter().try_for_each(|side| writeln!(f, "    {side}"))?;
        write!(f, "    {}", self.what)
    }
}

pub type Checked = Result<(), Box<Mismatch>>;

/// Looks on at every call that was compared: what it was handed, what became of it, whether the crate was
/// asked.
pub type Watch = Box<dyn FnMut(&Input, &Sheet, bool)>;

/// The crate's log or window of the last input, for the next call on the same.
struct Made {
    from: Slices,
    subject: Subject,
}

pub struct Checker {
    pub tally: Tally,
    pub watch: Option<Watch>,
    /// For windows: how far the crate's queue is turned in its buffer.
    pub turn: u64,
    logger: Logger,
    plain: Sheet,
    #[cfg(feature = "engine")]
    engine: Sheet,
    made: Option<Made>,
}

impl Checker {
    pub fn new() -> Checker {
        Checker {
            tally: Tally::new(),
            watch: None,
            turn: 0,
            logger: raft_crate::silent(),
            plain: Sheet::default(),
            #[cfg(feature = "engine")]
            engine: Sheet::default(),
            made: None,
        }
    }

    /// What the plain program left behind in the last call.
    pub fn plain(&self) -> &Sheet {
        &self.plain
    }

    pub fn logger(&self) -> &Logger {
        &self.logger
    }

    /// Compares all sides on one call; the crate's log or window is made from its input.
    pub fn check(&mut self, input: &Input) -> Checked {
        let result = self.compare_sides(input).and_then(|()| self.compare_made(input));
        self.done(input, result)
    }

    /// The same, the crate's log or window being kept from call to call.
    pub fn check_kept(&mut self, input: &Input, kept: &mut Subject) -> Checked {
        let result = self.compare_sides(input).and_then(|()| {
            let asked = on_domain(input, &self.plain);
            if asked {
                self.compare_on(kept, input)?;
            }
            Ok(asked)
        });
        self.done(input, result)
    }

    fn done(&mut self, input: &Input, result: Result<bool, String>) -> Checked {
        match result {
            Ok(with_crate) => {
                self.tally.count(input.call, self.plain.refusal, with_crate);
                if let Some(watch) = &mut self.watch {
                    watch(input, &self.plain, with_crate);
                }
                Ok(())
            }
            Err(what) => Err(self.mismatch(input, what)),
        }
    }

    /// All that a reader needs: the crate is asked once more, on a log or window made from the input.
    pub fn mismatch(&self, input: &Input, what: String) -> Box<Mismatch> {
        let mut sides = vec![format!("plain: {}", self.plain)];
        #[cfg(feature = "engine")]
        sides.push(format!("engine: {}", self.engine));
        let asked = guarded(|| {
            on_domain(input, &self.plain).then(|| {
                let mut subject = Subject::of(input, &self.logger, self.turn);
                let reply = subject.call(input);
                format!(
                    "{reply:?}, {}",
                    subject.differs(&self.plain.slices).unwrap_or("then as plain".into())
                )
            })
        });
        let crate_says = asked.unwrap_or_else(Some).unwrap_or("not asked, outside the domain".into());
        sides.push(format!("crate: {crate_says}"));
        Box::new(Mismatch { input: input.clone(), sides, what })
    }

    /// The plain program and the engine.
    fn compare_sides(&mut self, input: &Input) -> Result<(), String> {
        self.plain.run(run_plain, input).map_err(|message| format!("plain panics: {message}"))?;
        #[cfg(feature = "engine")]
        {
            self.engine.run(run_engine, input).map_err(|message| format!("the engine panics: {message}"))?;
            same(self.engine == self.plain, || "the engine differs from plain".into())?;
        }
        untouched(input, &self.plain)
    }

    /// The crate, if the call is on the domain; says whether.
    fn compare_made(&mut self, input: &Input) -> Result<bool, String> {
        if !on_domain(input, &self.plain) {
            return Ok(false);
        }
        let known = self.made.take().filter(|made| {
            let carried = |place: usize| made.from[place] == input.slices[place];
            !input.call.sets_up() && [STATE, SETTLED, PENDING].into_iter().all(carried)
        });
        let mut made = match known {
            Some(made) => made,
            None => Made {
                from: input.slices.clone(),
                subject: guarded(|| Subject::of(input, &self.logger, self.turn))?,
            },
        };
        self.compare_on(&mut made.subject, input)?;
        // Settling writes the crate's storage, refused or not.
        if self.plain.slices == input.slices && input.call != Call::LogStableEntries && !input.call.sets_up()
        {
            self.made = Some(made);
        }
        Ok(true)
    }

    /// Makes the call on the crate's side and compares its answer and what it then holds.
    fn compare_on(&mut self, subject: &mut Subject, input: &Input) -> Result<(), String> {
        let reply = subject.call(input);
        let agrees = match &reply {
            Reply::Words(words) => {
                self.plain.refusal == 0 && self.plain.answer[..input.call.form().answer] == words[..]
            }
            Reply::Records(records) => self.joined(input)?.as_ref() == Some(records),
            Reply::Refused(number) => self.plain.refusal == *number,
            Reply::Odd(_) => false,
        };
        same(agrees, || format!("the crate answers otherwise than plain: {reply:?}"))?;
        subject.differs(&self.plain.slices).map_or(Ok(()), Err)
    }

    /// The parts of a slice joined: the last call's, and from its end on until the whole range is there.
    /// Nothing where the call is refused.
    fn joined(&mut self, input: &Input) -> Result<Option<Vec<Entry>>, String> {
        if self.plain.refusal != 0 {
            return Ok(None);
        }
        let high = crate_log::slice_end(input);
        let mut part: Vec<u64> = self.plain.answer[..PART].to_vec();
        let mut records = crate_log::part_records(&part, &input.slices);
        while part[0] != 0 && part[2] < high {
            part = self.next_part(input, part[2], high)?;
            records.extend(crate_log::part_records(&part, &input.slices));
        }
        Ok(Some(records))
    }

    /// The part of a slice from an index on, by the plain program and the engine.
    fn next_part(&self, input: &Input, low: u64, high: u64) -> Result<Vec<u64>, String> {
        let mut next = input.clone();
        next.set(Call::LogSlice, [low, high, 0]);
        let mut sheet = Sheet::default();
        sheet.run(run_plain, &next)?;
        #[cfg(feature = "engine")]
        {
            let mut engine = Sheet::default();
            engine.run(run_engine, &next)?;
            same(engine == sheet, || {
                format!("going on with {next}\n    plain: {sheet}\n    engine: {engine}")
            })?;
        }
        same(sheet.refusal == 0 && sheet.answer[0] != 0, || {
            format!("no further part: {next}\n    plain: {sheet}")
        })?;
        Ok(sheet.answer[..PART].to_vec())
    }
}

fn same(agrees: bool, what: impl FnOnce() -> String) -> Result<(), String> {
    if agrees {
        Ok(())
    } else {
        Err(what())
    }
}

/// "A refusal leaves the state and every lent buffer as they were"; and where a call answers, only the words
/// that it adds or copies may be other than before. This is said of the plain program without its help; the
/// engine is equal to it.
fn untouched(input: &Input, after: &Sheet) -> Result<(), String> {
    let answer = if after.refusal == 0 { input.call.form().answer } else { 0 };
    same(after.answer[answer..] == input.answer[answer..], || "a word behind the answer is written".into())?;
    for place in 0..SLICES {
        let (before, now) = (&input.slices[place], &after.slices[place]);
        if before == now {
            continue;
        }
        let may = after.refusal == 0 && input.call.form().written.contains(&place);
        same(may, || format!("slice {place} is changed: {}", words(now)))?;
        let range = writable(input, after, place);
        let outside = |k: usize| k < range.0 || k >= range.1;
        let stays = before.len() == now.len() && (0..now.len()).all(|k| !outside(k) || before[k] == now[k]);
        same(stays, || format!("a word of slice {place} outside {range:?} is changed: {}", words(now)))?;
    }
    Ok(())
}

/// The words of a slice that a call which answers may change: the state; of the pending store the records
/// that the new state counts; of the settled store those between the old and the new offset; of a ring one
/// word.
fn writable(input: &Input, after: &Sheet, place: usize) -> (usize, usize) {
    let (before, now) = (&input.slices[STATE], &after.slices[STATE]);
    match (input.call.family(), place) {
        (family, STATE) => (0, family.state_words()),
        (Family::Log, SETTLED) => {
            let records = |state: &[u64]| (state[OFFSET] - 1 - state[START]) as usize;
            (2 * records(before), 2 * records(now))
        }
        (Family::Log, PENDING) => (0, 2 * now[COUNT] as usize),
        _ => {
            let changed = input.slices[place].iter().zip(&after.slices[place]).position(|(a, b)| a != b);
            changed.map_or((0, 0), |k| (k, k + 1))
        }
    }
}

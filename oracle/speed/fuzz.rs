//! Random messages, good and bad, to random logs: all sides must give the same result and leave the same words.

use crate::{Side, SIDES};

/// Xorshift: the same messages in every run.
struct Random(u64);

impl Random {
    fn below(&mut self, n: u64) -> u64 {
        self.0 ^= self.0 << 13;
        self.0 ^= self.0 >> 7;
        self.0 ^= self.0 << 17;
        self.0 % n
    }

    fn one_in(&mut self, n: u64) -> bool {
        self.below(n) == 0
    }

    /// Never 0, and small, so that terms often agree.
    fn term(&mut self) -> u64 {
        1 + self.below(3)
    }

    fn terms(&mut self, below: u64) -> Vec<u64> {
        (0..self.below(below)).map(|_| self.term()).collect()
    }

    /// A number that no rule expects: small, or at the end of the range.
    fn odd(&mut self) -> u64 {
        match self.below(2) {
            0 => self.below(12),
            _ => u64::MAX - self.below(4),
        }
    }
}

struct Case {
    log: Vec<u64>,
    settled: Vec<u64>,
    pending: Vec<u64>,
    idx: u64,
    term: u64,
    commit: u64,
    run: Vec<u64>,
    answer: Vec<u64>,
}

/// Everything that a side may write, and its result.
#[derive(PartialEq, Debug)]
struct Outcome {
    result: u64,
    log: Vec<u64>,
    pending: Vec<u64>,
    answer: Vec<u64>,
}

/// What a log holds, by terms: the messages are made to fit it, most of the time.
struct Held {
    start: u64,
    start_term: u64,
    settled: Vec<u64>,
    pending: Vec<u64>,
}

impl Held {
    fn random(rng: &mut Random) -> Held {
        // low, or so high that the last record comes near the limit
        let start = match rng.below(20) {
            0 => u64::MAX - 8 - rng.below(8),
            _ => rng.below(3),
        };
        Held {
            start,
            start_term: if start == 0 { 0 } else { rng.term() },
            settled: rng.terms(4),
            pending: rng.terms(5),
        }
    }

    fn records(&self) -> u64 {
        (self.settled.len() + self.pending.len()) as u64
    }

    fn last(&self) -> u64 {
        self.start + self.records()
    }

    fn term(&self, index: u64) -> Option<u64> {
        let after = index.checked_sub(self.start)?;
        let mut terms = std::iter::once(&self.start_term).chain(&self.settled).chain(&self.pending);
        terms.nth(after.min(self.records() + 1) as usize).copied()
    }

    /// Start, start term, offset, count, committed, persisted, applied; now and then one word is wrong, or missing.
    fn state(&self, rng: &mut Random) -> Vec<u64> {
        let offset = self.start + 1 + self.settled.len() as u64;
        let applied = self.start + rng.below(offset - self.start);
        let committed = applied + rng.below(self.last() - applied + 1);
        let persisted = applied + rng.below(offset - applied);
        let count = self.pending.len() as u64;
        let mut words = vec![self.start, self.start_term, offset, count, committed, persisted, applied];
        if rng.one_in(12) {
            words[rng.below(7) as usize] = rng.odd();
        }
        words.resize(slice_length(rng, 7), 9);
        words
    }

    /// The index and the term of the previous record that a message names.
    fn previous(&self, rng: &mut Random) -> (u64, u64) {
        let idx = match rng.below(20) {
            0 => rng.odd(),
            1 => self.last().wrapping_add(1 + rng.below(2)),
            _ => self.start + rng.below(self.records() + 1),
        };
        let held = self.term(idx).filter(|_| !rng.one_in(6));
        (idx, held.unwrap_or_else(|| rng.below(4)))
    }

    /// A run that repeats what is held after idx for a while.
    fn run(&self, rng: &mut Random, idx: u64) -> Vec<u64> {
        let mut run = Vec::new();
        for k in 0..rng.below(6) {
            let index = idx.wrapping_add(1 + k);
            let same = self.term(index).filter(|&t| t != 0 && !rng.one_in(8));
            run.extend([index, same.unwrap_or_else(|| rng.term()), rng.below(1000)]);
        }
        damage(rng, &mut run);
        run
    }
}

/// Now and then one word short, else long enough with some to spare.
fn slice_length(rng: &mut Random, words: usize) -> usize {
    match rng.below(100) {
        0 => words - 1,
        _ => words + rng.below(3) as usize,
    }
}

/// Often nothing; sometimes two words, so that it shows which refusal comes first.
fn damage(rng: &mut Random, run: &mut Vec<u64>) {
    for _ in 0..rng.below(8).saturating_sub(5) {
        let word = rng.below(run.len() as u64 + 1) as usize;
        match run.get_mut(word) {
            Some(term) if word % 3 == 1 => *term = 0,
            Some(other) => *other = rng.odd(),
            None => run.push(1),
        }
    }
}

/// A store of these records, with room for `spare` words more; now and then too short.
fn store(rng: &mut Random, terms: &[u64], spare: u64) -> Vec<u64> {
    let mut words: Vec<u64> = terms.iter().flat_map(|&t| [t, rng.below(1000)]).collect();
    words.resize(words.len() + rng.below(spare) as usize, 7);
    if rng.one_in(60) {
        words.truncate(words.len() / 2);
    }
    words
}

fn random_case(rng: &mut Random) -> Case {
    let held = Held::random(rng);
    let (idx, term) = held.previous(rng);
    Case {
        log: held.state(rng),
        settled: store(rng, &held.settled, 5),
        pending: store(rng, &held.pending, 12),
        idx,
        term,
        commit: match rng.below(10) {
            0 => rng.odd(),
            _ => held.start.wrapping_add(rng.below(held.records() + 3)),
        },
        run: held.run(rng, idx),
        answer: vec![8; slice_length(rng, 2)],
    }
}

fn outcome(side: &Side, case: &Case) -> Outcome {
    let mut log = case.log.clone();
    let mut pending = case.pending.clone();
    let mut answer = case.answer.clone();
    let result = (side.call)(
        &mut log,
        &case.settled,
        &mut pending,
        case.idx,
        case.term,
        case.commit,
        &case.run,
        &mut answer,
    );
    Outcome { result, log, pending, answer }
}

pub fn compare(messages: u64) {
    let [first, others @ ..] = &SIDES;
    let mut rng = Random(88172645463325252);
    let mut results = [0u64; 8];
    for k in 0..messages {
        let case = random_case(&mut rng);
        let expected = outcome(first, &case);
        for side in others {
            let found = outcome(side, &case);
            assert_eq!(expected, found, "{} and {} differ at message {k}", first.name, side.name);
        }
        results[expected.result as usize] += 1;
        if (k + 1) % messages.div_ceil(4) == 0 {
            eprintln!("{} messages alike", k + 1);
        }
    }
    println!("{messages} random messages: the same result, state, store and answer on all sides.");
    println!("How often each result:");
    for (result, times) in results.iter().enumerate() {
        println!("  {result}  {times}");
    }
    assert!(results.iter().all(|&times| times > 0), "a result never occurred");
}

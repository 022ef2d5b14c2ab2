//! The rules of document 01 (01-scope.md) as a plain program, to be read beside it: each rule has the document's
//! sentence above it. Where the document leaves a point open, docs/DECISIONS.md decides: "(open points)" marks a
//! sentence of that kind. Speed is no aim.
//!
//! `log`, `quorum`, `leader` and `inflights` have the calls over Rust's own types; `words` has them once more
//! over words, as include/deckplover.h declares them, which is what the differential runs call.

#![forbid(unsafe_code)]
// A remainder reads as the document does.
#![allow(clippy::manual_is_multiple_of)]

pub mod inflights;
pub mod leader;
pub mod log;
pub mod quorum;
pub mod words;

/// "Every refusal returns its number alone and changes nothing."
pub type Refusal = u64;

/// What a call answers: its values, or the number of a refusal.
pub type Answer<T> = Result<T, Refusal>;

/// The refusals of one call in the order in which they are to be looked at: the first that holds is given.
pub(crate) fn first_refusal(rules: &[(Refusal, bool)]) -> Answer<()> {
    match rules.iter().find(|(_, holds)| *holds) {
        Some((number, _)) => Err(*number),
        None => Ok(()),
    }
}

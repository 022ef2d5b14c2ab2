//! The inflight window: document 01, "Modules in port order" 3 (Inflights), "What must change shape", and refusals
//! 7, 11 and 13.
//!
//! "The ring is used modulo its own length, so flights never move".

use crate::{first_refusal, Answer};

/// "A queue of u64 flights." They stand in a lent ring from place `start` on, `count` of them.
#[derive(Debug, Clone, Copy, PartialEq, Eq)]
pub struct Window {
    pub start: u64,
    pub count: u64,
    pub cap: u64,
    pub deferred: Option<u64>,
}

/// The ring's length.
fn length(ring: &[u64]) -> u64 {
    ring.len() as u64
}

// Refusal 13: "window state broken".

/// 13: "count above cap"
fn count_above_cap(window: &Window) -> bool {
    window.count > window.cap
}

/// 13: "cap above the ring"; 7: "a window cap above the ring's length"
fn cap_above_ring(cap: u64, ring: &[u64]) -> bool {
    cap > length(ring)
}

/// 13: "a start outside the ring"; "An empty ring has start 0."
fn start_outside_ring(window: &Window, ring: &[u64]) -> bool {
    if ring.is_empty() {
        return window.start != 0;
    }
    window.start >= length(ring)
}

/// 13: "a deferred cap that is not below cap"
fn deferred_not_below_cap(window: &Window) -> bool {
    window.deferred.is_some_and(|deferred| deferred >= window.cap)
}

/// 13: "a deferred cap that [..] stands beside an empty queue"
fn deferred_beside_empty(window: &Window) -> bool {
    window.deferred.is_some() && is_empty(window)
}

/// 13: "window state broken: count above cap, cap above the ring, a start outside the ring, or a deferred cap that
/// is not below cap or stands beside an empty queue"
fn broken(window: &Window, ring: &[u64]) -> bool {
    let count_above_cap = count_above_cap(window);
    let cap_above_ring = cap_above_ring(window.cap, ring);
    let start_outside_ring = start_outside_ring(window, ring);
    let deferred_not_below_cap = deferred_not_below_cap(window);
    let deferred_beside_empty = deferred_beside_empty(window);
    count_above_cap || cap_above_ring || start_outside_ring || deferred_not_below_cap || deferred_beside_empty
}

// Inner steps.

/// The queue has no flight.
fn is_empty(window: &Window) -> bool {
    window.count == 0
}

/// "`full` is count = cap, or a deferred cap exists and count is at least that."
fn is_full(window: &Window) -> bool {
    let at_cap = window.count == window.cap;
    let at_deferred = window.deferred.is_some_and(|deferred| window.count >= deferred);
    at_cap || at_deferred
}

/// "The ring is used modulo its own length": the place `steps` after the start. "An empty ring has start 0."
fn place(window: &Window, ring: &[u64], steps: u64) -> u64 {
    let length = u128::from(length(ring));
    let sum = u128::from(window.start) + u128::from(steps);
    let place = sum.checked_rem(length).unwrap_or(0);
    place as u64
}

/// The flights, the front one first. A window that is not broken has at most as many as the ring has places.
fn flights(window: &Window, ring: &[u64]) -> Vec<u64> {
    let places = (0..window.count).take(ring.len()).map(|steps| place(window, ring, steps));
    places.filter_map(|place| ring.get(place as usize).copied()).collect()
}

/// "Emptying takes up a deferred cap."; "start becomes 0 [..] when a deferred cap takes effect on emptying".
fn take_deferred(window: &mut Window) {
    if let Some(deferred) = window.deferred {
        window.cap = deferred;
        window.deferred = None;
        window.start = 0;
    }
}

/// "`free_to(to)` drops from the front while the flight is at most `to`, stopping at the first larger one."
fn dropped(window: &Window, ring: &[u64], to: u64) -> u64 {
    let goes = |flight: &u64| *flight <= to;
    flights(window, ring).into_iter().take_while(goes).count() as u64
}

/// Drops this many from the front. "`free_to` that empties with no deferred cap | start is (start + count) modulo
/// the ring's length, not 0" (open points); with a deferred cap, emptying takes it up.
fn drop_front(window: &mut Window, ring: &[u64], dropped: u64) {
    window.start = place(window, ring, dropped);
    window.count = window.count.saturating_sub(dropped);
    if is_empty(window) {
        take_deferred(window);
    }
}

// The calls.

/// "`new` refuses only 7" (open points); 7: "a window cap above the ring's length".
pub fn new(cap: u64, ring: &[u64]) -> Answer<Window> {
    first_refusal(&[(7, cap_above_ring(cap, ring))])?;
    Ok(Window { start: 0, count: 0, cap, deferred: None })
}

/// "`set_cap`: equal to the current cap cancels a deferred change; larger takes effect and cancels it; smaller
/// takes effect if the queue is empty, else is deferred until it empties."
/// "start becomes 0 when `set_cap` shrinks an empty queue".
pub fn set_cap(window: &mut Window, ring: &[u64], cap: u64) -> Answer<()> {
    first_refusal(&[
        (13, broken(window, ring)),     // "13 before 7 and 11"
        (7, cap_above_ring(cap, ring)), // "a window cap above the ring's length"
    ])?;
    if cap == window.cap {
        window.deferred = None;
    } else if cap > window.cap {
        window.cap = cap;
        window.deferred = None;
    } else if is_empty(window) {
        window.cap = cap;
        window.start = 0;
    } else {
        window.deferred = Some(cap);
    }
    Ok(())
}

/// "`add` puts one last."; "Only `add` writes a word."
pub fn add(window: &mut Window, ring: &mut [u64], inflight: u64) -> Answer<()> {
    first_refusal(&[
        (13, broken(window, ring)), // "13 before 7 and 11"
        (11, is_full(window)),      // "`add` to a full window"
    ])?;
    let last = place(window, ring, window.count);
    if let Some(word) = ring.get_mut(last as usize) {
        *word = inflight;
    }
    window.count = window.count.saturating_add(1);
    Ok(())
}

/// "`free_to(to)` drops from the front while the flight is at most `to`, stopping at the first larger one."
pub fn free_to(window: &mut Window, ring: &[u64], to: u64) -> Answer<()> {
    first_refusal(&[(13, broken(window, ring))])?;
    let dropped = dropped(window, ring, to);
    drop_front(window, ring, dropped);
    Ok(())
}

/// "`free_first_one` does so with the first flight's value, so equal or smaller flights right behind it go too,
/// though its comment says one." An empty queue has no first flight: nothing is dropped.
pub fn free_first_one(window: &mut Window, ring: &[u64]) -> Answer<()> {
    first_refusal(&[(13, broken(window, ring))])?;
    match flights(window, ring).first() {
        Some(first) => free_to(window, ring, *first),
        None => Ok(()),
    }
}

/// "`reset` empties and takes the deferred cap."; "start becomes 0 [..] on `reset`".
pub fn reset(window: &mut Window, ring: &[u64]) -> Answer<()> {
    first_refusal(&[(13, broken(window, ring))])?;
    take_deferred(window);
    window.count = 0;
    window.start = 0;
    Ok(())
}

/// "start becomes 0 [..] on `maybe_free_buffer` of an empty queue."
pub fn maybe_free_buffer(window: &mut Window, ring: &[u64]) -> Answer<()> {
    first_refusal(&[(13, broken(window, ring))])?;
    if is_empty(window) {
        window.start = 0;
    }
    Ok(())
}

/// "`full` is count = cap, or a deferred cap exists and count is at least that."; "`full` and `count` take the ring
/// too and refuse 13" (open points).
pub fn full(window: &Window, ring: &[u64]) -> Answer<bool> {
    first_refusal(&[(13, broken(window, ring))])?;
    Ok(is_full(window))
}

/// "`full` and `count` take the ring too and refuse 13" (open points).
pub fn count(window: &Window, ring: &[u64]) -> Answer<u64> {
    first_refusal(&[(13, broken(window, ring))])?;
    Ok(window.count)
}

#[cfg(test)]
mod tests {
    use super::*;

    /// A window of this cap over a ring of this length, with these flights added.
    fn with(cap: u64, length: usize, flights: &[u64]) -> (Window, Vec<u64>) {
        let mut ring = vec![77; length];
        let mut window = new(cap, &ring).unwrap();
        for flight in flights {
            assert_eq!(add(&mut window, &mut ring, *flight), Ok(()));
        }
        (window, ring)
    }

    /// "P: cap 4, flights 5,5,6: set_cap(2) defers and is full; free_to(5) leaves 6, not full."
    #[test]
    fn case_deferred_cap() {
        let (mut window, ring) = with(4, 4, &[5, 5, 6]);
        assert_eq!(set_cap(&mut window, &ring, 2), Ok(()));
        assert_eq!(window, Window { start: 0, count: 3, cap: 4, deferred: Some(2) });
        assert_eq!(full(&window, &ring), Ok(true));
        assert_eq!(free_to(&mut window, &ring, 5), Ok(()));
        assert_eq!(window, Window { start: 2, count: 1, cap: 4, deferred: Some(2) });
        assert_eq!(flights(&window, &ring), [6]);
        assert_eq!(full(&window, &ring), Ok(false));
        assert_eq!(free_to(&mut window, &ring, 6), Ok(()));
        assert_eq!(window, Window { start: 0, count: 0, cap: 2, deferred: None });
    }

    /// "freeing every flight at most `to` when a larger one stands in front" is a tempting mistake.
    #[test]
    fn larger_in_front() {
        let (mut window, ring) = with(4, 4, &[9, 5]);
        assert_eq!(free_to(&mut window, &ring, 8), Ok(()));
        assert_eq!(flights(&window, &ring), [9, 5]);
    }

    /// "so equal or smaller flights right behind it go too"
    #[test]
    fn first_one() {
        let (mut window, ring) = with(4, 4, &[5, 5, 3, 6]);
        assert_eq!(free_first_one(&mut window, &ring), Ok(()));
        assert_eq!(flights(&window, &ring), [6]);
        let (mut window, ring) = with(4, 4, &[]);
        assert_eq!(free_first_one(&mut window, &ring), Ok(()));
        assert_eq!(window, new(4, &ring).unwrap());
    }

    /// "equal to the current cap cancels a deferred change; larger takes effect and cancels it; smaller takes
    /// effect if the queue is empty, else is deferred until it empties."
    #[test]
    fn caps() {
        let (mut window, ring) = with(3, 4, &[5, 6]);
        set_cap(&mut window, &ring, 1).unwrap();
        assert_eq!(window.deferred, Some(1));
        set_cap(&mut window, &ring, 3).unwrap();
        assert_eq!((window.cap, window.deferred), (3, None));
        set_cap(&mut window, &ring, 0).unwrap();
        set_cap(&mut window, &ring, 4).unwrap();
        assert_eq!((window.cap, window.deferred), (4, None));
        assert_eq!(set_cap(&mut window, &ring, 5), Err(7));
        free_to(&mut window, &ring, 6).unwrap();
        assert_eq!(window, Window { start: 2, count: 0, cap: 4, deferred: None });
        set_cap(&mut window, &ring, 4).unwrap();
        assert_eq!(window.start, 2);
        set_cap(&mut window, &ring, 1).unwrap();
        assert_eq!(window, Window { start: 0, count: 0, cap: 1, deferred: None });
    }

    /// "The ring is used modulo its own length, so flights never move"; "Only `add` writes a word."
    #[test]
    fn round_the_ring() {
        let (mut window, mut ring) = with(2, 3, &[5, 6]);
        free_to(&mut window, &ring, 6).unwrap();
        assert_eq!(window, Window { start: 2, count: 0, cap: 2, deferred: None });
        add(&mut window, &mut ring, 7).unwrap();
        add(&mut window, &mut ring, 8).unwrap();
        assert_eq!(add(&mut window, &mut ring, 9), Err(11));
        assert_eq!((ring.as_slice(), flights(&window, &ring)), ([8, 6, 7].as_slice(), vec![7, 8]));
        free_to(&mut window, &ring, 8).unwrap();
        assert_eq!(window, Window { start: 1, count: 0, cap: 2, deferred: None });
    }

    /// "start becomes 0 [..] on `reset` and on `maybe_free_buffer` of an empty queue."
    #[test]
    fn start_becomes_0() {
        let (mut window, ring) = with(3, 3, &[5, 9, 9]);
        free_to(&mut window, &ring, 5).unwrap();
        set_cap(&mut window, &ring, 2).unwrap();
        let before = window;
        maybe_free_buffer(&mut window, &ring).unwrap();
        assert_eq!(window, before);
        reset(&mut window, &ring).unwrap();
        assert_eq!(window, Window { start: 0, count: 0, cap: 2, deferred: None });
        window.start = 2;
        maybe_free_buffer(&mut window, &ring).unwrap();
        assert_eq!(window, Window { start: 0, count: 0, cap: 2, deferred: None });
        window.start = 2;
        reset(&mut window, &ring).unwrap();
        assert_eq!(window, Window { start: 0, count: 0, cap: 2, deferred: None });
    }

    /// "window state broken: count above cap, cap above the ring, a start outside the ring, or a deferred cap that
    /// is not below cap or stands beside an empty queue"; "An empty ring has start 0."
    #[test]
    fn refusal_13() {
        let ring = [7; 4];
        let whole = Window { start: 3, count: 2, cap: 4, deferred: Some(3) };
        assert_eq!(count(&whole, &ring), Ok(2));
        assert_eq!(count(&Window { count: 5, ..whole }, &ring), Err(13));
        assert_eq!(count(&Window { cap: 5, ..whole }, &ring), Err(13));
        assert_eq!(count(&Window { start: 4, ..whole }, &ring), Err(13));
        assert_eq!(count(&Window { deferred: Some(4), ..whole }, &ring), Err(13));
        assert_eq!(count(&Window { count: 0, ..whole }, &ring), Err(13));
        assert_eq!(set_cap(&mut Window { cap: 5, ..whole }, &ring, 9), Err(13));
        let bare = Window { start: 0, count: 0, cap: 0, deferred: None };
        assert_eq!(full(&bare, &[]), Ok(true));
        assert_eq!(add(&mut bare.clone(), &mut [], 1), Err(11));
        assert_eq!(full(&Window { start: 1, ..bare }, &[]), Err(13));
        assert_eq!(new(1, &[]), Err(7));
    }

    /// Each call that changes a window, by number.
    fn call(number: u64, window: &mut Window, ring: &mut [u64], argument: u64) -> Answer<()> {
        match number {
            0 => set_cap(window, ring, argument),
            1 => add(window, ring, argument),
            2 => free_to(window, ring, argument),
            3 => free_first_one(window, ring),
            4 => reset(window, ring),
            5 => maybe_free_buffer(window, ring),
            6 => full(window, ring).map(|_| ()),
            _ => count(window, ring).map(|_| ()),
        }
    }

    /// From any window and any number: nothing panics, a refusal changes nothing, and what is not refused is whole.
    fn try_all_calls(before: Window, length: usize, argument: u64) {
        for number in 0..8 {
            let (mut window, mut ring) = (before, vec![1; length]);
            let answer = call(number, &mut window, &mut ring, argument);
            if answer.is_err() {
                assert_eq!((window, ring), (before, vec![1; length]));
            } else {
                assert!(!broken(&before, &ring) && !broken(&window, &ring));
            }
        }
    }

    /// "Every refusal returns its number alone and changes nothing."
    #[test]
    fn any_state_any_number() {
        let values = [0, 1, 2, 3, u64::MAX - 1, u64::MAX];
        for (start, count, cap) in triples(&values) {
            for (length, deferred, argument) in triples(&values) {
                let length = length.min(3) as usize;
                try_all_calls(Window { start, count, cap, deferred: None }, length, argument);
                try_all_calls(Window { start, count, cap, deferred: Some(deferred) }, length, argument);
            }
        }
    }

    fn triples(values: &[u64]) -> Vec<(u64, u64, u64)> {
        let pairs = values.iter().flat_map(|a| values.iter().map(move |b| (*a, *b)));
        pairs.flat_map(|(a, b)| values.iter().map(move |c| (a, b, *c))).collect()
    }
}

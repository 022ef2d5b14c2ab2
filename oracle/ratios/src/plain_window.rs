//! `add` and `free_to` by the rules of document 01 in the obvious way, over the words that the engine reads: a place behind
//! the ring's end is found by one subtraction. (oracle/plain has the same rules to be read: it divides in u128.)

use plain::words::WINDOW;

const BAD_INPUT: u64 = 1;
const FULL: u64 = 11;
const BAD_WINDOW: u64 = 13;

struct Window {
    start: u64,
    count: u64,
    cap: u64,
    deferred: Option<u64>,
}

impl Window {
    fn load(words: &[u64]) -> Window {
        let deferred = (words[3] != 0).then_some(words[4]);
        Window { start: words[0], count: words[1], cap: words[2], deferred }
    }

    fn store(&self, words: &mut [u64]) {
        let (is_deferred, deferred) = (u64::from(self.deferred.is_some()), self.deferred.unwrap_or(0));
        words[..WINDOW].copy_from_slice(&[self.start, self.count, self.cap, is_deferred, deferred]);
    }

    fn is_broken(&self, ring: &[u64]) -> bool {
        let length = ring.len() as u64;
        self.count > self.cap
            || self.cap > length
            || (self.start != 0 && self.start >= length)
            || self.deferred.is_some_and(|cap| cap >= self.cap || self.count == 0)
    }

    fn is_full(&self) -> bool {
        self.count == self.cap || self.deferred.is_some_and(|cap| self.count >= cap)
    }

    /// The place of the k-th flight, k being at most the count and so at most the ring's length.
    fn place(&self, ring: &[u64], k: u64) -> u64 {
        let place = self.start + k;
        let length = ring.len() as u64;
        if place >= length {
            place - length
        } else {
            place
        }
    }

    fn drop_front(&mut self, ring: &[u64], to: u64) {
        let mut dropped = 0;
        while dropped < self.count && ring[self.place(ring, dropped) as usize] <= to {
            dropped += 1;
        }
        if dropped == 0 {
            return;
        }
        self.start = self.place(ring, dropped);
        self.count -= dropped;
        if self.count == 0 {
            if let Some(cap) = self.deferred.take() {
                self.cap = cap;
                self.start = 0;
            }
        }
    }
}

#[inline(never)]
pub fn add(words: &mut [u64], ring: &mut [u64], inflight: u64) -> u64 {
    if words.len() < WINDOW {
        return BAD_INPUT;
    }
    let mut window = Window::load(words);
    if window.is_broken(ring) {
        return BAD_WINDOW;
    }
    if window.is_full() {
        return FULL;
    }
    ring[window.place(ring, window.count) as usize] = inflight;
    window.count += 1;
    window.store(words);
    0
}

#[inline(never)]
pub fn free_to(words: &mut [u64], ring: &[u64], to: u64) -> u64 {
    if words.len() < WINDOW {
        return BAD_INPUT;
    }
    let mut window = Window::load(words);
    if window.is_broken(ring) {
        return BAD_WINDOW;
    }
    window.drop_front(ring, to);
    window.store(words);
    0
}

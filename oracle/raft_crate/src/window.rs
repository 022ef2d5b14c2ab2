// Included behind the crate's inflights.rs, in the same module: its fields are private.

impl Inflights {
    /// The flights, first to last.
    pub fn flights(&self) -> impl Iterator<Item = u64> + '_ {
        (0..self.count).map(move |k| self.buffer[(self.start + k) % self.cap])
    }

    /// Where the first flight stands in the crate's own buffer.
    pub fn start(&self) -> usize {
        self.start
    }

    pub fn cap(&self) -> usize {
        self.cap
    }

    /// The smaller cap that waits for the queue to empty.
    pub fn deferred(&self) -> Option<usize> {
        self.incoming_cap
    }
}

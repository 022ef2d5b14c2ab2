//! A site of the register, from Rust through the static library. From the root of the repository:
//!     bash tools/staticlib.sh
//!     rustc -L target/staticlib -l static=exports docs/first/first.rs -o target/first_rs && ./target/first_rs

// As include/deckplover.h declares them: a slice is a pointer and a length.
extern "C" {
    fn log_new(start: u64, start_term: u64, last: u64, settled: *const u64, settled_len: usize,
               pending: *const u64, pending_len: usize, log: *mut u64, log_len: usize) -> u64;
    fn log_maybe_append(log: *mut u64, log_len: usize, settled: *const u64, settled_len: usize,
                        pending: *mut u64, pending_len: usize, idx: u64, term: u64, commit: u64,
                        run: *const u64, run_len: usize, answer: *mut u64, answer_len: usize) -> u64;
}

/// One site: the log's state, seven words, and the two stores that it is lent, two words a record.
struct Site { log: [u64; 7], settled: [u64; 8], pending: [u64; 8] }

impl Site {
    fn new() -> Site {
        let mut site = Site { log: [0; 7], settled: [0; 8], pending: [0; 8] };
        let refused = unsafe {
            log_new(0, 0, 0, site.settled.as_ptr(), 8, site.pending.as_ptr(), 8, site.log.as_mut_ptr(), 7)
        };
        assert_eq!(refused, 0);
        site
    }

    /// The leader's message: (conflict, last index), or the number of the refusal, and then nothing has changed.
    fn receive(&mut self, idx: u64, term: u64, commit: u64, run: &[u64]) -> Result<(u64, u64), u64> {
        let mut answer = [0; 2];
        let refused = unsafe {
            log_maybe_append(self.log.as_mut_ptr(), 7, self.settled.as_ptr(), 8, self.pending.as_mut_ptr(), 8,
                             idx, term, commit, run.as_ptr(), run.len(), answer.as_mut_ptr(), 2)
        };
        if refused == 0 { Ok((answer[0], answer[1])) } else { Err(refused) }
    }
}

fn tell(what: &str, said: Result<(u64, u64), u64>) {
    match said {
        Ok((conflict, last)) => println!("{what}: conflict {conflict}, last {last}"),
        Err(number) => println!("{what}: refused {number}"),
    }
}

fn main() {
    let mut site = Site::new();
    // Two records of term 1: index, term and body each. A body is the number of an entry of the register.
    let run = [1, 1, 70, 2, 1, 71];
    tell("two records", site.receive(0, 0, 2, &run));
    tell("the same once more", site.receive(0, 0, 2, &run));
    tell("a gap", site.receive(5, 1, 2, &[]));
    tell("another second record", site.receive(1, 1, 2, &[2, 3, 99]));
    println!("committed {}", site.log[4]);
}

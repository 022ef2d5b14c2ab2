//! The proved engine: `log_maybe_append` of crate `exports`, linked from the static library.

extern "C" {
    // crates/exports/src/log.rt declares the same: a slice passes as a pointer and a length in words.
    fn log_maybe_append(
        log: *mut u64,
        log_len: usize,
        settled: *const u64,
        settled_len: usize,
        pending: *mut u64,
        pending_len: usize,
        idx: u64,
        term: u64,
        commit: u64,
        run: *const u64,
        run_len: usize,
        answer: *mut u64,
        answer_len: usize,
    ) -> u64;
}

#[inline(never)]
#[allow(clippy::too_many_arguments)]
pub fn maybe_append(
    log: &mut [u64],
    settled: &[u64],
    pending: &mut [u64],
    idx: u64,
    term: u64,
    commit: u64,
    run: &[u64],
    answer: &mut [u64],
) -> u64 {
    // Each pointer and length is a slice that Rust has lent for the call, and no two that are written overlap.
    unsafe {
        log_maybe_append(
            log.as_mut_ptr(),
            log.len(),
            settled.as_ptr(),
            settled.len(),
            pending.as_mut_ptr(),
            pending.len(),
            idx,
            term,
            commit,
            run.as_ptr(),
            run.len(),
            answer.as_mut_ptr(),
            answer.len(),
        )
    }
}

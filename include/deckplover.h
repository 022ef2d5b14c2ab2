/* Deckplover for C and Rust: the calls of the proved crates over words.
 *
 * A slice is a pointer and a length in words. A state stands as words at the beginning of a lent slice, and so do
 * the values of an answer; further words stay as they were. Each function returns 0, or the number of the refusal
 * (1 to 13, as in the table of the customer's document); then nothing was written. A slice too short for a state or
 * an answer is refusal 1.
 */
#ifndef DECKPLOVER_H
#define DECKPLOVER_H

#include <stddef.h>
#include <stdint.h>

/* The log. Its state is DECKPLOVER_LOG words: start, start term, offset, count, committed, persisted, applied.
 * A store holds two words a record: term, body. A run holds three: index, term, body. */
#define DECKPLOVER_LOG 7

/* Writes a new log's state. */
uint64_t log_new(uint64_t start, uint64_t start_term, uint64_t last, const uint64_t *settled, size_t settled_len,
                 const uint64_t *pending, size_t pending_len, uint64_t *log, size_t log_len);

/* answer: the term */
uint64_t log_term(const uint64_t *log, size_t log_len, const uint64_t *settled, size_t settled_len,
                  const uint64_t *pending, size_t pending_len, uint64_t i, uint64_t *answer, size_t answer_len);
/* answer: the index */
uint64_t log_first_index(const uint64_t *log, size_t log_len, const uint64_t *settled, size_t settled_len,
                         const uint64_t *pending, size_t pending_len, uint64_t *answer, size_t answer_len);
uint64_t log_last_index(const uint64_t *log, size_t log_len, const uint64_t *settled, size_t settled_len,
                        const uint64_t *pending, size_t pending_len, uint64_t *answer, size_t answer_len);
/* answer: the term */
uint64_t log_last_term(const uint64_t *log, size_t log_len, const uint64_t *settled, size_t settled_len,
                       const uint64_t *pending, size_t pending_len, uint64_t *answer, size_t answer_len);
/* answer: committed, its term */
uint64_t log_commit_info(const uint64_t *log, size_t log_len, const uint64_t *settled, size_t settled_len,
                         const uint64_t *pending, size_t pending_len, uint64_t *answer, size_t answer_len);
/* answer: 1 for yes, 0 for no */
uint64_t log_is_up_to_date(const uint64_t *log, size_t log_len, const uint64_t *settled, size_t settled_len,
                           const uint64_t *pending, size_t pending_len, uint64_t i, uint64_t t, uint64_t *answer,
                           size_t answer_len);
/* answer: the index, 1 if a term goes with it (else 0), the term (else 0) */
uint64_t log_find_conflict_by_term(const uint64_t *log, size_t log_len, const uint64_t *settled, size_t settled_len,
                                   const uint64_t *pending, size_t pending_len, uint64_t i, uint64_t t,
                                   uint64_t *answer, size_t answer_len);

/* Writes the log and the pending store. answer: the conflict, the last index */
uint64_t log_maybe_append(uint64_t *log, size_t log_len, const uint64_t *settled, size_t settled_len,
                          uint64_t *pending, size_t pending_len, uint64_t idx, uint64_t term, uint64_t commit,
                          const uint64_t *run, size_t run_len, uint64_t *answer, size_t answer_len);
/* Writes the log and the pending store. answer: the last index */
uint64_t log_append(uint64_t *log, size_t log_len, const uint64_t *settled, size_t settled_len, uint64_t *pending,
                    size_t pending_len, const uint64_t *run, size_t run_len, uint64_t *answer, size_t answer_len);

/* These write the log. answer: 1 for yes, 0 for no */
uint64_t log_commit_to(uint64_t *log, size_t log_len, const uint64_t *settled, size_t settled_len,
                       const uint64_t *pending, size_t pending_len, uint64_t i);
uint64_t log_maybe_commit(uint64_t *log, size_t log_len, const uint64_t *settled, size_t settled_len,
                          const uint64_t *pending, size_t pending_len, uint64_t i, uint64_t t, uint64_t *answer,
                          size_t answer_len);
uint64_t log_applied_to(uint64_t *log, size_t log_len, const uint64_t *settled, size_t settled_len,
                        const uint64_t *pending, size_t pending_len, uint64_t i);
uint64_t log_maybe_persist(uint64_t *log, size_t log_len, const uint64_t *settled, size_t settled_len,
                           const uint64_t *pending, size_t pending_len, uint64_t i, uint64_t t, uint64_t *answer,
                           size_t answer_len);

/* Writes the log and the settled store. */
uint64_t log_stable_entries(uint64_t *log, size_t log_len, uint64_t *settled, size_t settled_len,
                            const uint64_t *pending, size_t pending_len, uint64_t i, uint64_t t);

/* A part of a store. answer, DECKPLOVER_PART words: where it stands (0: empty, 1: in settled, 2: in pending), its first
 * index, the index after its last, its first word in that store, how many words (all 0 where it is empty) */
#define DECKPLOVER_PART 5
uint64_t log_slice(const uint64_t *log, size_t log_len, const uint64_t *settled, size_t settled_len,
                   const uint64_t *pending, size_t pending_len, uint64_t low, uint64_t high, uint64_t *answer,
                   size_t answer_len);
uint64_t log_entries(const uint64_t *log, size_t log_len, const uint64_t *settled, size_t settled_len,
                     const uint64_t *pending, size_t pending_len, uint64_t i, uint64_t *answer, size_t answer_len);
uint64_t log_next_entries_since(const uint64_t *log, size_t log_len, const uint64_t *settled, size_t settled_len,
                                const uint64_t *pending, size_t pending_len, uint64_t s, uint64_t *answer,
                                size_t answer_len);
/* answer: 1 for yes, 0 for no */
uint64_t log_has_next_entries_since(const uint64_t *log, size_t log_len, const uint64_t *settled, size_t settled_len,
                                    const uint64_t *pending, size_t pending_len, uint64_t s, uint64_t *answer,
                                    size_t answer_len);

/* Quorums. Voters are ids; a peer row is DECKPLOVER_ROW words: id, 0 if its acknowledgement is missing, the acknowledged
 * index, its vote (1: yes, 2: no, any other: missing). Words after the last whole row are not read. */
#define DECKPLOVER_ROW 4

/* answer: the index, 1 if nobody had a say (else 0) */
uint64_t majority_committed_index(const uint64_t *voters, size_t voters_len, const uint64_t *rows, size_t rows_len,
                                  uint64_t *answer, size_t answer_len);
uint64_t joint_committed_index(const uint64_t *incoming, size_t incoming_len, const uint64_t *outgoing,
                               size_t outgoing_len, const uint64_t *rows, size_t rows_len, uint64_t *answer,
                               size_t answer_len);
/* answer: 0 pending, 1 lost, 2 won */
uint64_t majority_vote_result(const uint64_t *voters, size_t voters_len, const uint64_t *rows, size_t rows_len,
                              uint64_t *answer, size_t answer_len);
uint64_t joint_vote_result(const uint64_t *incoming, size_t incoming_len, const uint64_t *outgoing,
                           size_t outgoing_len, const uint64_t *rows, size_t rows_len, uint64_t *answer,
                           size_t answer_len);
/* answer: 1 for yes, 0 for no */
uint64_t joint_is_singleton(const uint64_t *incoming, size_t incoming_len, const uint64_t *outgoing,
                            size_t outgoing_len, uint64_t *answer, size_t answer_len);
uint64_t joint_contains(const uint64_t *incoming, size_t incoming_len, const uint64_t *outgoing, size_t outgoing_len,
                        uint64_t id, uint64_t *answer, size_t answer_len);
/* answer, DECKPLOVER_IDS words: how many ids, then the ids in rising order, then zeros */
#define DECKPLOVER_IDS 15
uint64_t joint_ids(const uint64_t *incoming, size_t incoming_len, const uint64_t *outgoing, size_t outgoing_len,
                   uint64_t *answer, size_t answer_len);
/* Empties both halves, whatever they are: neither is refused. answer: how many incoming ids are left, how many outgoing
 * ones (both 0) */
uint64_t joint_clear(const uint64_t *incoming, size_t incoming_len, const uint64_t *outgoing, size_t outgoing_len,
                     uint64_t *answer, size_t answer_len);
/* These write nothing and return 0, or 12 where every question about the same would be refused by it: */
/* over 7 voters, or a repeated id */
uint64_t voters_checked(const uint64_t *voters, size_t voters_len);
/* that of either half */
uint64_t joint_checked(const uint64_t *incoming, size_t incoming_len, const uint64_t *outgoing, size_t outgoing_len);
/* over 64 rows, or a repeated id */
uint64_t rows_checked(const uint64_t *rows, size_t rows_len);

/* The leader's commit step: writes the log. answer: 1 for yes, 0 for no */
uint64_t leader_maybe_commit(uint64_t *log, size_t log_len, const uint64_t *settled, size_t settled_len,
                             const uint64_t *pending, size_t pending_len, uint64_t term, const uint64_t *incoming,
                             size_t incoming_len, const uint64_t *outgoing, size_t outgoing_len, const uint64_t *rows,
                             size_t rows_len, uint64_t *answer, size_t answer_len);

/* The inflight window. Its state is DECKPLOVER_WINDOW words: start, count, cap, 1 if a smaller cap is deferred (else 0),
 * the deferred cap (else 0). In a window that is handed in, any fourth word but 0 says that a cap is deferred; where it
 * is 0 the fifth is not read. */
#define DECKPLOVER_WINDOW 5

/* These write the window; inflights_add writes the ring too. */
uint64_t inflights_new(uint64_t cap, const uint64_t *ring, size_t ring_len, uint64_t *window, size_t window_len);
uint64_t inflights_set_cap(uint64_t *window, size_t window_len, const uint64_t *ring, size_t ring_len, uint64_t cap);
uint64_t inflights_add(uint64_t *window, size_t window_len, uint64_t *ring, size_t ring_len, uint64_t inflight);
uint64_t inflights_free_to(uint64_t *window, size_t window_len, const uint64_t *ring, size_t ring_len, uint64_t to);
uint64_t inflights_free_first_one(uint64_t *window, size_t window_len, const uint64_t *ring, size_t ring_len);
uint64_t inflights_reset(uint64_t *window, size_t window_len, const uint64_t *ring, size_t ring_len);
uint64_t inflights_maybe_free_buffer(uint64_t *window, size_t window_len, const uint64_t *ring, size_t ring_len);
/* answer: 1 for yes, 0 for no */
uint64_t inflights_full(const uint64_t *window, size_t window_len, const uint64_t *ring, size_t ring_len,
                        uint64_t *answer, size_t answer_len);
/* answer: the count */
uint64_t inflights_count(const uint64_t *window, size_t window_len, const uint64_t *ring, size_t ring_len,
                         uint64_t *answer, size_t answer_len);

#endif

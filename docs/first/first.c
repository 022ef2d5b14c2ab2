/* A site of the register, from C through the static library. From the root of the repository:
 *     bash tools/staticlib.sh
 *     gcc -I include docs/first/first.c target/staticlib/libexports.a -o target/first_c && ./target/first_c
 */
#include <inttypes.h>
#include <stdio.h>
#include "deckplover.h"

/* One site: the log's state, and the two stores that it is lent, two words a record. */
static uint64_t state[DECKPLOVER_LOG], settled[8], pending[8];

/* The leader's message: conflict and last index, or the number of the refusal, and then nothing has changed. */
static void receive(const char *what, uint64_t idx, uint64_t term, uint64_t commit, const uint64_t *run, size_t len) {
    uint64_t answer[2];
    uint64_t refused = log_maybe_append(state, DECKPLOVER_LOG, settled, 8, pending, 8, idx, term, commit, run, len, answer, 2);
    if (refused)
        printf("%s: refused %" PRIu64 "\n", what, refused);
    else
        printf("%s: conflict %" PRIu64 ", last %" PRIu64 "\n", what, answer[0], answer[1]);
}

int main(void) {
    /* Two records of term 1: index, term and body each. A body is the number of an entry of the register. */
    const uint64_t run[] = {1, 1, 70, 2, 1, 71}, other[] = {2, 3, 99};
    if (log_new(0, 0, 0, settled, 8, pending, 8, state, DECKPLOVER_LOG))
        return 1;
    receive("two records", 0, 0, 2, run, 6);
    receive("the same once more", 0, 0, 2, run, 6);
    receive("a gap", 5, 1, 2, run, 0);
    receive("another second record", 1, 1, 2, other, 3);
    printf("committed %" PRIu64 "\n", state[4]);
}

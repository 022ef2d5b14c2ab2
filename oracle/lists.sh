#!/bin/bash
# Writes the lists of calls that the programs crates/replay_* replay (LISTS.md).
#     bash oracle/lists.sh [FOLDER]
# FOLDER (default: crates) gets replay_log, replay_quorum and replay_inflights, each with stdin and stdout. All calls are
# compared on the way; DECKPLOVER_LIB brings in the engine, which run.sh compares anyway.
set -euo pipefail
. "$(dirname "$0")/setup.sh"
folder=${1:-$root/crates}
[ -n "${DECKPLOVER_LIB:-}" ] || without_engine
need_packages
need_engine
(cd "$oracle" && cargo build -q --release -j1 -p diff "${features[@]}") || fail "the build failed"
for family in log quorum inflights; do
    "$CARGO_TARGET_DIR/release/diff" list "$family" "$folder/replay_$family"
done

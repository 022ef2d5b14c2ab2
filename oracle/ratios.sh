#!/bin/bash
# Times of the proved engine beside plain Rust and the crate raft 0.7.0: appends, committed index, window.
#     bash oracle/ratios.sh
# builds everything, compares the sides, measures them in turns in one run, and prints a table of times and ratios. No store is
# cleared between rounds. BLOCKS (10) and ROUNDS (20 a block) may be set. It needs the engine; setup.sh has the other variables.
set -euo pipefail
. "$(dirname "$0")/setup.sh"

step "1 of 3: what is needed, and the engine's static library"
need_packages
need_engine

step "2 of 3: build"
(cd "$oracle" && cargo build --profile ratios -j1 -p ratios) || fail "the build failed"

step "3 of 3: compare, then measure"
load() { echo "load average $(cut -d ' ' -f 1-2 /proc/loadavg), $(nproc) cores"; }
load
"$CARGO_TARGET_DIR/ratios/ratios" "${BLOCKS:-10}" "${ROUNDS:-20}"
load

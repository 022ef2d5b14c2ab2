#!/bin/bash
# Differential runs: the crate raft 0.7.0, the plain program of document 01 and the proved engine on the same calls.
#     bash oracle/run.sh [--no-engine] [--size 0|1|2] [--seed N]
# builds everything, compares, and prints how many calls were compared. Size 2, the default, takes some minutes; 1 seconds.
# Exit status: 0 all agree; 1 a mismatch; 2 something is missing. setup.sh has the variables that may be set.
set -euo pipefail
. "$(dirname "$0")/setup.sh"

options=()
while [ $# -gt 0 ]; do
    case $1 in
        --no-engine) without_engine; shift ;;
        --size | --seed) [ $# -gt 1 ] || fail "$1 wants a number"; options+=("$1" "$2"); shift 2 ;;
        *) fail "unknown option $1" ;;
    esac
done

step "1 of 5: what is needed"
need_packages

step "2 of 5: the engine's static library"
need_engine

step "3 of 5: build"
(cd "$oracle" && cargo build --release -j1 -p diff "${features[@]}") || fail "the build failed"
diff=$CARGO_TARGET_DIR/release/diff

step "4 of 5: compare"
"$diff" run "${options[@]}"

step "5 of 5: the lists of calls, and what was found outside the domain"
for list in "$root"/crates/replay_*; do
    [ ! -f "$list/stdin" ] || "$diff" replay "$list"
done
# What the runs find stands at the end of docs/DIFFERENCES.md, behind its mark.
"$diff" found | cmp - <(sed '1,/^<!-- found/d' "$root/docs/DIFFERENCES.md") || { echo "the end of docs/DIFFERENCES.md is not what diff found writes now"; exit 1; }
echo "docs/DIFFERENCES.md stands as found"

#!/bin/bash
# Speed of `maybe_append`: the proved engine, through its static library, beside two Rust programs of the same rules.
#     bash oracle/bench.sh
# builds everything, compares the three on random messages, counts instructions, measures, and prints the table of ratios.
# ROUNDS (400) and MESSAGES (2000000) may be set. All that is written stands below target/. Needs rt, rustc and valgrind.
set -euo pipefail
cd "$(dirname "$0")/.."

rounds=${ROUNDS:-400}
messages=${MESSAGES:-2000000}
out=target/oracle
sides="engine plain tuned"
loads="replace grow"
places="0 16 32 48" # bytes by which the code is moved: where it lies among the processor's lines of 64 matters

step() { echo "== $1"; }

for tool in rt rustc valgrind; do
    command -v "$tool" > /dev/null || { echo "needs $tool"; exit 1; }
done
mkdir -p "$out/tmp"
export TMPDIR="$PWD/$out/tmp"

# One codegen unit a crate: the optimiser sees a side whole, as it sees the engine whole.
compile() { rustc --edition 2021 -C opt-level=3 -C codegen-units=1 --out-dir "$out" -L "$out" "$@"; }

# Each side is a crate of its own, so that no side's machine code is shaped by another's.
build() {
    compile --crate-type rlib -L target/staticlib -l static=exports oracle/sides/engine.rs
    for side in plain tuned; do
        compile --crate-type rlib "oracle/sides/$side.rs"
    done
    for place in $places; do
        PLACE=$place compile --extern engine --extern plain --extern tuned -C extra-filename="$place" --crate-name speed oracle/speed/main.rs
    done
}

# Instructions an append, the driver's own included, for one side and one work load.
count() {
    valgrind --vgdb=no --tool=callgrind --callgrind-out-file=/dev/null --toggle-collect='*drive*' "$out/speed0" count "$1" "$2" 2>&1 |
        awk -v side="$1" -v load="$2" '
            /^appends/ { appends = $2 }
            /Collected/ { print load, side, $NF / appends }'
}

step "1 of 4: prove and compile the engine (bash tools/staticlib.sh)"
bash tools/staticlib.sh | tail -n 1

step "2 of 4: compile the Rust sides and the driver"
build

step "3 of 4: the same answers? $messages random messages to each side"
"$out/speed0" fuzz "$messages"

step "4 of 4: count instructions, then measure, $rounds rounds at each of the places $places"
: > "$out/counts"
: > "$out/times"
for load in $loads; do
    for side in $sides; do
        count "$side" "$load" | tee -a "$out/counts"
    done
done
for place in $places; do
    echo "place $place, load average $(cut -d ' ' -f 1 /proc/loadavg)"
    "$out/speed$place" time "$rounds" >> "$out/times"
done
"$out/speed0" table "$out/counts" "$out/times"

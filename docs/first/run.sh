#!/bin/bash
# The first programs: bash docs/first/run.sh builds the static library, then compiles and runs first.rs and first.c, and
# holds what each prints to the file `output`. DECKPLOVER_LIB names a folder with libexports.a that is built already.
set -euo pipefail
cd "$(dirname "$0")/../.."
[ -n "${DECKPLOVER_LIB:-}" ] || bash tools/staticlib.sh
lib=${DECKPLOVER_LIB:-target/staticlib}
mkdir -p target
rustc -L "$lib" -l static=exports docs/first/first.rs -o target/first_rs
gcc -Wall -I include docs/first/first.c "$lib/libexports.a" -o target/first_c
./target/first_rs | tee target/first.out
cmp target/first.out docs/first/output
./target/first_c | cmp - docs/first/output
echo "first.rs and first.c print docs/first/output"

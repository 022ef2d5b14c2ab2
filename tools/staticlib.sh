#!/usr/bin/env bash
# Proves what is not proved yet, and writes the static library for C and Rust: target/staticlib/libexports.a.
# Crate exports_c is the library's text; the archive keeps the name that callers link with.
set -euo pipefail
cd "$(dirname "$0")/.."
(cd crates/exports_c && rt lib)
mkdir -p target/staticlib
cp crates/exports_c/out/libexports_c.a target/staticlib/libexports.a
echo "target/staticlib/libexports.a"

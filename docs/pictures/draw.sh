#!/bin/bash
# Draws the pictures of the README from their sources: bash docs/pictures/draw.sh (needs graphviz's dot).
set -euo pipefail
cd "$(dirname "$0")"
command -v dot > /dev/null || { echo "needs dot (Debian's package graphviz)" >&2; exit 2; }
for source in *.dot; do
    dot -Tsvg "$source" -o "${source%.dot}.svg"
done

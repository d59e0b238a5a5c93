#!/usr/bin/env bash
# Measures reading of texts, queries over more and more shards, stores of few and many rows, and sessions at the same time, by a client through loopback
# sockets, one after the other in one run, and writes docs/PERFORMANCE.md: what each showed, with the ratio to the first of its kind. What is
# measured is in bench/measured.py; if there is a rustc, the maps of Rust's std are measured too (bench/lookup).
# Usage: bench/measure.sh [PROGRAM]   (proved and built if none is given)
# DOCUMENT: the page that is written, docs/PERFORMANCE.md if it is not set; the parts that other scripts write stay
# ROUNDS, COSTLY, ROWS, STORE, WRITES: how many rounds, and how much of each there is, 15, 100000, 10000, 1000000 and 2000 if they are not set. A shard
# takes 1,048,576 writes, 20 for each of WRITES in each round.
set -euo pipefail
top=$(cd "$(dirname "$0")/.." && pwd)
. "$top/scripts/program.sh"
program=$(program_of vtgate_main "${1:-}")
work=$(mktemp -d)
trap 'rm -rf "$work"' EXIT
document=${DOCUMENT:-$top/docs/PERFORMANCE.md}
lookup=()
if command -v rustc > /dev/null; then
    rustc -O -o "$work/lookup" "$top/bench/lookup/main.rs"
    lookup=("$work/lookup")
fi
python3 "$top/bench/tables.py" "$(realpath "$program")" "${lookup[@]}" > "$work/page"
for other in serve.sh joins.sh worst.sh split.sh split/scenes.py load.sh threads.sh log.sh instructions.sh settings.sh; do
    sed -n "\|^<!-- bench/$other begins|,\|^<!-- bench/$other ends|p" "$document" >> "$work/page"
done
mv "$work/page" "$document"
python3 "$top/bench/summary.py" "$document"

#!/usr/bin/env bash
# Measures scatters over four shards of one more row each than the session's own thread reads (FEW_ROWS of crates/shard_calls/src/gate.rt), each
# read in a thread of its own, and scatters over shards of that many, read one after the other: by 1, 4 and 16 connections. Where the ratio is
# below 1, threads pay. Prints the table; with --write puts it into docs/PERFORMANCE.md.
# Usage: bench/threads.sh [--write] [--seconds N] [PROGRAM]   (proved and built if none is given)
set -euo pipefail
top=$(cd "$(dirname "$0")/.." && pwd)
. "$top/bench/choices.sh"
read_choices "--seconds --rows" "$@"
program=$(program_of vtgate_main "$program")
python3 "$top/bench/threads/measure.py" "$(realpath "$program")" "${choices[@]}"

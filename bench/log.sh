#!/usr/bin/env bash
# Measures the server with a log at `info` and at `debug` beside the same one without, by the client of bench/serve.sh, round by round in one run: point
# SELECTs by 1 to 32 connections, and the instructions of one. Prints the table; with --write puts it into docs/PERFORMANCE.md.
# Usage: bench/log.sh [--write] [--kinds KIND,..] [--connections N,..] [--rounds N] [--seconds S] [--rows N] [PROGRAM]
# PROGRAM is proved and built where none is given. Each cell has 9 rounds of half a second. Needs a C compiler, and valgrind.
set -euo pipefail
top=$(cd "$(dirname "$0")/.." && pwd)
. "$top/bench/choices.sh"
read_choices "--kinds --connections --rounds --seconds --rows" "$@"
have_packages valgrind
program=$(program_of vtgate_main "$program")
work=$(mktemp -d)
trap 'rm -rf "$work"' EXIT
compile_load "$work/load"
python3 "$top/bench/log/levels.py" "$(realpath "$program")" "$work/load" "${choices[@]}"

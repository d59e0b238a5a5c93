#!/usr/bin/env bash
# Counts the instructions of each statement with callgrind, and compares them with those of the last commit's page, whatever else runs on the machine.
# Prints the table, with how many times the page's count each is; with --write puts it into docs/PERFORMANCE.md.
# Usage: bench/instructions.sh [--write] [--only WORD] [PROGRAM]   (proved and built if none is given)
set -euo pipefail
top=$(cd "$(dirname "$0")/.." && pwd)
. "$top/bench/choices.sh"
read_choices "--only" "$@"
have_packages valgrind
program=$(program_of vtgate_main "$program")
python3 "$top/bench/instructions/measure.py" "$(realpath "$program")" "${choices[@]}"

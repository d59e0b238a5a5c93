#!/usr/bin/env bash
# Measures the router under settings of the system: glibc's allocator, told to give freed memory back as it does by itself, and tcmalloc; and larger socket
# buffers (by root alone). Prints the table; with --write puts it into docs/PERFORMANCE.md. Needs a C compiler; installs Debian's tcmalloc if there is none.
# Usage: bench/settings.sh [--write] [--rounds N] [--seconds S] [PROGRAM]   (proved and built if none is given)
set -euo pipefail
top=$(cd "$(dirname "$0")/.." && pwd)
. "$top/bench/choices.sh"
read_choices "--rounds --seconds" "$@"
have_packages libtcmalloc-minimal4
program=$(program_of vtgate_main "$program")
work=$(mktemp -d)
trap 'rm -rf "$work"' EXIT
compile_load "$work/load"
python3 "$top/bench/settings/measure.py" "$(realpath "$program")" "$work/load" "${choices[@]}"

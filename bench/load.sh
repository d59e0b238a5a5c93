#!/usr/bin/env bash
# Measures what statements cost compared with others, as ratios of what is measured in one run: statements in a transaction with own
# writes and outside, short reads of large tables and reads of one row while other clients are at work, points and UPDATEs by key while a
# client asks for reports (the same of MariaDB's server), and the bytes that a write keeps. Prints the tables; with --write puts them into
# docs/PERFORMANCE.md. Needs a C compiler; installs Debian's MariaDB server if there is none, and runs it in a folder of its own.
# Usage: bench/load.sh [--write] [--rows N] [--changes N] [--rounds N] [PROGRAM]   (proved and built if none is given)
set -euo pipefail
top=$(cd "$(dirname "$0")/.." && pwd)
. "$top/bench/choices.sh"
read_choices "--rows --changes --rounds" "$@"
have_packages mariadb-server mariadb-client
program=$(program_of vtgate_main "$program")
work=$(mktemp -d)
trap 'rm -rf "$work"' EXIT
compile_load "$work/load"
python3 "$top/bench/load/beside.py" "$(realpath "$program")" "$work/load" "$work" "${choices[@]}"

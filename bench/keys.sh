#!/usr/bin/env bash
# Measures statements that the key's order answers, at tables that grow: pages, ranges of a key, the newest rows, MIN, MAX and COUNT(*), each beside
# MariaDB's server in one run, and beside a point of the same table. Prints the table; with --write puts it into docs/PERFORMANCE.md. Installs Debian's
# MariaDB server if there is none, and runs it in a folder of its own.
# Usage: bench/keys.sh [--write] [--rows N,N,..] [--rounds N] [PROGRAM]   (proved and built if none is given)
set -euo pipefail
top=$(cd "$(dirname "$0")/.." && pwd)
. "$top/bench/choices.sh"
read_choices "--rows --rounds" "$@"
program=$(program_of vtgate_main "$program")
choices+=(--version "$(mariadb_version)")
python3 "$top/bench/keys/growth.py" "$(realpath "$program")" "${choices[@]}"

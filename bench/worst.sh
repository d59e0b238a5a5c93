#!/usr/bin/env bash
# Measures the dearest statement of each kind through a socket: time, bytes of the reply, the most memory that the router takes for it, and the time
# that MariaDB's server takes for the same. Prints the table; with --write puts it into docs/PERFORMANCE.md. Installs Debian's MariaDB server if there is
# none, and runs it in a folder of its own.
# Usage: bench/worst.sh [--write] [--rows N] [--rounds N] [PROGRAM]   (proved and built if none is given)
set -euo pipefail
top=$(cd "$(dirname "$0")/.." && pwd)
. "$top/bench/choices.sh"
read_choices "--rows --rounds" "$@"
program=$(program_of vtgate_main "$program")
choices+=(--version "$(mariadb_version)")
python3 "$top/bench/worst/measure.py" "$(realpath "$program")" "${choices[@]}"

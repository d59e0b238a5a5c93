#!/usr/bin/env bash
# GROUP BY over 40,000 texts, and over 20,000 rows of three texts, that a client chose so that they would have one hash, and over as many ordinary
# ones: at most 1.5 times as long.
# Usage: tests/hostile/groups.sh [PROGRAM]   (proved and built if none is given)
set -euo pipefail
top=$(cd "$(dirname "$0")/../.." && pwd)
. "$top/scripts/program.sh"
program=$(program_of vtgate_main "${1:-}")
python3 "$top/tests/hostile/groups.py" "$(realpath "$program")"

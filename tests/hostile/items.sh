#!/usr/bin/env bash
# Asks for an item half a million times over: what the router then holds beyond its reply may grow with the items, and not with items times
# rows. Prints the most memory that the router's process takes for 10 rows and for 100, and ends with 1 if it takes more than it may.
# Usage: tests/hostile/items.sh [PROGRAM]   (proved and built if none is given)
set -euo pipefail
top=$(cd "$(dirname "$0")/../.." && pwd)
. "$top/scripts/program.sh"
program=$(program_of vtgate_main "${1:-}")
python3 "$top/tests/hostile/items.py" "$(realpath "$program")"

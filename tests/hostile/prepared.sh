#!/usr/bin/env bash
# Sends prepared statements that are cut short, too long, of unknown types or numbers, and as many and as long texts as a connection may hold:
# each is refused by its name, the session goes on, and the router's memory stays within what it may hold. `prepared: N passed, 0 failed`
# Usage: tests/hostile/prepared.sh [PROGRAM]   (proved and built if none is given)
set -euo pipefail
top=$(cd "$(dirname "$0")/../.." && pwd)
. "$top/scripts/program.sh"
program=$(program_of vtgate_main "${1:-}")
python3 "$top/tests/hostile/prepared.py" "$(realpath "$program")"

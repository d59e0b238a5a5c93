#!/usr/bin/env bash
# Starts the server with a log, makes each event happen, and compares its lines: a client that logs in, one that is refused, one that says nothing, a
# queue that is full, a split, a port that is in use, a faulty VSchema. Without the variable nothing more is printed than before. Three minutes.
# Usage: tests/log.sh [PROGRAM]   (proved and built if none is given)
set -euo pipefail
top=$(cd "$(dirname "$0")/.." && pwd)
. "$top/scripts/program.sh"
program=$(program_of vtgate_main "${1:-}")
python3 "$top/tests/log/run.py" "$(realpath "$program")"

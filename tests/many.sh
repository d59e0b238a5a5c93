#!/usr/bin/env bash
# Connects far more clients to a served router than it has workers: 10,000 of which 100 work through a split and a merge, with each row compared;
# clients that don't read, that trickle, that send a thousand statements at once; a cutover that holds workers; more connections than there may be.
# Ends with `many: N passed, 0 failed`. Takes some three minutes.
# Usage: tests/many.sh [PROGRAM [CASE..]]   (proved and built if none is given)
# CONNECTIONS: how many clients connect, 10000 if it is not set.
set -euo pipefail
top=$(cd "$(dirname "$0")/.." && pwd)
. "$top/scripts/program.sh"
program=$(program_of vtgate_main "${1:-}")
exec python3 "$top/tests/many/run.py" "$(realpath "$program")" "${@:2}"

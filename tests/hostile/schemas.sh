#!/usr/bin/env bash
# VSchemas of 300,000 tables, keyspaces, columns, column vindexes or vindexes, and of 30,000 tables and vindexes with a fault whose place is looked for:
# each at most three times as long as one of half as many.
# Usage: tests/hostile/schemas.sh [PROGRAM]   (proved and built where none is given)
set -euo pipefail
top=$(cd "$(dirname "$0")/../.." && pwd)
. "$top/scripts/program.sh"
program=$(program_of vtgate_main "${1:-}")
python3 "$top/tests/hostile/schemas.py" "$(realpath "$program")"

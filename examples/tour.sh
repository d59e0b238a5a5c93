#!/usr/bin/env bash
# Runs the lines of examples/tour.lines over the tables of examples/shop.json, on four shards. The first run proves and builds the router.
# Usage: examples/tour.sh [PROGRAM]
set -euo pipefail
top=$(cd "$(dirname "$0")/.." && pwd)
. "$top/scripts/program.sh"
program=$(program_of vtgate_main "${1:-}")
input=$(mktemp)
trap 'rm -f "$input"' EXIT
{ tr -d '\n' < "$top/examples/shop.json"; echo; cat "$top/examples/tour.lines"; } > "$input"
"$program" script -40,40-80,80-c0,c0- < "$input"

#!/usr/bin/env bash
# Splits a shard of examples/shop.json while two sessions write, and merges its halves again (examples/split.lines, docs/RESHARD.md).
# Usage: examples/split.sh [PROGRAM]
set -euo pipefail
top=$(cd "$(dirname "$0")/.." && pwd)
. "$top/scripts/program.sh"
program=$(program_of vtgate_main "${1:-}")
input=$(mktemp)
trap 'rm -f "$input"' EXIT
{ tr -d '\n' < "$top/examples/shop.json"; echo; cat "$top/examples/split.lines"; } > "$input"
"$program" script -80,80- < "$input"

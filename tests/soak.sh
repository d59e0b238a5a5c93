#!/usr/bin/env bash
# Splits shards and merges them back again and again, while eight sessions in threads of one process write, transact and read all their
# rows, and compares each answer, and the rows at the end, with those of the accepted commands. Status 1 if something differs, 124 if
# it hangs.
# Usage: tests/soak.sh [SECONDS [SEED [PROGRAM]]]   (a minute, and any seed, if none is given; proved and built, if no program is)
set -euo pipefail
top=$(cd "$(dirname "$0")/.." && pwd)
. "$top/scripts/program.sh"
program=$(program_of testbed "${3:-}")
seconds=${1:-60}
seed=${2:-$RANDOM}
echo "seed: $seed"
told=$(printf 'soak\t%s %s counts\n' "$seconds" "$seed" | timeout $((seconds + 60)) "$program")
echo "${told//; /$'\n'}"
[ "${told%%;*}" = "nothing lost or doubled" ]

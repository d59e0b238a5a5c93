#!/usr/bin/env bash
# Does to a served router what a hostile client, web page or caller can do, and shows that others are served meanwhile: logins that trickle, lines to
# the admin port that a browser sends, an end while an admin client goes on, admin clients that stop in a cutover, words that are no text, too few
# threads; groups, VSchemas and items that were chosen to be dear; and wrong prepared statements. Takes some five minutes.
# Usage: tests/hostile.sh [PROGRAM]   (proved and built if none is given)
set -euo pipefail
top=$(cd "$(dirname "$0")/.." && pwd)
. "$top/scripts/program.sh"
program=$(program_of vtgate_main "${1:-}")
python3 "$top/tests/hostile/run.py" "$(realpath "$program")"
for part in groups schemas items prepared; do
    "$top/tests/hostile/$part.sh" "$program"
done

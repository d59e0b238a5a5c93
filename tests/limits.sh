#!/usr/bin/env bash
# Merges two shards that have more rows together than a shard may: the step that would pass the limit is refused and copies nothing, a cutover is
# given up before anything freezes for good, and both shards serve on. A million rows in one script: about a minute, and 2 GB of memory.
# Usage: tests/limits.sh [PROGRAM]   (proved and built if none is given)
set -euo pipefail
top=$(cd "$(dirname "$0")/.." && pwd)
. "$top/scripts/program.sh"
program=$(program_of vtgate_main "${1:-}")
work=$(mktemp -d)
trap 'rm -rf "$work"' EXIT
python3 "$top/tests/limits/lines.py" "$work/lines" "$work/wanted"
{ cat "$top/examples/shop.line.json" "$work/lines"; } | "$program" script -80,80- > "$work/given"
diff <(uniq -c "$work/wanted") <(uniq -c "$work/given")
echo 'limits: as they are to be'

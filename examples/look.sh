#!/usr/bin/env bash
# Shows the router at work at once: a tour over four shards, a split and a merge while two sessions write, and the shards of a statement. It is
# compiled with checks, by `rt try`, and nothing is proved. That takes two to three minutes, and 2.5 GB of memory, the first time: what was compiled is
# kept until a source changes.
# Usage: examples/look.sh
set -euo pipefail
top=$(cd "$(dirname "$0")/.." && pwd)
program=$("$top/scripts/unproved")

# reply_of LINES WORDS..: what a run of the program by these words prints over the example's tables and lines.
reply_of() { { tr -d '\n' < "$top/examples/shop.json"; echo; cat "$1"; } | "$program" "${@:2}"; }
echo 'Two sessions, a and b, over four shards:'
awk -f "$top/examples/beside.awk" "$top/examples/tour.lines" <(reply_of "$top/examples/tour.lines" script -40,40-80,80-c0,c0-)
echo
echo 'A shard is split while they write, and its halves are merged again (lines with ! are an administrator'"'s):"
awk -f "$top/examples/beside.awk" "$top/examples/split.lines" <(reply_of "$top/examples/split.lines" script -80,80-)
echo
echo "The shards of a statement among -40, 40-80, 80-c0, c0-:"
statement='SELECT * FROM t WHERE id IN (1, 3)'
echo "> $statement"
reply_of /dev/null plan -40,40-80,80-c0,c0- "$statement" | sed 's/^/  /'
cat << END

Nothing of this was proved: it was compiled with checks to be looked at. Next:
  examples/serve.sh --unproved    serves clients over TCP, for ten minutes, as it was compiled here
  scripts/first-build             proves the router, crate by crate, and builds it
  examples/serve.sh               serves clients until you end it, once it is built
END

#!/usr/bin/env bash
# A newcomer's first hour: clones what is committed into a temporary folder, runs each command of README.md and each row of docs/FIRST.md there, in order,
# and compares what is shown with tests/first_hour/shown and with the page. Says which commands it leaves out, because they take hours.
# Usage: tests/first_hour.sh [--write] [PROGRAM]
#   --write    writes tests/first_hour/shown anew from what is shown
#   PROGRAM    is run in place of what look.sh compiles and first-build proves; without it the demo is left out, for which a program with checks is too slow
# It runs where no other program has the ports, if the system lets it (unshare). Installs Debian's mariadb-client and iproute2 if they aren't there.
set -euo pipefail
top=$(cd "$(dirname "$0")/.." && pwd)
. "$top/scripts/program.sh"
words=()
for word in "$@"; do
    case $word in
        --write) words+=(--write) ;;
        -*) sed -n '4,6s/^# //p' "$0" >&2 && exit 2 ;;
        *) words+=(--program "$(realpath "$word")") ;;
    esac
done
have_packages mariadb-client iproute2
room=$(mktemp -d)
trap 'rm -rf "$room"' EXIT
git -c advice.detachedHead=false clone -q "$top" "$room/clone"

apart=(unshare --net)
[ "$(id -u)" = 0 ] || apart+=(--map-root-user)
if "${apart[@]}" true 2> /dev/null; then
    apart+=(sh -c 'ip link set lo up && exec "$@"' sh)
else
    apart=()
fi
"${apart[@]}" python3 "$top/tests/first_hour/run.py" "$room/clone" "${words[@]}"

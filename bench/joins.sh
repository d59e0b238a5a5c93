#!/usr/bin/env bash
# Measures joins of the router's server and of MariaDB's on the same tables in one run: by key, of 1,000 rows with 100,000, and of 100,000 with
# 100,000 over 4 shards. Prints the tables; with --write puts them into docs/PERFORMANCE.md.
# Usage: bench/joins.sh [--write] [--rows N] [--rounds N] [PROGRAM]
# PROGRAM is proved and built if none is given. Installs Debian's MariaDB server if there is none, and runs it in a
# folder of its own.
set -euo pipefail
top=$(cd "$(dirname "$0")/.." && pwd)
. "$top/bench/choices.sh"
rows=100000 rounds=3 document=() program=''
while [ $# -gt 0 ]; do
    case $1 in
        --write) document=(--document "$top/docs/PERFORMANCE.md") ;;
        --rows) rows=$2 && shift ;;
        --rounds) rounds=$2 && shift ;;
        -*) echo "no such choice: $1" >&2 && exit 2 ;;
        *) program=$1 ;;
    esac
    shift
done
program=$(program_of vtgate_main "$program")
work=$(mktemp -d)
trap 'rm -rf "$work"' EXIT
python3 "$top/bench/joins/measure.py" "$(realpath "$program")" "$work" --rows "$rows" --rounds "$rounds" \
    --version "$(mariadb_version)" "${document[@]}"

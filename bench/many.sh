#!/usr/bin/env bash
# Measures many connections beside MariaDB's server, with its pool of threads and without, in one run: points and a mix by 1 to 4,000 connections with 4,
# 8 and 32 workers; 16 busy connections among 10,000 idle ones; the bytes of an idle connection; 1,000 logins at the same time.
# Prints the tables; with --write puts them into docs/PERFORMANCE.md. Takes some six minutes, with --quick half a minute.
# Usage: bench/many.sh [--quick] [--write] [--kinds KIND,..] [--connections N,..] [--workers N,..] [--rounds N] [--seconds S] [--rows N] [--idle N]
#        [--logins N] [PROGRAM]
# PROGRAM is proved and built if none is given. Needs a C compiler; installs Debian's MariaDB server if there is none.
set -euo pipefail
top=$(cd "$(dirname "$0")/.." && pwd)
. "$top/bench/choices.sh"
kinds=point,mix connections=1,4,16,32,64,256,1000,4000 workers=4,8,32 rounds=3 seconds=0.35 rows=20000 idle=10000 logins=1000
document=() program=''
while [ $# -gt 0 ]; do
    case $1 in
        --write) document=("$top/docs/PERFORMANCE.md") ;;
        --quick) connections=1,32,256 workers=8 rounds=1 seconds=0.2 idle=1000 logins=200 ;;
        --kinds) kinds=$2 && shift ;;
        --connections) connections=$2 && shift ;;
        --workers) workers=$2 && shift ;;
        --rounds) rounds=$2 && shift ;;
        --seconds) seconds=$2 && shift ;;
        --rows) rows=$2 && shift ;;
        --idle) idle=$2 && shift ;;
        --logins) logins=$2 && shift ;;
        -*) echo "no such choice: $1" >&2 && exit 2 ;;
        *) program=$1 ;;
    esac
    shift
done
version=$(mariadb_version)
program=$(program_of vtgate_main "$program")
work=$(mktemp -d)
trap 'rm -rf "$work"' EXIT
compile_load "$work/serve"
"${CC:-cc}" -O2 -Wall -Wextra -D_GNU_SOURCE -o "$work/many" "$top/bench/many/load.c" -lpthread
ulimit -n "$(ulimit -Hn)"
python3 "$top/bench/many/measure.py" "$(realpath "$program")" "$work/serve" "$work/many" "$work" --kinds "$kinds" --connections "$connections" \
    --workers "$workers" --rounds "$rounds" --seconds "$seconds" --rows "$rows" --idle "$idle" --logins "$logins" | tee "$work/cells" >&2
python3 "$top/bench/many/tables.py" "$work/cells" "$rounds rounds of $seconds seconds" "$rows" "$version" "${document[@]}"

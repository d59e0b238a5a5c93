#!/usr/bin/env bash
# Measures the router's server, MariaDB's server and a bare echo of the same bytes, all by one client program over loopback, one cell
# after the other in one run: point SELECTs, INSERTs, UPDATEs by key, a scatter over 4 shards, a mix, transactions, the first 10
# rows, and two rows by IN, by 1 to 32 connections. Prints the tables; with --write puts them into docs/PERFORMANCE.md.
# Usage: bench/serve.sh [--quick] [--write] [--kinds KIND,..] [--connections N,..] [--rounds N] [--seconds S] [--rows N] [PROGRAM]
# PROGRAM is proved and built if none is given. Each server has 9 rounds of 0.35 seconds a cell; with --quick one of
# 0.3, with 1, 4 and 32 connections alone. Needs a C compiler; installs Debian's MariaDB server if there is none, and runs it in a
# folder of its own.
set -euo pipefail
top=$(cd "$(dirname "$0")/.." && pwd)
. "$top/bench/choices.sh"
kinds=point,insert,update,scatter,mix,transaction,first,among connections=1,2,4,8,16,32 rounds=9 seconds=0.35 rows=20000 document=() program=''
while [ $# -gt 0 ]; do
    case $1 in
        --write) document=("$top/docs/PERFORMANCE.md") ;;
        --quick) connections=1,4,32 rounds=1 seconds=0.3 ;;
        --kinds) kinds=$2 && shift ;;
        --connections) connections=$2 && shift ;;
        --rounds) rounds=$2 && shift ;;
        --seconds) seconds=$2 && shift ;;
        --rows) rows=$2 && shift ;;
        -*) echo "no such choice: $1" >&2 && exit 2 ;;
        *) program=$1 ;;
    esac
    shift
done
have_packages mariadb-server mariadb-client
program=$(program_of vtgate_main "$program")
work=$(mktemp -d)
trap 'rm -rf "$work"' EXIT
compile_load "$work/load"
python3 "$top/bench/serve/measure.py" "$(realpath "$program")" "$work/load" "$work" \
    --kinds "$kinds" --connections "$connections" --rounds "$rounds" --seconds "$seconds" --rows "$rows" | tee "$work/cells" >&2
how="$rounds rounds of $seconds seconds"
version=$(mariadb_version)
python3 "$top/bench/serve/tables.py" "$work/cells" "$how" "$rows" "$version" "${document[@]}"

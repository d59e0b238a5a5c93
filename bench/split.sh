#!/usr/bin/env bash
# Measures a split through sockets: rows copied a second, the longest time that a writer waits over a cutover, statements a second during a running
# copy, how soon targets are level with writers at full speed, and steps a second by entries. Then the scenes: how long a client waits at most, in what
# a split could make it wait for. Prints the tables; with --write puts them into docs/PERFORMANCE.md.
# Usage: bench/split.sh [--scenes] [--write] [--rows N,..] [--rounds N] [--seconds S] [--only SCENE,..] [PROGRAM]
# --scenes: the scenes alone, over the last of the numbers of rows. --only: these alone (functions of bench/split/scenes.py). One takes some ten seconds.
# PROGRAM is proved and built if none is given. Needs a C compiler, but not for the scenes.
set -euo pipefail
top=$(cd "$(dirname "$0")/.." && pwd)
. "$top/bench/choices.sh"
scenes=0 rows=1000,10000,100000 rounds='' seconds='' only=() document=() program=''
while [ $# -gt 0 ]; do
    case $1 in
        --scenes) scenes=1 ;;
        --write) document=(--document "$top/docs/PERFORMANCE.md") ;;
        --rows) rows=$2 && shift ;;
        --rounds) rounds=$2 && shift ;;
        --seconds) seconds=$2 && shift ;;
        --only) only=(--only "$2") && shift ;;
        -*) echo "no such choice: $1" >&2 && exit 2 ;;
        *) program=$1 ;;
    esac
    shift
done
program=$(realpath "$(program_of vtgate_main "$program")")
if [ $scenes = 0 ]; then
    work=$(mktemp -d)
    trap 'rm -rf "$work"' EXIT
    compile_load "$work/load"
    python3 "$top/bench/split/measure.py" "$program" "$work/load" --rows "$rows" --rounds "${rounds:-5}" --seconds "${seconds:-2}" "${document[@]}"
fi
python3 "$top/bench/split/scenes.py" "$program" --rows "${rows##*,}" --rounds "${rounds:-3}" --seconds "${seconds:-5}" "${only[@]}" "${document[@]}"

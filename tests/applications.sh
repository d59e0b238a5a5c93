#!/usr/bin/env bash
# Runs the ordinary queries of eight applications over the router and over MariaDB's server, and compares the rows, the counts, the names of columns
# and what tests/applications has; then small programs of frameworks. What the router refuses is marked in tests/applications/refused.
# Ends with `applications: N passed, 0 failed`, after lines that count what is accepted of all.
# Usage: tests/applications.sh [--write] [--queries] [PROGRAM]   (proved and built if none is given; installs Debian's packages)
# --write: takes over what MariaDB's server answers, the marks of what is accepted now, and the counts of docs/CLIENTS.md. --queries: without the
# frameworks.
set -euo pipefail
top=$(cd "$(dirname "$0")/.." && pwd)
. "$top/scripts/program.sh"
choices=() program=''
for word in "$@"; do
    case $word in
        --*) choices+=("$word") ;;
        *) program=$word ;;
    esac
done
have_packages mariadb-server mariadb-client python3-pymysql
program=$(realpath "$(program_of vtgate_main "$program")")
work=$(mktemp -d)
trap 'rm -rf "$work"' EXIT
CLIENTS=$work /usr/bin/python3 "$top/tests/applications/run.py" "$program" "$work" "${choices[@]}"

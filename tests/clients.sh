#!/usr/bin/env bash
# Has real clients speak to the router over sockets: seventeen run tests/clients/steps with their defaults, and all but one of them
# tests/clients/statements with autocommit on. What each shows is compared. Then logins, packets, clients that go away, and the admin port.
# Usage: tests/clients.sh [PROGRAM]   (proved and built if none is given; installs Debian's packages of the clients)
set -euo pipefail
top=$(cd "$(dirname "$0")/.." && pwd)
. "$top/scripts/program.sh"
program=$(realpath "$(program_of vtgate_main "${1:-}")")
work=$(mktemp -d)
trap 'rm -rf "$work"' EXIT
CLIENTS=$work /usr/bin/python3 "$top/tests/clients/run.py" "$program"

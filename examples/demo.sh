#!/usr/bin/env bash
# Through sockets: serves the tables of examples/shop.json, loads 100,000 rows, splits a shard by lines to the admin port while four clients write
# and read as fast as they are answered, compares at the end what is there with what was written, and shows what the clients felt.
# Usage: examples/demo.sh [PROGRAM]   (proved and built if none is given)
# PORT and ADMIN: the two ports, 13306 and 13307 if they are not set. ROWS: how many rows are loaded first, an even number.
set -euo pipefail
top=$(cd "$(dirname "$0")/.." && pwd)
. "$top/scripts/program.sh"
program=$(program_of vtgate_main "${1:-}")
python3 "$top/examples/demo/split.py" "$(realpath "$program")" --port "${PORT:-13306}" --admin "${ADMIN:-13307}" --rows "${ROWS:-100000}"

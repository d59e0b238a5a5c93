"""Writes the cells that measure.py printed as tables. Called by bench/serve.sh with their file, how they were measured, of
how many rows, and MariaDB's version; with a document too, puts them there between its marks, or at its end where it has none.
Usage: tables.py CELLS HOW ROWS VERSION [DOCUMENT]"""

import datetime
import os
import pathlib
import sys

sys.path.insert(0, str(pathlib.Path(__file__).resolve().parents[1]))

import page  # noqa: E402

KINDS = {
    "point": "`SELECT c FROM t WHERE id = N`, of {rows} rows",
    "insert": "`INSERT INTO t (id, c) VALUES (N, 1000)`, beside {rows} rows",
    "update": "`UPDATE t SET c = M WHERE id = N`, of {rows} rows",
    "scatter": "`SELECT id, c FROM few ORDER BY c, id LIMIT 10`, of 100 rows on 4 shards",
    "mix": "of 20 statements 16 points, 2 updates, 1 insert, 1 scatter",
    "transaction": "`BEGIN`, `SELECT c FROM t WHERE id = N`, `UPDATE t SET c = M WHERE id = N`, `COMMIT`, of {rows} rows",
    "first": "`SELECT id, c FROM t LIMIT 10`, of {rows} rows on 4 shards",
    "among": "`SELECT id, c FROM t WHERE id IN (N, M)`, of {rows} rows on 4 shards",
}
HEAD = """## The server

Written by `bench/serve.sh` on {day}, on a machine of {cores} processors. One client program asks each server over loopback, one thread a
connection, each statement once the last is answered. A cell is the round with the middle rate of {how}, after a quarter of a
round that isn't counted; the three servers take turns. The machine's speed changes within a run, so a ratio is taken in each round, and the
middle one is shown. The router has 4 shards and 32 workers, and keeps rows in memory alone. MariaDB's
server ({version}) has one InnoDB table for each of the router's, no binary log, and no flush at each commit. The echo
answers each request with the bytes of the router's reply, and knows nothing else. Rates are statements a second, latencies microseconds;
client and servers share the processors, so compare ratios, not figures.
"""
COLUMNS = ("connections", "router", "50th", "99th", "MariaDB", "50th", "99th", "echo", "50th", "99th", "router : MariaDB", "router : echo")
WITHOUT_ECHO = ("connections", "router", "50th", "99th", "MariaDB", "50th", "99th", "router : MariaDB")
OF_TRANSACTIONS = ("connections", "router", "50th", "99th", "conflicts", "MariaDB", "50th", "99th", "conflicts", "router : MariaDB")


def read_cells(path):
    cells = {}
    for line in path.read_text().splitlines():
        kind, count, server, *numbers, ratio = line.split()
        cells.setdefault(kind, {}).setdefault(int(count), {})[server] = (*map(int, numbers), float(ratio))
    return cells


def ratio(servers, name):
    return f"{servers[name][-1]:.2f}"


def row_of(count, servers):
    row = [count]
    for rate, half, most, *_ in servers.values():
        row += [rate, f"{half / 1000:.0f}", f"{most / 1000:.0f}"]
    return row + [ratio(servers, name) for name in servers if name != "router"]


def columns_of(counts):
    return COLUMNS if all("echo" in servers for servers in counts.values()) else WITHOUT_ECHO


def row_of_transactions(count, servers):
    row = [count]
    for name in ("router", "MariaDB"):
        rate, half, most, conflicts, _ = servers[name]
        row += [rate, f"{half / 1000:.0f}", f"{most / 1000:.0f}", f"{conflicts / 10:.1f} %"]
    return row + [ratio(servers, "MariaDB")]


def section(cells, how, rows, version):
    lines = [HEAD.format(day=datetime.date.today(), cores=os.cpu_count(), how=how, version=version)]
    for kind, counts in cells.items():
        text = KINDS[kind].format(rows=rows)
        lines += [f"### {kind[0].upper()}{kind[1:]}", "", f"{text[0].upper()}{text[1:]}.", ""]
        if kind == "transaction":
            lines += ["Rates and latencies are of whole transactions that committed; a conflict (1213) gives one up, of as many in a hundred.", ""]
        columns, row = (OF_TRANSACTIONS, row_of_transactions) if kind == "transaction" else (columns_of(counts), row_of)
        lines += ["| " + " | ".join(columns) + " |", "|" + "---|" * len(columns)]
        lines += ["| " + " | ".join(map(str, row(count, servers))) + " |" for count, servers in counts.items()]
        lines.append("")
    return "\n".join(lines)


def wishes(cells):
    """How far the point SELECTs are from what is wished of them."""
    points = cells.get("point", {})
    for name, wished in ("MariaDB", 2), ("echo", 0.7):
        ratios = [(servers[name][-1], count) for count, servers in points.items()]
        if ratios:
            least, count = min(ratios)
            yield f"points: at least {least:.2f} times the rate of {name} (at {count} connections); the wish is {wished}"


def main():
    cells = read_cells(pathlib.Path(sys.argv[1]))
    part = section(cells, *sys.argv[2:5])
    print(*wishes(cells), sep="\n", file=sys.stderr)
    if len(sys.argv) > 5:
        document = pathlib.Path(sys.argv[5])
        page.put(document, "serve.sh", part)
    else:
        print(part, end="")


main()

"""Writes the cells that measure.py printed as tables. Called by bench/many.sh with their file, how they were measured, of how many rows, and MariaDB's
version; with a document too, puts them there between its marks.
Usage: tables.py CELLS HOW ROWS VERSION [DOCUMENT]"""

import datetime
import os
import pathlib
import sys

sys.path.insert(0, str(pathlib.Path(__file__).resolve().parents[1]))

import page  # noqa: E402

HEAD = """## Many connections

Written by `bench/many.sh` on {day}, on a machine of {cores} processors. A client of four threads asks over loopback; each of its connections is asked
again once it has answered. A cell is the round with the middle rate of {how}, after a quarter of a round that isn't counted; the servers take turns.
The table has {rows} rows on 4 shards. `router 8` has 8 workers. MariaDB's server ({version}) has a thread for each connection, or, as `pool`, its pool of
threads. Rates are statements a second, latencies microseconds. Client and servers share the processors, so compare ratios, not figures.
"""
NEVER = (1 << 32) - 1
KINDS = {"point": "Points: `SELECT c FROM t WHERE id = N`", "mix": "Mix: Of 20 statements 16 points, 2 updates, 1 insert, 1 scatter over 4 shards"}


def shown(name):
    return name.replace("router_", "router ").replace("MariaDB_pool", "pool")


def microseconds(value):
    return f"{value / 1000:.0f}"


def table(head, rows):
    lines = ["| " + " | ".join(map(str, row)) + " |" for row in (head, *rows)]
    return [lines[0], "|" + "---|" * len(head), *lines[1:], ""]


def read_cells(path):
    """The cells by their word, then by what they are of, then by the server's name."""
    found = {}
    for line in path.read_text().splitlines():
        what, one, other, name, *figures = line.split()
        found.setdefault(what, {}).setdefault((one, int(other)), {})[name] = list(map(float, figures))
    return found


def chosen(names):
    """The router that ratios are of: the one with 8 workers if it was measured."""
    routers = [it for it in names if it.startswith("router_")]
    return "router_8" if "router_8" in routers else routers[0]


def rates(cells):
    for kind in dict.fromkeys(kind for kind, _ in cells):
        counts = {count: servers for (it, count), servers in cells.items() if it == kind}
        names = list(next(iter(counts.values())))
        mine = chosen(names)
        base = counts.get(32, next(iter(counts.values())))[mine][0]
        yield from (f"### {KINDS[kind].split(':')[0]} by many connections", "", KINDS[kind].partition(": ")[2] + ".", "")
        ratios = [f"{shown(mine)} : MariaDB", f"{shown(mine)} : pool", f"{shown(mine)} : its rate of 32"]
        rows = []
        for count, servers in counts.items():
            rate = servers[mine][0]
            others = [servers["MariaDB"][0], servers["MariaDB_pool"][0], base]
            rows.append([count, *(f"{servers[it][0]:.0f}" for it in names), *(f"{rate / it:.2f}" for it in others)])
        yield from table(["connections", *map(shown, names), *ratios], rows)
        few = [mine, "MariaDB", "MariaDB_pool"]
        rows = [[count, *(microseconds(it) for name in few for it in servers[name][1:4])] for count, servers in counts.items()]
        yield from table(["connections", *(f"{shown(it)}, {part}" for it in few for part in ("50th", "99th", "99.9th"))], rows)


def idle(cells):
    (count, busy), servers = next(iter(cells.items()))
    yield from ("### Busy connections among idle ones", "")
    yield from (f"Points of {busy} connections while {int(count):,} others are idle; the ratio is to their rate alone, in the same round.", "")
    head = ["server", "statements a second", "50th", "99th", "99.9th", "ratio to alone", "bytes of an idle connection", "MB of the process"]
    rows = []
    for name, (rate, half, most, longest, ratio, each, held) in servers.items():
        rows.append([shown(name), f"{rate:.0f}", *map(microseconds, (half, most, longest)), f"{ratio:.2f}", f"{each:.0f}", f"{held / 1e6:.0f}"])
    yield from table(head, rows)


def storms(cells):
    (count, _), servers = next(iter(cells.items()))
    yield from ("### Logins at the same time", "")
    yield from (f"Milliseconds until {int(count):,} clients that connect at once are logged in, and how many aren't after 20 s.", "")
    told = lambda it: f"{it / 1e6:.0f}" if it < NEVER else "never"
    rows = [[shown(name), *map(told, figures[:3]), f"{figures[3]:.0f}"] for name, figures in servers.items()]
    yield from table(["server", "all", "50th", "99th", "lost"], rows)


def wishes(cells):
    """How far the figures are from what is wished of them, for who measures."""
    for (kind, count), servers in cells["rate"].items():
        mine = servers[chosen(servers)][0]
        base = cells["rate"].get((kind, 32), servers)[chosen(servers)][0]
        if count in (256, 1000):
            yield f"{kind} of {count}: {mine / base:.2f} of the rate of 32 (wished: 1), {mine / servers['MariaDB'][0]:.2f} times MariaDB's (3)"
    for what, one, name in (
        ("idle", 4, "busy ones keep {:.2f} of their rate (0.95)"),
        ("idle", 6, "the process has {:.0f} bytes (120 MB)"),
        ("storm", 0, "all log in within {:.0f} ns (a second)"),
    ):
        servers = next(iter(cells[what].values()))
        yield name.format(servers[chosen(servers)][one])


def main():
    cells = read_cells(pathlib.Path(sys.argv[1]))
    how, of_rows, version = sys.argv[2:5]
    head = HEAD.format(day=datetime.date.today(), cores=os.cpu_count(), how=how, rows=of_rows, version=version)
    print(*wishes(cells), sep="\n", file=sys.stderr)
    part = "\n".join([head, *rates(cells["rate"]), *idle(cells["idle"]), *storms(cells["storm"])])
    if len(sys.argv) > 5:
        page.put(pathlib.Path(sys.argv[5]), "many.sh", part)
    else:
        print(part, end="")


main()

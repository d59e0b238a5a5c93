"""Measures points and UPDATEs by key alone, and while one client asks for a report of all rows over and over. Called by bench/load.sh."""

import pathlib
import subprocess
import sys

HERE = pathlib.Path(__file__).resolve().parent
sys.path.insert(0, str(HERE.parent / "serve"))

import measure  # noqa: E402

REPORTS = {
    "none": "alone",
    "sorted": "`SELECT id, c FROM t ORDER BY c, id LIMIT 10`",
    "groups": "`SELECT c, COUNT(*) FROM t GROUP BY c`",
    "rows": "`SELECT id, c FROM t`",
}
KINDS = {"point": "`SELECT c FROM t WHERE id = N`", "update": "`UPDATE t SET c = M WHERE id = N`"}
HEAD = """One client asks each server for a report of {rows} rows over and over, and two clients for rows by their keys: how many statements a second
the two have, of what they have alone, and their latencies in microseconds. The router has 4 shards. Each cell is the middle of {rounds} rounds of
{seconds} seconds, in which the servers take turns.

"""


def run(server, load, kind, connections, seconds, **how):
    return subprocess.Popen([load, "run", *server.place, kind, str(connections), str(seconds)], stdout=subprocess.PIPE, **how)


def numbers(process):
    out, _ = process.communicate()
    if process.returncode:
        sys.exit("the client failed")
    return list(map(int, out.split()))


def cell(server, load, kind, report, seconds):
    """The rate of two clients, their latencies (50th, 99th, 99.9th, longest), and how many reports a second there were."""
    beside = None if report == "none" else run(server, load, report, 1, seconds + 1)
    rate, half, most, _, rare, longest = numbers(run(server, load, kind, 2, seconds))
    return rate, half, most, rare, longest, 0 if beside is None else numbers(beside)[0]


def table(program, load, work, rows=220_000, seconds=2, rounds=3):
    servers = [measure.Router(rows, program)]
    part = HEAD.format(rows=rows, rounds=rounds, seconds=seconds)
    part += "| statement | report beside it | server | a second | of alone | 50th | 99th | 99.9th | longest | reports a second |\n"
    part += "|---|---|---|---|---|---|---|---|---|---|\n"
    try:
        servers.append(measure.MariaDB(rows, work))
        for kind, text in KINDS.items():
            cells = {}
            for _ in range(rounds):
                for server in servers:
                    server.begin_cell(load)
                    for report in REPORTS:
                        cells.setdefault((server.name, report), []).append(cell(server, load, kind, report, seconds))
            middle = {at: sorted(found)[len(found) // 2] for at, found in cells.items()}
            for report, beside in REPORTS.items():
                for server in servers:
                    rate, *latencies, reports = middle[server.name, report]
                    of_alone = f"{rate / middle[server.name, 'none'][0]:.2f}"
                    shown = " | ".join(f"{it / 1000:.0f}" for it in latencies)
                    part += f"| {text} | {beside} | {server.name} | {rate} | {of_alone} | {shown} | {reports if report != 'none' else ''} |\n"
    finally:
        for server in servers:
            server.stop()
    return part + "\n"


def main():
    program, load, work = sys.argv[1:4]
    print(table(program, load, pathlib.Path(work), *map(int, sys.argv[4:])), end="")


if __name__ == "__main__":
    main()

"""Measures how statements that the key's order answers grow with their table, beside MariaDB's server. Called by bench/keys.sh."""

import argparse
import contextlib
import datetime
import json
import os
import pathlib
import statistics
import subprocess
import sys
import tempfile

TOP = pathlib.Path(__file__).resolve().parents[2]
sys.path[:0] = [str(TOP / "tests" / "clients"), str(TOP / "bench"), str(TOP / "bench" / "worst")]

import measure as worst  # noqa: E402
import page  # noqa: E402
from router import free_ports  # noqa: E402

RANGES = {1: "-", 4: "-40,40-80,80-c0,c0-"}
NUMBER = {"type": "BIGINT UNSIGNED"}
VINDEX = {"rev": {"type": "reverse_bits"}}
TABLES = {
    "t": {"columns": [{"name": "id", **NUMBER}, {"name": "c", **NUMBER}], "primary_key": ["id"], "column_vindexes": [{"column": "id", "name": "rev"}]},
    "m": {
        "columns": [{"name": "u", **NUMBER}, {"name": "id", **NUMBER}, {"name": "c", **NUMBER}],
        "primary_key": ["u", "id"],
        "column_vindexes": [{"column": "u", "name": "rev"}],
    },
}
SCHEMA = {"keyspaces": {"shop": {"sharded": True, "vindexes": VINDEX, "tables": TABLES}}}
NEW_TABLES = (
    "DROP TABLE IF EXISTS t, m; CREATE TABLE t (id BIGINT UNSIGNED PRIMARY KEY, c BIGINT UNSIGNED); "
    "CREATE TABLE m (u BIGINT UNSIGNED, id BIGINT UNSIGNED, c BIGINT UNSIGNED, PRIMARY KEY (u, id));"
)
# How many rows of one user the table of two key columns has, and of how many statements one time is taken.
INBOX, STATEMENTS = 200, 100
HEAD = """## Ranges and orders of a key

Written by `bench/keys.sh` on {day}, on a machine of {cores} processors, through a socket: tables of two and three numbers, of {sizes} rows each, of which the
second has a key of two columns, {inbox} rows a user. Microseconds a statement, the middle of {rounds} rounds of {statements} statements each by one
client. MariaDB's server ({version}) is asked the same by the same client, in turn with the router, over the same rows in InnoDB; the ratio is its time to the
router's: above 1 the router is faster. The growth is the time at the most rows to that at the fewest.

| shards | statement | {columns} | growth | MariaDB at the most | ratio |
|---|---|{rules}|---|---|---|
"""


def kinds(rows):
    """The statements as the page shows them, and as they are asked of so many rows."""
    half, user = rows // 2, rows // INBOX // 2
    return (
        ("`SELECT c .. WHERE id = N`", f"SELECT c FROM t WHERE id = {half}"),
        ("`SELECT id .. ORDER BY id LIMIT 10`", "SELECT id FROM t ORDER BY id LIMIT 10"),
        ("`SELECT id .. ORDER BY id DESC LIMIT 10`", "SELECT id FROM t ORDER BY id DESC LIMIT 10"),
        ("`SELECT id .. WHERE id > N ORDER BY id LIMIT 10`", f"SELECT id FROM t WHERE id > {half} ORDER BY id LIMIT 10"),
        ("`SELECT id .. WHERE id >= N AND id < N + 10`", f"SELECT id FROM t WHERE id >= {half} AND id < {half + 10}"),
        ("`SELECT MAX(id) FROM t`", "SELECT MAX(id) FROM t"),
        ("`SELECT MIN(id) .. WHERE id > N`", f"SELECT MIN(id) FROM t WHERE id > {half}"),
        ("`SELECT COUNT(*) FROM t`", "SELECT COUNT(*) FROM t"),
        ("`SELECT id, c FROM m WHERE u = N ORDER BY id DESC LIMIT 20`", f"SELECT id, c FROM m WHERE u = {user} ORDER BY id DESC LIMIT 20"),
        ("`SELECT MAX(id) FROM m WHERE u = N`", f"SELECT MAX(id) FROM m WHERE u = {user}"),
    )


def fill(server, rows, shards):
    """Puts so many rows into each table; an INSERT has rows of one shard."""
    step = worst.BATCH * shards
    for shard in range(shards):
        for first in range(shard, rows, step):
            ids = range(first, min(first + step, rows), shards)
            server.insert("t (id, c)", [(it, it * 7919 % 100003) for it in ids])
            server.insert("m (u, id, c)", [(it // shards // INBOX * shards + shard, it // shards % INBOX, it) for it in ids])


class Server(worst.Server):
    """A server of these tables."""

    def insert(self, table, rows):
        self.client.command(worst.packets.QUERY, f"INSERT INTO {table} VALUES {', '.join(str(it) for it in rows)}".encode())
        told = self.client.read()
        if told[0]:
            sys.exit(worst.packets.error_of(told))

    def microseconds(self, text):
        """The time of one of many statements."""
        return statistics.mean(self.reply(text)[0] for _ in range(STATEMENTS)) * 1e6


class Router(Server):
    """A router of so many shards, until the `with` ends."""

    def __init__(self, program, shards):
        self.program, self.shards = program, shards

    def __enter__(self):
        port, admin = free_ports(2)
        call = [self.program, "serve", RANGES[self.shards], f"127.0.0.1:{port}", f"127.0.0.1:{admin}", "2", "8", "0", "bench", "-", "a nonce of the bench"]
        with tempfile.TemporaryFile("w+") as schema:
            json.dump(SCHEMA, schema)
            schema.seek(0)
            self.process = subprocess.Popen(call, stdin=schema, stdout=subprocess.PIPE)
        if self.process.stdout.readline() != b"listening\n":
            sys.exit("the router doesn't listen")
        self.log_in(port, b"bench", b"shop")
        return self

    def __exit__(self, *_):
        self.process.kill()
        self.process.wait()


class MariaDB(Server, worst.MariaDB):
    """MariaDB's server of these tables."""

    def fill(self, rows):
        self.run(f"USE shop; {NEW_TABLES}")
        fill(self, rows, 1)


def measure(program, other, sizes, shards, rounds):
    """For each statement the router's times at each size, and MariaDB's at the last."""
    times, others = {}, {}
    for rows in sizes:
        with contextlib.ExitStack() as stack:
            router = stack.enter_context(Router(program, shards))
            fill(router, rows, shards)
            if rows == sizes[-1]:
                other.fill(rows)
            for _ in range(rounds):
                for shown, text in kinds(rows):
                    times.setdefault((shown, rows), []).append(router.microseconds(text))
                    if rows == sizes[-1]:
                        others.setdefault(shown, []).append(other.microseconds(text))
    for shown, _ in kinds(sizes[-1]):
        yield shown, [statistics.median(times[shown, rows]) for rows in sizes], statistics.median(others[shown])


def main():
    asked = argparse.ArgumentParser()
    asked.add_argument("program")
    asked.add_argument("--version", default="?")
    asked.add_argument("--rows", default="1000,100000,1000000")
    asked.add_argument("--rounds", type=int, default=3)
    asked.add_argument("--document", type=pathlib.Path)
    words = asked.parse_args()
    sizes = [int(it) for it in words.rows.split(",")]
    part = HEAD.format(
        day=datetime.date.today(), cores=os.cpu_count(), sizes=" and ".join(f"{it:,}" for it in sizes), inbox=INBOX, rounds=words.rounds,
        statements=STATEMENTS, version=words.version, columns=" | ".join(f"{it:,} rows" for it in sizes), rules="|".join("---" for _ in sizes),
    )
    with tempfile.TemporaryDirectory() as work, MariaDB(pathlib.Path(work), sizes[-1]) as other:
        for shards in RANGES:
            for shown, took, its in measure(words.program, other, sizes, shards, words.rounds):
                cells = " | ".join(f"{it:.0f}" for it in took)
                part += f"| {shards} | {shown} | {cells} | {took[-1] / took[0]:.2f} | {its:.0f} | {its / took[-1]:.2f} |\n"
    if words.document:
        page.put(words.document, "keys.sh", part)
    else:
        print(part, end="")


if __name__ == "__main__":
    main()

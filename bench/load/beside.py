"""Measures what statements cost while others run, through sockets. Called by bench/load.sh."""

import argparse
import datetime
import json
import os
import pathlib
import statistics
import subprocess
import sys
import tempfile
import threading
import time

TOP = pathlib.Path(__file__).resolve().parents[2]
sys.path[:0] = [str(TOP / "tests" / "clients"), str(TOP / "bench")]

import packets  # noqa: E402
import page  # noqa: E402
import reports  # noqa: E402
from router import free_ports  # noqa: E402

NUMBER = {"type": "BIGINT UNSIGNED"}
SCHEMA = {
    "keyspaces": {
        "shop": {
            "sharded": True,
            "vindexes": {"rev": {"type": "reverse_bits"}},
            "tables": {
                "t": {
                    "columns": [{"name": "id", **NUMBER}, {"name": "c", **NUMBER}],
                    "primary_key": ["id"],
                    "column_vindexes": [{"column": "id", "name": "rev"}],
                }
            },
        }
    }
}
BATCH = 1000
ONE, FOUR = "-", "-40,40-80,80-c0,c0-"
HEAD = """## Statements beside others

Written by `bench/load.sh` on {day}, on a machine of {cores} processors, through sockets. Compare the ratios, each of two that were measured in turn.

"""


def insert(ids):
    return "INSERT INTO t (id, c) VALUES " + ", ".join(f"({it}, {it * 7919 % 100003})" for it in ids)


class Client(packets.Client):
    def reply(self, text):
        """Sends a statement and reads its whole reply: a list of payloads, of which the last ends it."""
        self.command(packets.QUERY, text.encode())
        told = [self.read()]
        if told[0][0] in (0, 0xFF):
            return told
        while not (told[-1][0] == 0xFE and len(told[-1]) < 9 and len(told) > told[0][0] + 1):
            told.append(self.read())
        return told


class Router:
    """A router with so many rows, until the `with` ends, and one client."""

    def __init__(self, program, ranges, rows, workers=4):
        self.program, self.ranges, self.rows, self.workers = program, ranges, rows, workers

    def __enter__(self):
        port, admin = free_ports(2)
        self.address = ("127.0.0.1", port)
        call = [self.program, "serve", self.ranges, f"127.0.0.1:{port}", f"127.0.0.1:{admin}", str(self.workers), "64", "0", "bench", "-", "a nonce of the bench"]
        with tempfile.TemporaryFile("w+") as schema:
            json.dump(SCHEMA, schema)
            schema.seek(0)
            self.process = subprocess.Popen(call, stdin=schema, stdout=subprocess.PIPE)
        if self.process.stdout.readline() != b"listening\n":
            sys.exit("the router doesn't listen")
        self.client = self.connect()
        step = 1 if self.ranges == ONE else 4
        for shard in range(step):
            for first in range(shard, self.rows, BATCH * step):
                told = self.client.reply(insert(range(first, min(first + BATCH * step, self.rows), step)))[0]
                if told[0]:
                    sys.exit(packets.error_of(told))
        return self

    def __exit__(self, *_):
        self.process.kill()
        self.process.wait()

    def connect(self):
        client = Client(self.address)
        client.login(b"bench", b"", capabilities=packets.PLAIN | packets.DEPRECATE_EOF, database=b"shop")
        return client

    def memory(self):
        """The bytes that the process holds."""
        for line in pathlib.Path(f"/proc/{self.process.pid}/status").read_text().splitlines():
            if line.startswith("VmRSS:"):
                return int(line.split()[1]) * 1024
        sys.exit("no VmRSS")


def seconds(client, text, times):
    begin = time.perf_counter()
    for _ in range(times):
        client.reply(text)
    return (time.perf_counter() - begin) / times


def side_by_side(first, second, text, times, rounds):
    """The middle of how long a statement takes each of two clients, in turn."""
    pairs = [(seconds(first, text, times), seconds(second, text, times)) for _ in range(rounds)]
    return [statistics.median(it) for it in zip(*pairs)]


def transactions(program, rows, changes, rounds):
    """Statements in a transaction that has inserted, updated and deleted so many rows in all, and the same ones outside."""
    part = f"In a transaction with {changes} changed rows of a table of {rows} on one shard, and outside:\n\n"
    part += "| statement | milliseconds outside | in the transaction | ratio |\n|---|---|---|---|\n"
    shown = (
        (f"SELECT c FROM t WHERE id = {rows // 3}", 300),
        (f"SELECT c FROM t WHERE id IN ({rows // 4}, {rows // 5})", 300),
        (f"UPDATE t SET c = {rows // 3 * 7919 % 100003} WHERE id = {rows // 3}", 300),
        (f"DELETE FROM t WHERE id = {rows * 3}", 300),
        (f"INSERT INTO t (id, c) VALUES ({rows // 3}, 1)", 300),
        ("SELECT COUNT(*) FROM t", 2),
        ("SELECT c, COUNT(*) FROM t GROUP BY c LIMIT 10", 1),
        ("SELECT id FROM t ORDER BY c LIMIT 10", 1),
    )
    with Router(program, ONE, rows) as router:
        inside, outside = router.connect(), router.client
        inside.reply("BEGIN")
        for it in range(changes):
            own = (rows // changes) * it
            text = (insert([rows * 2 + it]), f"UPDATE t SET c = 7 WHERE id = {own}", f"DELETE FROM t WHERE id = {own}")[it % 3]
            told = inside.reply(text)[0]
            if told[0]:
                sys.exit(packets.error_of(told))
        for text, times in shown:
            out, within = side_by_side(outside, inside, text, times, rounds)
            part += f"| `{text}` | {out * 1000:.3f} | {within * 1000:.3f} | {within / out:.2f} |\n"
    return part + "\n"


def beside_others(program, rows, others, rounds):
    """Short reads of a large table on four shards, and a point read, while other clients read points."""
    part = f"Short reads of {rows} rows on 4 shards while {others} other clients read single rows, and a read of one row:\n\n"
    part += "| statement | microseconds | of one row | ratio |\n|---|---|---|---|\n"
    shown = ("SELECT c FROM t LIMIT 10", "SELECT c FROM t WHERE id IN (5, 6)", "SELECT COUNT(*) FROM t WHERE id IN (5, 6, 7, 8)")
    with Router(program, FOUR, rows) as router:
        ending = threading.Event()

        def work(client):
            at = 1
            while not ending.is_set():
                at = (at * 48271 + 1) % rows
                client.reply(f"SELECT c FROM t WHERE id = {at}")

        threads = [threading.Thread(target=work, args=(router.connect(),)) for _ in range(others)]
        for it in threads:
            it.start()
        client = router.client
        for text in shown:
            pairs = [(seconds(client, text, 300), seconds(client, "SELECT c FROM t WHERE id = 9", 300)) for _ in range(rounds)]
            took, point = (statistics.median(it) * 1e6 for it in zip(*pairs))
            part += f"| `{text}` | {took:.0f} | {point:.0f} | {took / point:.2f} |\n"
        ending.set()
        for it in threads:
            it.join()
    return part + "\n"


def kept(program, rows):
    """The bytes that the process holds more for each row that is loaded, and for each UPDATE of a row."""
    with Router(program, ONE, 0) as router:
        before = router.memory()
        for first in range(0, rows, BATCH):
            router.client.reply(insert(range(first, first + BATCH)))
        loaded = router.memory()
        for it in range(rows):
            router.client.reply(f"UPDATE t SET c = 1{it} WHERE id = {it}")
        updated = router.memory()
    return f"A loaded row of two numbers keeps {(loaded - before) / rows:.0f} bytes, and each UPDATE of one {(updated - loaded) / rows:.0f} more.\n"


def main():
    asked = argparse.ArgumentParser()
    asked.add_argument("program")
    asked.add_argument("load")
    asked.add_argument("work", type=pathlib.Path)
    asked.add_argument("--rows", type=int, default=1_000_000)
    asked.add_argument("--changes", type=int, default=100)
    asked.add_argument("--rounds", type=int, default=5)
    asked.add_argument("--document", type=pathlib.Path)
    words = asked.parse_args()
    part = HEAD.format(day=datetime.date.today(), cores=os.cpu_count())
    part += transactions(words.program, words.rows, words.changes, words.rounds)
    part += beside_others(words.program, 20_000, 3, words.rounds)
    part += reports.table(words.program, words.load, words.work)
    part += kept(words.program, min(words.rows, 100_000))
    if words.document:
        page.put(words.document, "load.sh", part)
    else:
        print(part, end="")


if __name__ == "__main__":
    main()

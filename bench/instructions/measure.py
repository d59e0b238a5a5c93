"""Counts the instructions of each statement through a socket, with callgrind. Called by bench/instructions.sh."""

import argparse
import datetime
import json
import pathlib
import re
import socket
import subprocess
import sys
import tempfile

TOP = pathlib.Path(__file__).resolve().parents[2]
sys.path[:0] = [str(TOP / "tests" / "clients"), str(TOP / "bench")]

import packets  # noqa: E402
import page  # noqa: E402
from measured import names_of  # noqa: E402
from router import free_ports  # noqa: E402

# How many rows an INSERT has at most: with two numbers each, less than a statement's 4,096 literals.
BATCH = 2000
NUMBER = {"type": "BIGINT UNSIGNED"}
SCHEMA = {
    "keyspaces": {
        "shop": {
            "sharded": True,
            "vindexes": {"rev": {"type": "reverse_bits"}},
            "tables": {
                "t": {
                    "columns": [{"name": "id", **NUMBER}, {"name": "c", **NUMBER}],
                    "primary_key": ["id"],
                    "column_vindexes": [{"column": "id", "name": "rev"}],
                }
            },
        }
    }
}
HEAD = """## Instructions of a statement

Written by `bench/instructions.sh` on {day}: the instructions of the server's process from a statement to the end of its reply, as callgrind counts them
through a socket, so that what else runs on the machine changes nothing. Several statements of a kind are sent, and the count is that of one.

| statement | shards | rows | instructions |
|---|---|---|---|
"""
ROW = re.compile(r"^\| (.*?) \| (\d+) \| (\d+) \| (\d+) \|$", re.M)


def scattered(number):
    """A number by which rows are out of order."""
    return number * 7919 % 1000003


def insert(ids):
    return "INSERT INTO t VALUES " + ", ".join(f"({it}, {scattered(it)})" for it in ids)


def among(count):
    return ", ".join(str(it) for it in range(1, 2 * count, 2))


def own_changes(count, rows):
    """A transaction's first statements: so many rows are updated, deleted or inserted, a third each, all over the table."""
    texts = ["BEGIN"]
    for it in range(count):
        near = rows // count * it
        texts.append((f"UPDATE t SET c = 1 WHERE id = {near}", f"DELETE FROM t WHERE id = {near}", insert([rows * 2 + it]))[it % 3])
    return texts


def in_transaction(shown, changes, rows, times, text):
    """A statement in a transaction with so many changed rows of one shard."""
    return (f"{shown} after {changes:,} own changes", 1, rows, times, text, own_changes(changes, rows))


def kinds():
    """A statement as a page shows it, how many shards, how many rows before it, how often it is sent, its text, by the number of the time, and
    what is sent once before it, if anything."""
    return (
        ("`SELECT * .. WHERE id = N`", 2, 1_000, 200, lambda time: f"SELECT * FROM t WHERE id = {time}"),
        ("`UPDATE .. SET c = M WHERE id = N`", 2, 1_000, 200, lambda time: f"UPDATE t SET c = {10**7 + time} WHERE id = {time}"),
        ("`INSERT` of a row", 2, 1_000, 200, lambda time: insert([1_000_000 + time])),
        ("`INSERT` of 1,000 rows", 1, 0, 3, lambda time: insert(range(time * 1000, time * 1000 + 1000))),
        ("`INSERT` of 200 rows of one shard", 64, 0, 3, lambda time: insert(range(time * 200 * 64, time * 200 * 64 + 200 * 64, 64))),
        ("`SELECT * .. WHERE id IN (..)`, 4,000 ids", 1, 10_000, 2, lambda time: f"SELECT * FROM t WHERE id IN ({among(4000)})"),
        ("`UPDATE .. WHERE id IN (..)`, 4,000 ids", 1, 10_000, 2, lambda time: f"UPDATE t SET c = {10**7 + time} WHERE id IN ({among(4000)})"),
        ("`SELECT id .. ORDER BY c LIMIT 10`", 1, 100_000, 2, lambda time: "SELECT id FROM t ORDER BY c LIMIT 10"),
        ("`SELECT * FROM t`", 1, 10_000, 2, lambda time: "SELECT * FROM t"),
        ("`SELECT c, COUNT(*), SUM(id) .. GROUP BY c`", 1, 10_000, 2, lambda time: "SELECT c, COUNT(*), SUM(id) FROM t GROUP BY c"),
        ("`SELECT COUNT(*), SUM(c) FROM t`", 1, 10_000, 2, lambda time: "SELECT COUNT(*), SUM(c) FROM t"),
        ("`SELECT COUNT(*) FROM t`", 1, 100_000, 2, lambda time: "SELECT COUNT(*) FROM t"),
        in_transaction("`SELECT COUNT(*) FROM t`", 100, 100_000, 2, lambda time: "SELECT COUNT(*) FROM t"),
        in_transaction("`SELECT * .. WHERE id = N`", 100, 10_000, 20, lambda time: f"SELECT * FROM t WHERE id = {time}"),
        in_transaction("`INSERT` of a row", 100, 10_000, 20, lambda time: insert([1_000_000 + time])),
        in_transaction("`INSERT` of 1,000 rows", 1000, 10_000, 2, lambda time: insert(range(10**6 + time * 1000, 10**6 + time * 1000 + 1000))),
    )


class Router:
    """A router under callgrind, until the `with` ends, and one client."""

    def __init__(self, program, shards, work):
        self.program, self.shards, self.work, self.dumps = program, shards, work, 0

    def __enter__(self):
        port, admin = free_ports(2)
        call = ["valgrind", "--tool=callgrind", f"--callgrind-out-file={self.work}/out", "--dump-instr=no", "--quiet", self.program, "serve"]
        call += [names_of(self.shards), f"127.0.0.1:{port}", f"127.0.0.1:{admin}", "1", "8", "0", "bench", "-", "a nonce of the bench"]
        with tempfile.TemporaryFile("w+") as schema:
            json.dump(SCHEMA, schema)
            schema.seek(0)
            self.process = subprocess.Popen(call, stdin=schema, stdout=subprocess.PIPE, stderr=subprocess.DEVNULL)
        if self.process.stdout.readline() != b"listening\n":
            sys.exit("the router doesn't listen")
        self.client = packets.Client(("127.0.0.1", port), 600)
        self.client.login(b"bench", b"", capabilities=packets.PLAIN | packets.DEPRECATE_EOF, database=b"shop")
        self.client.socket.setsockopt(socket.IPPROTO_TCP, socket.TCP_NODELAY, 1)
        return self

    def __exit__(self, *_):
        self.process.kill()
        self.process.wait()

    def query(self, text):
        told = self.client.query(text.encode())[0]
        if told[0] == 0xFF:
            sys.exit(packets.error_of(told))

    def load(self, rows):
        # the lowest bits of an id are the highest of its keyspace id: an INSERT has rows of one shard
        step = BATCH * self.shards
        for first in (shard + start for shard in range(self.shards) for start in range(0, rows, step)):
            self.query(insert(range(first, min(first + step, rows), self.shards)))

    def counted(self):
        """The instructions since the last count."""
        subprocess.run(["callgrind_control", "--dump", str(self.process.pid)], check=True, stdout=subprocess.DEVNULL, stderr=subprocess.DEVNULL)
        self.dumps += 1
        text = (self.work / f"out.{self.dumps}").read_text()
        return int(re.search(r"^(?:totals|summary): (\d+)", text, re.M).group(1))


def measure(program, shards, rows, times, text, opening=()):
    with tempfile.TemporaryDirectory() as work, Router(program, shards, pathlib.Path(work)) as router:
        router.load(rows)
        for it in opening:
            router.query(it)
        # what is made once
        router.query(text(0))
        router.counted()
        for time in range(1, times + 1):
            router.query(text(time))
        return router.counted() // times


def main():
    asked = argparse.ArgumentParser()
    asked.add_argument("program")
    asked.add_argument("--only", default="")
    asked.add_argument("--document", type=pathlib.Path)
    words = asked.parse_args()
    known = (TOP / "docs" / "PERFORMANCE.md").read_text()
    before = {found[:3]: int(found[3]) for found in ROW.findall(known.partition("<!-- bench/instructions.sh begins -->")[2])}
    part = HEAD.format(day=datetime.date.today())
    for shown, shards, rows, times, text, *opening in kinds():
        if words.only not in shown:
            continue
        count = measure(words.program, shards, rows, times, text, *opening)
        last = before.get((shown, str(shards), str(rows)))
        line = f"| {shown} | {shards} | {rows} | {count} |"
        # what the page has is that of the last commit
        print(line, f"{count / last:.2f} times the page's" if last else "", flush=True)
        part += line + "\n"
    if words.document:
        page.put(words.document, "instructions.sh", part)


if __name__ == "__main__":
    main()

"""Measures the dearest statement of each kind through a socket: its time, and the most memory that the server takes for it. Called by bench/worst.sh."""

import argparse
import datetime
import json
import os
import pathlib
import shutil
import statistics
import subprocess
import sys
import tempfile
import time

TOP = pathlib.Path(__file__).resolve().parents[2]
sys.path[:0] = [str(TOP / "tests" / "clients"), str(TOP / "bench")]

import packets  # noqa: E402
import page  # noqa: E402
from router import free_ports  # noqa: E402

RANGES = "-40,40-80,80-c0,c0-"
SHARDS = 4
BATCH = 1000
# How often a SELECT is asked after its first time.
AGAIN = 5
TEXT = "t" * 92
NUMBER = {"type": "BIGINT UNSIGNED"}
SCHEMA = {
    "keyspaces": {
        "shop": {
            "sharded": True,
            "vindexes": {"rev": {"type": "reverse_bits"}},
            "tables": {
                "t": {
                    "columns": [{"name": "id", **NUMBER}, {"name": "c", **NUMBER}, {"name": "v", "type": "VARBINARY(100)"}],
                    "primary_key": ["id"],
                    "column_vindexes": [{"column": "id", "name": "rev"}],
                }
            },
        }
    }
}
HEAD = """## The dearest statement of each kind

Written by `bench/worst.sh` on {day}, on a machine of {cores} processors, through a socket: {rows} rows of two numbers and 100 bytes on {shards} shards.
Milliseconds from the statement to the last byte of its reply, the middle of {rounds} rounds, each with a new router. In a round a SELECT is asked once,
and then {again} times, of which the middle counts; a write is asked once. Memory is the most that the server's process held at the first time, beyond
what it held before; the last column has the part of it that isn't the reply's own bytes, for each row that the statement reads or changes: what
the router holds of a row until its reply is sent.

MariaDB's server ({version}) is asked the same by the same client, in turn with the router, in each round over a new table of the same rows in
InnoDB. It has no binary log and no flush at each commit. The ratio is its time to the router's: above 1 the router is faster.

| kind | statement | milliseconds | MariaDB | ratio | bytes of the reply | MB at most | bytes a row beyond the reply |
|---|---|---|---|---|---|---|---|
"""
NEW_TABLE = "DROP TABLE IF EXISTS t; CREATE TABLE t (id BIGINT UNSIGNED PRIMARY KEY, c BIGINT UNSIGNED, v VARBINARY(100));"


def kinds(rows):
    """A name, the statement as a page shows it, the statement, and how many rows it reads or changes."""
    ids = ", ".join(str(it) for it in range(0, 4095 * 16, 16))
    return (
        ("point", "`SELECT * .. WHERE id = N`", f"SELECT * FROM t WHERE id = {rows // 2}", 1),
        ("IN", "`SELECT * .. WHERE id IN (..)`, 4,095 ids of one shard", f"SELECT * FROM t WHERE id IN ({ids})", 4095),
        ("scatter", "`SELECT * FROM t`", "SELECT * FROM t", rows),
        ("ORDER BY", "`SELECT * FROM t ORDER BY v, c`", "SELECT * FROM t ORDER BY v, c", rows),
        ("LIMIT", "`SELECT id FROM t ORDER BY c LIMIT 10 OFFSET N - 10`", f"SELECT id FROM t ORDER BY c LIMIT 10 OFFSET {rows - 10}", rows),
        ("aggregates", "`SELECT COUNT(*), SUM(c), MIN(v), MAX(v) FROM t`", "SELECT COUNT(*), SUM(c), MIN(v), MAX(v) FROM t", rows),
        ("GROUP BY the key", "`SELECT id, COUNT(*), MAX(v) .. GROUP BY id`", "SELECT id, COUNT(*), MAX(v) FROM t GROUP BY id", rows),
        ("GROUP BY", "`SELECT c, COUNT(*), SUM(id) .. GROUP BY c`", "SELECT c, COUNT(*), SUM(id) FROM t GROUP BY c", rows),
        ("INSERT", "of 1,365 rows of one shard", insert(range(rows * 4, rows * 4 + 1365 * 4, 4)), 1365),
        ("UPDATE", "`UPDATE t SET c = 1 WHERE id IN (..)`, 4,094 ids of one shard", f"UPDATE t SET c = 1 WHERE id IN ({ids.rsplit(', ', 1)[0]})", 4094),
    )


def insert(ids):
    return "INSERT INTO t (id, c, v) VALUES " + ", ".join(f"({it}, {it * 7919 % 100003}, '{TEXT}{it:08}')" for it in ids)


class Server:
    """A server of these rows, and one client of it."""

    def log_in(self, port, user, database):
        self.client = packets.Client(("127.0.0.1", port))
        self.client.login(user, b"", capabilities=packets.PLAIN | packets.DEPRECATE_EOF, database=database)

    def insert(self, ids):
        self.client.command(packets.QUERY, insert(ids).encode())
        told = self.client.read()
        if told[0]:
            sys.exit(packets.error_of(told))

    def reply(self, text):
        """Seconds until the whole reply has come, and its bytes."""
        begin = time.perf_counter()
        self.client.command(packets.QUERY, text.encode())
        count, last, room = 0, b"", bytearray(1 << 20)
        while not is_end(count, last):
            got = self.client.socket.recv_into(room)
            if not got:
                sys.exit("the server ended the connection")
            count, last = count + got, (last + bytes(room[max(0, got - 64) : got]))[-64:]
            if count == got and room[4] == 0xFF:
                sys.exit(packets.error_of(bytes(room[4:got])))
        return time.perf_counter() - begin, count


class Router(Server):
    """A router with so many rows, until the `with` ends."""

    def __init__(self, program, rows):
        self.program, self.rows = program, rows

    def __enter__(self):
        port, admin = free_ports(2)
        call = [self.program, "serve", RANGES, f"127.0.0.1:{port}", f"127.0.0.1:{admin}", "2", "8", "0", "bench", "-", "a nonce of the bench"]
        with tempfile.TemporaryFile("w+") as schema:
            json.dump(SCHEMA, schema)
            schema.seek(0)
            self.process = subprocess.Popen(call, stdin=schema, stdout=subprocess.PIPE)
        if self.process.stdout.readline() != b"listening\n":
            sys.exit("the router doesn't listen")
        self.log_in(port, b"bench", b"shop")
        for shard in range(SHARDS):
            for first in range(shard, self.rows, BATCH * SHARDS):
                self.insert(range(first, min(first + BATCH * SHARDS, self.rows), SHARDS))
        return self

    def __exit__(self, *_):
        self.process.kill()
        self.process.wait()

    def memory(self, name):
        """The bytes that the process holds now (VmRSS), or held at most (VmHWM)."""
        for line in pathlib.Path(f"/proc/{self.process.pid}/status").read_text().splitlines():
            if line.startswith(name + ":"):
                return int(line.split()[1]) * 1024
        sys.exit(f"no {name}")

    def forget(self):
        """From now on the most is counted anew."""
        pathlib.Path(f"/proc/{self.process.pid}/clear_refs").write_text("5")


class MariaDB(Server):
    """MariaDB's server in a folder, until the `with` ends."""

    def __init__(self, work, rows):
        self.work, self.rows = work, rows

    def __enter__(self):
        data, self.socket = self.work / "mariadb", self.work / "mariadb.sock"
        choices = [f"--datadir={data}", "--user=root"]
        install = ["mariadb-install-db", "--no-defaults", *choices, "--auth-root-authentication-method=normal", "--skip-test-db"]
        subprocess.run(install, check=True, stdout=subprocess.DEVNULL, stderr=subprocess.DEVNULL)
        (port,) = free_ports(1)
        more = [
            f"--port={port}", "--bind-address=127.0.0.1", "--skip-name-resolve", "--skip-log-bin", "--performance-schema=OFF", "--query-cache-type=0",
            "--innodb-flush-log-at-trx-commit=0", "--innodb-buffer-pool-size=512M", "--max-allowed-packet=64M",
        ]
        log = (self.work / "mariadb.log").open("w")
        server = shutil.which("mariadbd") or "/usr/sbin/mariadbd"
        self.process = subprocess.Popen([server, "--no-defaults", *choices, f"--socket={self.socket}", *more], stdin=subprocess.DEVNULL, stdout=log, stderr=log)
        for _ in range(300):
            if subprocess.run([*self.words(), "-e", "SELECT 1"], capture_output=True).returncode == 0:
                break
            time.sleep(0.1)
        self.run("CREATE DATABASE shop; CREATE USER bench@'127.0.0.1'; GRANT ALL ON shop.* TO bench@'127.0.0.1'")
        self.log_in(port, b"bench", b"shop")
        return self

    def __exit__(self, *_):
        self.process.kill()
        self.process.wait()

    def words(self):
        return ["mariadb", "--no-defaults", f"--socket={self.socket}", "-u", "root"]

    def run(self, text):
        subprocess.run([*self.words(), "-e", text], check=True)

    def fill(self):
        self.run(f"USE shop; {NEW_TABLE}")
        for first in range(0, self.rows, BATCH):
            self.insert(range(first, min(first + BATCH, self.rows)))


def is_end(count, last):
    """Whether these are the last bytes of a reply: an OK packet, whose first byte is 0 in place of rows and FE after them, where it may tell a text too."""
    ends_rows = any(last[-4 - size : -1 - size] == size.to_bytes(3, "little") and last[-size:][:1] == b"\xfe" for size in (7, 8))
    return (count == len(last) and count > 4 and last[4] == 0) or ends_rows


def again(server, text, first):
    """The seconds of a statement that took so many at first: a SELECT is asked again and again."""
    if not text.startswith("SELECT"):
        return first
    return statistics.median(server.reply(text)[0] for _ in range(AGAIN))


def reply_and_memory(router, text):
    """The seconds until the whole reply has come, its bytes, and the most memory that the router took for it."""
    before = router.memory("VmRSS")
    router.forget()
    seconds, count = router.reply(text)
    return seconds, count, max(router.memory("VmHWM") - before, 0)


def measure(program, other, text):
    """The router's seconds, the bytes of its reply, the most memory that it took, and MariaDB's seconds."""
    with Router(program, other.rows) as router:
        first, count, memory = reply_and_memory(router, text)
        seconds = again(router, text, first)
    other.fill()
    first, _ = other.reply(text)
    return seconds, count, memory, again(other, text, first)


def main():
    asked = argparse.ArgumentParser()
    asked.add_argument("program")
    asked.add_argument("--version", default="?")
    asked.add_argument("--rows", type=int, default=100_000)
    asked.add_argument("--rounds", type=int, default=3)
    asked.add_argument("--document", type=pathlib.Path)
    words = asked.parse_args()
    part = HEAD.format(
        day=datetime.date.today(), cores=os.cpu_count(), rows=words.rows, shards=SHARDS, rounds=words.rounds, again=AGAIN, version=words.version
    )
    with tempfile.TemporaryDirectory() as work, MariaDB(pathlib.Path(work), words.rows) as other:
        for name, shown, text, touched in kinds(words.rows):
            seconds, counts, most, others = zip(*(measure(words.program, other, text) for _ in range(words.rounds)))
            took, count, memory, its = statistics.median(seconds), counts[0], statistics.median(most), statistics.median(others)
            beyond = f"{max(memory - count, 0) / touched:.0f}" if touched > 1 else "-"
            part += f"| {name} | {shown} | {took * 1000:.1f} | {its * 1000:.1f} | {its / took:.2f} | {count} | {memory / 2**20:.1f} | {beyond} |\n"
    if words.document:
        page.put(words.document, "worst.sh", part)
    else:
        print(part, end="")


if __name__ == "__main__":
    main()

"""Measures joins of the router and of MariaDB's server on the same tables, and prints the section of the page. Called by bench/joins.sh."""

import argparse
import datetime
import os
import pathlib
import shutil
import socket
import statistics
import subprocess
import sys
import time

HERE = pathlib.Path(__file__).resolve().parent
sys.path.insert(0, str(HERE.parent))

import page  # noqa: E402

SHARDS = "-40,40-80,80-c0,c0-"
TABLES = """CREATE TABLE few (id BIGINT UNSIGNED PRIMARY KEY, c BIGINT UNSIGNED);
CREATE TABLE t (id BIGINT UNSIGNED PRIMARY KEY, c BIGINT UNSIGNED);
CREATE TABLE w (id BIGINT UNSIGNED, d BIGINT UNSIGNED, PRIMARY KEY (id, d));
CREATE TABLE a (n BIGINT UNSIGNED PRIMARY KEY, k BIGINT UNSIGNED NOT NULL);
CREATE TABLE b (n BIGINT UNSIGNED PRIMARY KEY, k BIGINT UNSIGNED NOT NULL);
"""
HEAD = """## Joins

Written by `bench/joins.sh` on {day}, on {cores} processors: the router over 4 shards and MariaDB's server ({version}) on the same tables, by
one connection of MariaDB's client, one statement after the other, the servers in turn. The median of {rounds} rounds, without what the client
takes to start. The ratio is MariaDB's time to the router's: above 1 the router is faster.

"""


def free_port():
    with socket.socket() as it:
        it.bind(("127.0.0.1", 0))
        return it.getsockname()[1]


class Server:
    """A server, and a client's words to reach it."""

    def __init__(self, words):
        self.words = words

    def run(self, text):
        """Runs statements, and gives the seconds that they took."""
        begin = time.monotonic()
        client = ["mariadb", "--no-defaults", *self.words, "--skip-ssl", "-N", "--quick"]
        run = subprocess.run(client, input=text.encode(), stdout=subprocess.DEVNULL, stderr=subprocess.PIPE)
        if run.returncode:
            sys.exit(f"{run.stderr.decode()[:500]}\n{text[:200]}")
        return time.monotonic() - begin


def begin_router(program):
    port = free_port()
    ports = [f"127.0.0.1:{it}" for it in (port, free_port())]
    words = ["serve", SHARDS, *ports, "4", "100", "0", "bench", "-", "a nonce of the bench"]
    process = subprocess.Popen([program, *words], stdin=(HERE / "schema.json").open(), stdout=subprocess.PIPE)
    if process.stdout.readline() != b"listening\n":
        sys.exit("the router does not listen")
    return process, Server(["-h", "127.0.0.1", "-P", str(port), "-u", "bench"])


def begin_mariadb(work):
    data, path = work / "mariadb", work / "mariadb.sock"
    choices = [f"--datadir={data}", "--user=root"]
    install = ["mariadb-install-db", "--no-defaults", *choices, "--auth-root-authentication-method=normal", "--skip-test-db"]
    subprocess.run(install, check=True, stdout=subprocess.DEVNULL, stderr=subprocess.DEVNULL)
    server = shutil.which("mariadbd") or "/usr/sbin/mariadbd"
    more = ["--port", str(free_port()), "--skip-log-bin", "--performance-schema=OFF", "--query-cache-type=0", "--innodb-buffer-pool-size=512M"]
    log = (work / "mariadb.log").open("w")
    process = subprocess.Popen([server, "--no-defaults", *choices, f"--socket={path}", *more], stdin=subprocess.DEVNULL, stdout=log, stderr=log)
    words = [f"--socket={path}", "-u", "root"]
    for _ in range(300):
        if subprocess.run(["mariadb", "--no-defaults", *words, "-e", "SELECT 1"], capture_output=True).returncode == 0:
            break
        time.sleep(0.1)
    Server(words).run("CREATE DATABASE shop")
    return process, Server([*words, "shop"])


def inserts(table, columns, rows):
    """INSERTs of the rows, each on one shard for the router: a row a statement."""
    return "".join(f"INSERT INTO {table} ({columns}) VALUES ({', '.join(map(str, row))});\n" for row in rows)


def fill(server, most):
    few = [(number * (most // 1000), number % 97) for number in range(1000)]
    server.run(inserts("few", "id, c", few))
    server.run(inserts("t", "id, c", ((number, number % 1009) for number in range(most))))
    server.run(inserts("w", "id, d", ((number, number % 1013) for number in range(most))))
    for table in ("a", "b"):
        server.run(inserts(table, "n, k", ((number, number * 7 % (most // 10)) for number in range(most // 10))))


def below(most):
    return f"SELECT t.id, d FROM t JOIN w ON t.id = w.id WHERE t.id < {most}"


def kinds(most):
    """What is measured: its words, its statement, and how many of it a round has."""
    yield "by key: one row of each table", [f"SELECT t.c, d FROM t JOIN w ON t.id = w.id WHERE t.id = {n * 37 % most}" for n in range(5000)]
    yield f"1,000 rows with {most:,}", ["SELECT few.id, d FROM few JOIN w ON few.id = w.id"] * 20
    yield f"{most:,} rows with {most:,}", ["SELECT t.id, d FROM t JOIN w ON t.id = w.id"] * 2
    yield f"{most:,} rows with {most:,}, the first 10 by c", ["SELECT t.id, d FROM t JOIN w ON t.id = w.id ORDER BY c, t.id LIMIT 10"] * 2
    yield f"{most // 10:,} rows with {most // 10:,}, unsharded, ON a column without a key", ["SELECT a.n, b.n FROM a JOIN b ON a.k = b.k"] * 2


def time_of(server, statements):
    nothing = server.run("")
    return max(server.run(";\n".join(statements) + ";") - nothing, 1e-6) / len(statements)


def measured(servers, statements, rounds):
    times = [[time_of(it, statements) for it in servers] for _ in range(rounds)]
    return [statistics.median(it) for it in zip(*times)]


def section(servers, most, rounds, version):
    yield HEAD.format(day=datetime.date.today(), cores=os.cpu_count(), rounds=rounds, version=version)
    yield "| join | router, ms | MariaDB, ms | ratio |\n|---|---|---|---|\n"
    for words, statements in kinds(most):
        router, other = measured(servers, statements, rounds)
        yield f"| {words} | {router * 1000:.3f} | {other * 1000:.3f} | {other / router:.2f} |\n"
    yield "\nHow the time grows: a scatter over more and more pairs of the same tables, each pair by the keys of both.\n\n"
    yield "| pairs | router, ms | microseconds a pair |\n|---|---|---|\n"
    pairs = 1000
    while pairs <= most:
        router = measured(servers[:1], [below(pairs)] * 3, rounds)[0]
        yield f"| {pairs:,} | {router * 1000:.2f} | {router * 1e6 / pairs:.2f} |\n"
        pairs *= 10


def main():
    words = argparse.ArgumentParser()
    words.add_argument("program")
    words.add_argument("work", type=pathlib.Path)
    words.add_argument("--rows", type=int, default=100000)
    words.add_argument("--rounds", type=int, default=3)
    words.add_argument("--version", default="")
    words.add_argument("--document", type=pathlib.Path)
    given = words.parse_args()
    processes, servers = [], []
    try:
        for process, server in (begin_router(given.program), begin_mariadb(given.work)):
            processes.append(process)
            servers.append(server)
        servers[1].run(TABLES)
        for server in servers:
            fill(server, given.rows)
        part = "".join(section(servers, given.rows, given.rounds, given.version))
    finally:
        for process in processes:
            process.kill()
            process.wait()
    if given.document:
        page.put(given.document, "joins.sh", part)
    else:
        print(part, end="")


main()

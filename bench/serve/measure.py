"""Measures the router, MariaDB's server and a bare echo by one client, cell by cell, and prints a line for each. Called by bench/serve.sh."""

import argparse
import hashlib
import pathlib
import shutil
import signal
import socket
import subprocess
import sys
import time

HERE = pathlib.Path(__file__).resolve().parent
USER, PASSWORD, DATABASE = "bench", "some password", "shop"
KINDS = ("point", "insert", "update", "scatter", "mix", "transaction", "first", "among")
# what the echo answers, of which the last is made of the others
ECHOED = KINDS[:5]
SHARDS = "-40,40-80,80-c0,c0-"
NEW_TABLE = "DROP TABLE IF EXISTS {0}; CREATE TABLE {0} (id BIGINT UNSIGNED PRIMARY KEY, c BIGINT UNSIGNED);"
TABLES = NEW_TABLE.format("t") + NEW_TABLE.format("few")


def free_port():
    with socket.socket() as it:
        it.bind(("127.0.0.1", 0))
        return it.getsockname()[1]


def until_listening(process):
    line = process.stdout.readline()
    if line != b"listening\n":
        sys.exit(f"a server said {line}")


class Server:
    """A server of this run. What it serves to is `place`: port, user, password, database, and how many rows its table has."""

    def __init__(self, rows):
        self.process = None
        self.place = [str(free_port()), USER, PASSWORD, DATABASE, str(rows)]

    def stop(self):
        if self.process and self.process.poll() is None:
            self.process.kill()
            self.process.wait()

    def load(self, load, *words):
        run = subprocess.run([load, words[0], *self.place, *words[1:]], stdout=subprocess.PIPE)
        if run.returncode:
            sys.exit(f"{type(self).__name__}: load {' '.join(words)} failed")
        return run.stdout


class Router(Server):
    """A new one for each cell, so that each begins with the same rows and entries."""

    name = "router"

    def __init__(self, rows, program):
        super().__init__(rows)
        self.program = program

    def begin_cell(self, load):
        self.stop()
        self.place[0] = str(free_port())
        stage2 = hashlib.sha1(hashlib.sha1(PASSWORD.encode()).digest()).hexdigest()
        ports = [f"127.0.0.1:{port}" for port in (self.place[0], free_port())]
        words = ["serve", SHARDS, *ports, "32", "100", "0", USER, stage2, "a nonce of the bench"]
        self.process = subprocess.Popen([self.program, *words], stdin=(HERE / "schema.json").open(), stdout=subprocess.PIPE)
        until_listening(self.process)
        self.load(load, "fill")


class MariaDB(Server):
    """One server for all cells, with new tables for each."""

    name = "MariaDB"

    def __init__(self, rows, work):
        super().__init__(rows)
        self.socket = work / "mariadb.sock"
        data = work / "mariadb"
        choices = [f"--datadir={data}", "--user=root", "--auth-root-authentication-method=normal", "--skip-test-db"]
        install = ["mariadb-install-db", "--no-defaults", *choices]
        subprocess.run(install, check=True, stdout=subprocess.DEVNULL, stderr=subprocess.DEVNULL)
        choices = [
            f"--datadir={data}", f"--socket={self.socket}", f"--port={self.place[0]}", "--bind-address=127.0.0.1", "--user=root",
            "--skip-name-resolve", "--skip-log-bin", "--performance-schema=OFF", "--query-cache-type=0", "--thread-cache-size=64",
            "--innodb-flush-log-at-trx-commit=0", "--innodb-buffer-pool-size=256M", "--innodb-log-file-size=256M",
        ]
        server = shutil.which("mariadbd") or "/usr/sbin/mariadbd"
        log = (work / "mariadb.log").open("w")
        self.process = subprocess.Popen([server, "--no-defaults", *choices], stdin=subprocess.DEVNULL, stdout=log, stderr=log)
        self.await_server(work)
        user = f"{USER}@'127.0.0.1'"
        self.statement(f"CREATE DATABASE {DATABASE}; CREATE USER {user} IDENTIFIED BY '{PASSWORD}'; GRANT ALL ON {DATABASE}.* TO {user}")

    def await_server(self, work):
        for _ in range(300):
            if subprocess.run([*self.client(), "-e", "SELECT 1"], capture_output=True).returncode == 0:
                return
            time.sleep(0.1)
        sys.exit((work / "mariadb.log").read_text())

    def client(self):
        return ["mariadb", "--no-defaults", f"--socket={self.socket}", "-u", "root"]

    def statement(self, text):
        subprocess.run([*self.client(), "-e", text], check=True)

    def begin_cell(self, load):
        self.statement(f"USE {DATABASE}; {TABLES}")
        self.load(load, "fill")


class Echo(Server):
    """Answers each request with the bytes of the router's reply to such a request."""

    name = "echo"

    def __init__(self, rows, load, router, work):
        super().__init__(rows)
        router.begin_cell(load)
        replies = []
        for kind in ECHOED[:-1]:
            replies.append(work / f"reply.{kind}")
            replies[-1].write_bytes(router.load(load, "reply", kind))
        self.place[1] = "-"
        self.process = subprocess.Popen([load, "echo", self.place[0], *map(str, replies)], stdout=subprocess.PIPE)
        until_listening(self.process)

    def begin_cell(self, load):
        pass


def middle(values):
    return sorted(values)[len(values) // 2]


def measure_cells(words, servers, kind, count):
    """Asks each server in turn, some rounds long, and prints for each the round of the middle rate, and the middle of the router's ratios to it, each of
    one round: the machine's speed changes within a run."""
    servers = [it for it in servers if kind in ECHOED or it.name != "echo"]
    results = [[] for _ in servers]
    for _ in range(words.rounds):
        for server, rounds in zip(servers, results):
            server.begin_cell(words.load)
            line = server.load(words.load, "run", kind, count, str(words.seconds)).decode()
            rounds.append(tuple(map(int, line.split()))[:4])
    for server, rounds in zip(servers, results):
        ratio = middle([router[0] / other[0] for router, other in zip(results[0], rounds)])
        print(kind, count, server.name, *middle(rounds), f"{ratio:.4f}", flush=True)


def main():
    reader = argparse.ArgumentParser()
    reader.add_argument("program")
    reader.add_argument("load")
    reader.add_argument("work", type=pathlib.Path)
    reader.add_argument("--seconds", type=float, default=0.35)
    reader.add_argument("--rounds", type=int, default=9)
    reader.add_argument("--rows", type=int, default=20000)
    reader.add_argument("--kinds", default=",".join(KINDS))
    reader.add_argument("--connections", default="1,2,4,8,16,32")
    words = reader.parse_args()
    # so that an end from outside stops the servers too
    signal.signal(signal.SIGTERM, lambda *_: sys.exit(1))
    servers = []
    try:
        servers.append(Router(words.rows, words.program))
        servers.append(MariaDB(words.rows, words.work))
        servers.append(Echo(words.rows, words.load, servers[0], words.work))
        for kind in words.kinds.split(","):
            for count in words.connections.split(","):
                measure_cells(words, servers, kind, count)
    finally:
        for server in servers:
            server.stop()


if __name__ == "__main__":
    main()

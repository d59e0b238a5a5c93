"""Measures the router and MariaDB's server with many connections, cell by cell, and prints a line for each. Called by bench/many.sh."""

import argparse
import hashlib
import os
import pathlib
import resource
import shutil
import signal
import subprocess
import sys
import time

HERE = pathlib.Path(__file__).resolve().parent
sys.path.insert(0, str(HERE.parent / "serve"))

import measure as serve  # noqa: E402

BUSY = 16
STEP = 10_000_000  # how far apart the ids of rows are that two runs insert
MOST_FILES = resource.getrlimit(resource.RLIMIT_NOFILE)[1]


class Router(serve.Router):
    def __init__(self, rows, program, workers):
        super().__init__(rows, program)
        self.workers = workers

    def begin_cell(self, load):
        stage2 = hashlib.sha1(hashlib.sha1(serve.PASSWORD.encode()).digest()).hexdigest()
        ports = [f"127.0.0.1:{port}" for port in (self.place[0], serve.free_port())]
        words = ["serve", serve.SHARDS, *ports, str(self.workers), "100", "0", serve.USER, stage2, "a nonce of the bench"]
        self.process = subprocess.Popen([self.program, *words], stdin=(HERE.parent / "serve" / "schema.json").open(), stdout=subprocess.PIPE)
        serve.until_listening(self.process)
        self.load(load, "fill")


class MariaDB(serve.MariaDB):
    """A server for many connections, with a thread for each or with a pool of threads."""

    def __init__(self, rows, work, most, choices=()):
        serve.Server.__init__(self, rows)
        work.mkdir()
        self.socket, data = work / "mariadb.sock", work / "mariadb"
        install = ["mariadb-install-db", "--no-defaults", f"--datadir={data}", "--user=root", "--auth-root-authentication-method=normal", "--skip-test-db"]
        subprocess.run(install, check=True, stdout=subprocess.DEVNULL, stderr=subprocess.DEVNULL)
        choices = [
            f"--datadir={data}", f"--socket={self.socket}", f"--pid-file={work / 'mariadb.pid'}", f"--port={self.place[0]}", "--bind-address=127.0.0.1",
            "--user=root", "--skip-name-resolve", "--skip-log-bin", "--performance-schema=OFF", "--query-cache-type=0", "--thread-cache-size=256",
            "--innodb-flush-log-at-trx-commit=0", "--innodb-buffer-pool-size=256M", "--innodb-log-file-size=256M", f"--max-connections={most + 200}",
            f"--open-files-limit={MOST_FILES}", "--back-log=4096", *choices,
        ]  # fmt: skip
        log = (work / "mariadb.log").open("w")
        server = shutil.which("mariadbd") or "/usr/sbin/mariadbd"
        self.process = subprocess.Popen([server, "--no-defaults", *choices], stdin=subprocess.DEVNULL, stdout=log, stderr=log)
        self.await_server(work)
        user = f"{serve.USER}@'127.0.0.1'"
        self.statement(f"CREATE DATABASE {serve.DATABASE}; CREATE USER {user} IDENTIFIED BY '{serve.PASSWORD}'; GRANT ALL ON {serve.DATABASE}.* TO {user}")


class Asked:
    """A server that is asked by the client of many connections."""

    def __init__(self, name, server, many, load):
        self.name, self.server, self.many = name, server, many
        self.runs = 0
        server.begin_cell(load)

    def ask(self, *words):
        run = subprocess.run([self.many, words[0], *self.server.place, *map(str, words[1:])], stdout=subprocess.PIPE)
        if run.returncode:
            sys.exit(f"{self.name}: many {' '.join(map(str, words))} failed")
        return tuple(map(int, run.stdout.split()))

    def run(self, kind, count, seconds):
        self.runs += 1
        return self.ask("run", kind, count, seconds, STEP * self.runs)

    def hold(self, count):
        """A client that holds so many idle connections, which is told to go by `release`."""
        words = [self.many, "hold", *self.server.place, str(count)]
        process = subprocess.Popen(words, stdin=subprocess.PIPE, stdout=subprocess.PIPE)
        if process.stdout.readline() != b"held\n":
            sys.exit(f"{self.name}: {count} connections aren't held")
        return process

    def memory(self):
        with open(f"/proc/{self.server.process.pid}/status") as status:
            return next(int(line.split()[1]) * 1024 for line in status if line.startswith("VmRSS:"))


def release(it, process):
    """Ends the client that holds connections, and waits until the server has closed them."""
    process.stdin.close()
    process.wait()
    for _ in range(200):
        if len(os.listdir(f"/proc/{it.server.process.pid}/fd")) < 200:
            break
        time.sleep(0.05)


def middle_cell(cells):
    """The cell whose first figure is the middle one."""
    return sorted(cells)[len(cells) // 2]


def measure_rates(words, asked):
    for kind in words.kinds.split(","):
        for count in map(int, words.connections.split(",")):
            rounds = {it.name: [] for it in asked}
            for _ in range(words.rounds):
                for it in asked:
                    rounds[it.name].append(it.run(kind, count, words.seconds))
            for name, cells in rounds.items():
                print("rate", kind, count, name, *middle_cell(cells), flush=True)


def measure_among_idle(words, asked):
    """Points of some busy connections alone, and while so many others are idle, in turns; and the bytes that each of these takes."""
    for it in asked:
        ratios, cells, held = [], [], []
        for _ in range(words.rounds):
            alone = it.run("point", BUSY, words.seconds)
            before = it.memory()
            holder = it.hold(words.idle)
            held.append((max(0, it.memory() - before) // words.idle, it.memory()))
            cells.append(it.run("point", BUSY, words.seconds))
            release(it, holder)
            ratios.append(cells[-1][0] / alone[0])
        # what is given back as connections end is taken again, so the first round tells what an idle one takes
        print("idle", words.idle, BUSY, it.name, *middle_cell(cells), f"{sorted(ratios)[len(ratios) // 2]:.3f}", *held[0], flush=True)


def measure_storms(words, asked):
    for it in asked:
        cells = [it.ask("storm", words.logins) for _ in range(words.rounds)]
        print("storm", words.logins, 0, it.name, *middle_cell(cells), flush=True)


def servers_of(words):
    """The routers by numbers of workers, and MariaDB's server with a thread for each connection, and with a pool of threads."""
    most = max([words.idle + BUSY, words.logins, *map(int, words.connections.split(","))])
    for workers in words.workers.split(","):
        yield f"router_{workers}", Router(words.rows, words.program, workers)
    yield "MariaDB", MariaDB(words.rows, words.work / "threads", most)
    yield "MariaDB_pool", MariaDB(words.rows, words.work / "pool", most, ["--thread-handling=pool-of-threads"])


def main():
    reader = argparse.ArgumentParser()
    reader.add_argument("program")
    reader.add_argument("load")
    reader.add_argument("many")
    reader.add_argument("work", type=pathlib.Path)
    for name, value in (("--kinds", "point,mix"), ("--connections", "1,4,16,32,64,256,1000,4000"), ("--workers", "4,8,32")):
        reader.add_argument(name, default=value)
    for name, value in (("--rounds", 3), ("--rows", 20000), ("--idle", 10000), ("--logins", 1000)):
        reader.add_argument(name, type=int, default=value)
    reader.add_argument("--seconds", type=float, default=0.35)
    words = reader.parse_args()
    # so that an end from outside stops the servers too
    signal.signal(signal.SIGTERM, lambda *_: sys.exit(1))
    asked = []
    servers = []
    try:
        for name, server in servers_of(words):
            servers.append(server)
            asked.append(Asked(name, server, words.many, words.load))
        measure_rates(words, asked)
        measure_among_idle(words, asked)
        measure_storms(words, asked)
    finally:
        for server in servers:
            server.stop()


main()

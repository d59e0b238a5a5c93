"""Measures the server with a log and without. Called by bench/log.sh."""

import argparse
import datetime
import hashlib
import os
import pathlib
import socket
import statistics
import subprocess
import sys

TOP = pathlib.Path(__file__).resolve().parents[2]
sys.path[:0] = [str(TOP / "bench"), str(TOP / "bench" / "instructions")]

import measure  # noqa: E402
import page  # noqa: E402

USER, PASSWORD, DATABASE = "bench", "some password", "shop"
LEVELS = ("off", "info", "debug")
HEAD = """## With a log

Written by `bench/log.sh` on {day}, on a machine of {cores} processors, by the client of `bench/serve.sh`: statements a second, the middle of {rounds} rounds
of {seconds} seconds. In each round the servers are started anew and measured in turn, in an order that turns with the rounds; a ratio is the middle
one of the rounds. The log's lines go to a file. At `info` a statement has no line; at `debug` each has one, and is planned once more for it.

| statements | connections | without a log | at `info` | ratio | at `debug` | ratio | lines lost at `debug` |
|---|---|---|---|---|---|---|---|
"""


def free_port():
    with socket.socket() as it:
        it.bind(("127.0.0.1", 0))
        return it.getsockname()[1]


class Server:
    """A server that logs at a level to a file, until it is stopped."""

    def __init__(self, words, level):
        self.load = words.load
        self.place = [str(free_port()), USER, PASSWORD, DATABASE, str(words.rows)]
        stage2 = hashlib.sha1(hashlib.sha1(PASSWORD.encode()).digest()).hexdigest()
        ports = [f"127.0.0.1:{port}" for port in (self.place[0], free_port())]
        call = ["serve", "-40,40-80,80-c0,c0-", *ports, "32", "100", "0", USER, stage2, "a nonce of the bench"]
        self.log = os.memfd_create("log")
        self.process = subprocess.Popen(
            [words.program, *call],
            stdin=(TOP / "bench" / "serve" / "schema.json").open(),
            stdout=subprocess.PIPE,
            stderr=self.log,
            env={**os.environ, "VTGATE_LOG": level},
        )
        if self.process.stdout.readline() != b"listening\n":
            sys.exit("the server doesn't listen")
        self.run("fill")

    def run(self, *words):
        run = subprocess.run([self.load, words[0], *self.place, *words[1:]], stdout=subprocess.PIPE, check=True)
        return run.stdout

    def rate(self, kind, count, seconds):
        return int(self.run("run", kind, count, str(seconds)).split()[0])

    def stop(self):
        """Ends it, and gives the share of lines that were lost."""
        self.process.kill()
        self.process.wait()
        text = open(f"/proc/self/fd/{self.log}", "rb").read()
        os.close(self.log)
        lost = sum(int(line.rsplit(b"=", 1)[1]) for line in text.splitlines() if b" warn lost lines=" in line)
        return lost / max(1, lost + text.count(b"\n"))


def measured(words, kind, count):
    """The rates of each level, round by round, and the share of lines that were lost at the last level. Servers are started anew for each round, since where
    the memory of a process lies makes it some percent faster or slower."""
    rates, lost = {level: [] for level in LEVELS}, []
    for round_number in range(words.rounds):
        servers = [Server(words, level) for level in LEVELS]
        try:
            turn = round_number % len(LEVELS)
            for place in [*range(turn, len(LEVELS)), *range(turn)]:
                rates[LEVELS[place]].append(servers[place].rate(kind, count, words.seconds))
        finally:
            shares = [server.stop() for server in servers]
        lost.append(shares[-1])
    return rates, statistics.mean(lost)


def instructions(program, level):
    """The instructions of a point SELECT, as callgrind counts them."""
    os.environ["VTGATE_LOG"] = level
    return measure.measure(program, 2, 1000, 200, lambda time: f"SELECT * FROM t WHERE id = {time}")


def counted(program):
    """What the levels add to the instructions of a point SELECT, which no load of the machine changes."""
    off, info, debug = (instructions(program, level) for level in LEVELS)
    return f"\nA point SELECT takes {off} instructions of the server's process without a log, {info} at `info` and {debug} at `debug`, as callgrind counts them.\n"


def row(kind, count, rates, lost):
    def ratio(level):
        return statistics.median(with_log / without for with_log, without in zip(rates[level], rates["off"]))

    cells = [kind, count, round(statistics.median(rates["off"]))]
    for level in LEVELS[1:]:
        cells += [round(statistics.median(rates[level])), f"{ratio(level):.3f}"]
    return "| " + " | ".join(map(str, [*cells, f"{100 * lost:.0f} %"])) + " |\n"


def main():
    reader = argparse.ArgumentParser()
    reader.add_argument("program")
    reader.add_argument("load")
    reader.add_argument("--document", type=pathlib.Path)
    reader.add_argument("--kinds", default="point")
    reader.add_argument("--connections", default="1,4,32")
    reader.add_argument("--rounds", type=int, default=9)
    reader.add_argument("--seconds", type=float, default=0.5)
    reader.add_argument("--rows", type=int, default=20000)
    words = reader.parse_args()
    text = HEAD.format(day=datetime.date.today(), cores=os.cpu_count(), rounds=words.rounds, seconds=words.seconds)
    for kind in words.kinds.split(","):
        for count in words.connections.split(","):
            text += row(kind, count, *measured(words, kind, count))
    text += counted(words.program)
    print(text, end="")
    if words.document:
        page.put(words.document, "log.sh", text)


main()

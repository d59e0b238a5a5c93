"""Measures splits of a served shard: copying, the longest wait of a writer, the rate of statements during a copy, how soon targets are level
with writers at full speed, and how long steps take by entries and by tables. Called by bench/split.sh."""

import argparse
import contextlib
import datetime
import io
import json
import os
import pathlib
import socket
import statistics
import subprocess
import sys
import tempfile
import threading
import time

TOP = pathlib.Path(__file__).resolve().parents[2]
sys.path[:0] = [str(TOP / "tests" / "clients"), str(TOP / "bench"), str(TOP / "examples" / "demo")]

import packets  # noqa: E402
import page  # noqa: E402
import picture  # noqa: E402
import split as demo  # noqa: E402
from router import free_ports  # noqa: E402

# of the rows that `load fill` makes, each second one lies on the shard that is split
FIRST_ID = 100000
# how long the writer waits between two statements, in seconds, so that targets come level
BETWEEN = 0.001
# each takes two of a router's 64 slots, of which two are shards' and one is the unsharded keyspace's
MOST_COPIES = 30
# the writers during a split, each as fast as it is answered, and for how many seconds
WRITERS, WRITING = "4", 5
# steps that are sent at once until the targets are level, and how often at most
BATCH, MOST_BATCHES = 2000, 500
# for how many seconds they write before each figure of the steps a second
STRETCHES = (0.01, 0.1, 1, 10)
# how many tables there are in turn, and how many batches of steps are then sent to targets that are level
TABLES, LEVEL_BATCHES = (2, 16, 64, 256), 10
KINDS = ("point", "insert", "update", "scatter", "mix", "transaction")
HEAD = """## Splits

Written by `bench/split.sh` on {day}, on a machine of {cores} processors, through sockets: one of two shards, with half the rows of a table, is split
into two by lines to the admin port. A step copies at most 100 rows. The longest wait is that of one client which changes a row of the split
shard each millisecond, while `switch` is answered and a hundredth of a second after; next to it stands what it waits at most in the fifth of a
second before. Rounds: {rounds}, each with a new router; figures are the middle ones.
"""


def schema_of(tables):
    """The bench's VSchema as a file, with further tables until there are so many. They are empty."""
    schema = json.loads((TOP / "bench" / "serve" / "schema.json").read_text())
    mine = schema["keyspaces"]["shop"]["tables"]
    for number in range(tables - len(mine)):
        mine[f"t{number:03}"] = mine["few"]
    file = tempfile.TemporaryFile()
    file.write(json.dumps(schema).encode())
    file.seek(0)
    return file


class Router:
    """A router with so many rows in its table, until the `with` ends, and one connection to its admin port."""

    def __init__(self, words, rows, tables=2):
        self.words, self.rows, self.tables = words, rows, tables

    def __enter__(self):
        self.port, admin = free_ports(2)
        call = ["serve", "-80,80-", f"127.0.0.1:{self.port}", f"127.0.0.1:{admin}", "16", "100", "0", "bench", "-", "a nonce of the bench"]
        with schema_of(self.tables) as schema:
            self.process = subprocess.Popen([self.words.program, *call], stdin=schema, stdout=subprocess.PIPE)
        if self.process.stdout.readline() != b"listening\n":
            sys.exit("the router doesn't listen")
        self.load("fill")
        self.admin = socket.create_connection(("127.0.0.1", admin))
        self.admin.setsockopt(socket.IPPROTO_TCP, socket.TCP_NODELAY, 1)
        return self

    def __exit__(self, *_):
        self.process.kill()
        self.process.wait()

    def load(self, what, *more):
        call = [self.words.load, what, str(self.port), "bench", "", "shop", str(self.rows), *more]
        return subprocess.run(call, stdout=subprocess.PIPE, check=True).stdout

    def answers(self, *lines):
        """The answers to the lines."""
        self.admin.sendall("".join(line + "\n" for line in lines).encode())
        answers = b""
        while answers.count(b"\n") < len(lines):
            answers += self.admin.recv(65536)
        return answers.decode().splitlines()

    def ask(self, *lines):
        """The answer to the last of the lines."""
        return self.answers(*lines)[-1]

    def does(self, line):
        answer = self.ask(line)
        if answer != "ok":
            sys.exit(f"{line}: {answer}")

    def step(self):
        """Takes steps; tells how many copied or followed, and whether the targets are level."""
        answers = self.answers(*["step"] * 20)
        if not answers[-1].startswith("ok "):
            sys.exit(f"step: {answers[-1]}")
        return sum(it in ("ok copied", "ok followed") for it in answers), answers[-1] == "ok level"

    def follow(self):
        """Steps until the targets are level; tells how many."""
        taken = 0
        while True:
            more, level = self.step()
            taken += more
            if level:
                return taken


class Writer(threading.Thread):
    """Changes a row of the split shard each millisecond, and notes how long each time took, and when it ended."""

    def __init__(self, port):
        super().__init__()
        self.client = packets.Client(("127.0.0.1", port))
        self.client.login(b"bench", b"")
        self.client.socket.setsockopt(socket.IPPROTO_TCP, socket.TCP_NODELAY, 1)
        self.times, self.enough = [], False

    def run(self):
        number = 0
        while not self.enough:
            number += 1
            begin = time.perf_counter()
            self.client.query(b"UPDATE t SET c = %d WHERE id = %d" % (number, FIRST_ID))
            end = time.perf_counter()
            self.times.append((end, end - begin))
            time.sleep(BETWEEN)

    def longest(self, begin, end):
        """The longest of what went on between the two times."""
        return max(took for ended, took in self.times if ended >= begin and ended - took <= end)


def split(words, rows):
    """Seconds of copying, of `switch`, and a writer's longest wait before and while that is answered."""
    with Router(words, rows) as router:
        router.does("create -80 -40,40-80")
        begin = time.perf_counter()
        router.follow()
        copying = time.perf_counter() - begin
        writer = Writer(router.port)
        writer.start()
        time.sleep(0.3)
        router.follow()
        time.sleep(0.3)
        router.follow()
        begin = time.perf_counter()
        router.does("switch")
        end = time.perf_counter()
        time.sleep(0.2)
        writer.enough = True
        writer.join()
        took = end - begin
        return copying, took, writer.longest(begin - 0.2, begin), writer.longest(begin, end + 0.01)


def splits(words):
    for rows in map(int, words.rows.split(",")):
        rounds = [split(words, rows) for _ in range(words.rounds)]
        copying, switch, before, wait = (statistics.median(it) for it in zip(*rounds))
        most = max(it[3] for it in rounds)
        yield rows, rows // 2 / copying, *(1e6 * it for it in (switch, before, wait, most))


def write(router, kind, seconds):
    """Statements a second by clients at full speed for so long, and a quarter of it before."""
    return int(router.load("run", kind, WRITERS, str(seconds)).split()[0])


def rate(router, words, kind):
    return write(router, kind, words.seconds)


def beside(words, kind, rows=100000):
    """Statements a second without a copy and during one, which is begun again as it ends while there are slots for its targets. Each has
    a router of its own, since both insert the same rows."""
    with Router(words, rows) as router:
        without = rate(router, words, kind)
    with Router(words, rows) as router:
        enough, copies = threading.Event(), [0]

        def copy():
            while copies[0] < MOST_COPIES and not enough.is_set():
                router.does("create -80 -40,40-80")
                while not enough.is_set() and router.ask(*["step"] * 20) != "ok level":
                    pass
                copies[0] += 1
                router.does("cancel")

        copying = threading.Thread(target=copy)
        copying.start()
        during = rate(router, words, kind)
        enough.set()
        copying.join()
        return without, during, copies[0]


def beside_writers(words, kind, rows=100000):
    """Statements a second by clients at full speed, steps taken, seconds from the split's beginning and from the clients' end until the
    targets are level."""
    with Router(words, rows) as router:
        rates = []
        writers = threading.Thread(target=lambda: rates.append(write(router, kind, WRITING)))
        router.does("create -80 -40,40-80")
        begin = time.perf_counter()
        writers.start()
        taken, end = 0, None
        while True:
            had_ended = end is not None
            more, level = router.step()
            taken += more
            if not had_ended and not writers.is_alive():
                end = time.perf_counter()
            if level and had_ended:
                now = time.perf_counter()
                return rates[0], taken, now - begin, now - end


def by_entries(words):
    """Steps that followed an entry before and in each stretch, and how many a second these were, of one split."""
    with Router(words, 1000) as router:
        router.does("create -80 -40,40-80")
        router.follow()
        before = 0
        for seconds in STRETCHES:
            write(router, "update", seconds)
            begin = time.perf_counter()
            steps = router.follow()
            yield before, steps, steps / (time.perf_counter() - begin)
            before += steps


def timed(router):
    """Seconds a step until the targets are level."""
    begin = time.perf_counter()
    taken = router.follow()
    return (time.perf_counter() - begin) / taken


def by_tables(words):
    """Microseconds a step that copies empty tables, one that follows an entry, and one that finds the targets level, by the number of tables."""
    for tables in TABLES:
        with Router(words, 1000, tables) as router:
            router.does("create -80 -40,40-80")
            copying = timed(router)
            write(router, "update", STRETCHES[2])
            following = timed(router)
            begin = time.perf_counter()
            for _ in range(LEVEL_BATCHES):
                router.answers(*["step"] * BATCH)
            level = (time.perf_counter() - begin) / (LEVEL_BATCHES * BATCH)
            yield tables, *(1e6 * it for it in (copying, following, level))


def left(words, kind, rows=100000):
    """Entries that are left to follow where the source is frozen by `advance` right after steps that came level, with clients at full speed."""
    with Router(words, rows) as router:
        writers = threading.Thread(target=lambda: write(router, kind, WRITING))
        router.does("create -80 -40,40-80")
        router.follow()
        writers.start()
        time.sleep(WRITING / 4)
        for _ in range(MOST_BATCHES):
            if router.answers(*["step"] * BATCH)[-1] == "ok level":
                break
        answers = router.answers(*["step"] * BATCH, *["advance"] * 2)[BATCH:]
        # to its end, else the clients wait for ever
        while "ok release" not in answers:
            answers += router.answers(*["advance"] * 20)
        writers.join()
        return answers.index("ok retire") - 1 - answers.count("ok copy")


def at_once(words, kind, rows=100000):
    """Microseconds of a `switch` right after `create`, and of the longest wait of a writer meanwhile, with clients at full speed."""
    with Router(words, rows) as router:
        writer = Writer(router.port)
        writers = threading.Thread(target=lambda: write(router, kind, WRITING))
        writers.start()
        writer.start()
        time.sleep(WRITING / 4)
        router.does("create -80 -40,40-80")
        begin = time.perf_counter()
        router.does("switch")
        end = time.perf_counter()
        time.sleep(0.2)
        writer.enough = True
        writer.join()
        writers.join()
        return 1e6 * (end - begin), 1e6 * writer.longest(begin, end + 0.01)


def section(words):
    lines = [HEAD.format(day=datetime.date.today(), cores=os.cpu_count(), rounds=words.rounds)]
    lines += ["| rows | copied a second | `switch`, µs | longest wait before, µs | longest wait meanwhile, µs | of all rounds |", "|---|---|---|---|---|---|"]
    lines += ["| " + " | ".join(f"{it:.0f}" for it in row) + " |" for row in splits(words)]
    lines += ["", "Statements of `bench/serve.sh` a second by 4 connections, without a copy and during one of 50,000 rows that begins again once it has ended:", ""]
    lines += ["| statements | without | beside | ratio | copies begun |", "|---|---|---|---|---|"]
    for kind in KINDS:
        rounds = [beside(words, kind) for _ in range(words.rounds)]
        without, during, copies = (statistics.median(it) for it in zip(*rounds))
        lines.append(f"| {kind} | {without:.0f} | {during:.0f} | {during / without:.2f} | {copies:.0f} |")
    lines += ["", f"A split of 50,000 rows with {WRITERS} clients that ask as fast as they are answered for {WRITING} seconds. Steps are taken by lines, 20 at once:", ""]
    lines += ["| statements | a second | steps | level after, s | of which after the clients, s |", "|---|---|---|---|---|"]
    for kind in ("update", "insert", "point"):
        asked, steps, whole, behind = beside_writers(words, kind)
        lines.append(f"| {kind} | {asked} | {steps} | {whole:.1f} | {behind:.2f} |")
    lines += ["", f"The freeze, likewise with {WRITERS} clients at full speed: entries that are left to follow when `advance` freezes the source right after steps"]
    lines += ["that came level; and `switch` alone, right after `create`, with the longest wait of a client that changes a row each millisecond:", ""]
    lines += ["| statements | entries left | `switch`, ms | longest wait, ms |", "|---|---|---|---|"]
    for kind in ("update", "insert", "point"):
        entries = statistics.median(left(words, kind) for _ in range(words.rounds))
        switch, wait = (statistics.median(it) for it in zip(*(at_once(words, kind) for _ in range(words.rounds))))
        lines.append(f"| {kind} | {entries:.0f} | {switch / 1e3:.1f} | {wait / 1e3:.2f} |")
    lines += ["", "Steps a second in which two targets follow a source, by the steps that they had taken before:", ""]
    lines += ["| steps before | steps | a second |", "|---|---|---|"]
    lines += [f"| {before} | {steps} | {each:.0f} |" for before, steps, each in by_entries(words)]
    lines += ["", "Microseconds a step, by the number of tables, of which one has 1,000 rows and the others none:", ""]
    lines += ["| tables | copying | following an entry | level |", "|---|---|---|---|"]
    lines += ["| " + " | ".join([str(tables), *(f"{it:.1f}" for it in each)]) + " |" for tables, *each in by_tables(words)]
    return "\n".join(lines) + "\n"


def draw(program, file):
    """Draws what the demo's clients feel."""
    with contextlib.redirect_stdout(io.StringIO()):
        times, marks = demo.run(program, *free_ports(2), 100000)
    file.parent.mkdir(exist_ok=True)
    file.write_text(picture.svg(list(demo.by_tenths(times, marks))))


def main():
    reader = argparse.ArgumentParser()
    reader.add_argument("program")
    reader.add_argument("load")
    reader.add_argument("--document", type=pathlib.Path)
    reader.add_argument("--rows", default="1000,10000,100000")
    reader.add_argument("--rounds", type=int, default=5)
    reader.add_argument("--seconds", type=float, default=2)
    words = reader.parse_args()
    part = section(words)
    if words.document:
        page.put(words.document, "split.sh", part)
        draw(words.program, words.document.parent / "pictures" / "split.svg")
    else:
        print(part, end="")


main()

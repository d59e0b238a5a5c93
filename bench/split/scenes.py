"""Measures how long a client waits in what a split could make it wait for: it writes each millisecond, while two others write as fast as they are
answered. Called by bench/split.sh.

A scene is a function that is marked by `@scene` and gives rows of the table. Each has a router of its own.
"""

import argparse
import datetime
import json
import multiprocessing
import os
import pathlib
import signal
import socket
import subprocess
import sys
import tempfile
import time

TOP = pathlib.Path(__file__).resolve().parents[2]
sys.path[:0] = [str(TOP / "tests" / "clients"), str(TOP / "bench")]

import packets  # noqa: E402
import page  # noqa: E402
import tables  # noqa: E402
from router import free_ports  # noqa: E402

# how long the measured client waits between two statements, in seconds
BETWEEN = 0.001
# how many clients write beside it, as fast as they are answered
BESIDE = 2
# for how many seconds it writes after a scene, at least and at most: as long as the scene took
LEAST_AFTER, MOST_AFTER = 0.3, 2
# each row has three literals, and a statement at most 4,096
ROWS_AT_ONCE = 1000
TABLES = 64
# how often the shard is split and merged again: each time takes three of the 64 slots
CUTOVERS = 20
# after how many seconds a client of the admin port that isn't answered is no longer waited for
PATIENCE = 12
SCATTER = b"SELECT c, COUNT(*), MAX(id) FROM t GROUP BY c ORDER BY c LIMIT 10"
NUMBER = {"type": "BIGINT UNSIGNED"}
HEAD = """## Waits in splits

Written by `bench/split.sh` on {day}, on a machine of {cores} processors. {busy}

How long a client waits at most, in what a split could make it wait for. It changes a row of the shard that is split, by its key, each millisecond.
{beside} others write such rows as fast as they are answered. All of them begin just before the split: `create`, `switch` and `complete`, one right
after the other. The time of all three is shown. Next to the longest wait stands the longest one in as much time after the split: what the
machine itself makes a client wait. A scatter takes more than a statement by key: it is compared with its longest time alone.
If another admin client sends `resume`, a wait is counted from then on.
Each scene has a router of its own and {rows} rows, all of them on the shard. Of {rounds} {word} the worst is shown. The longest waits come first.

| scene | statement | split, ms | longest wait after it or alone, ms | longest wait, ms |
|---|---|---|---|---|
"""

scenes = []


def scene(function):
    scenes.append(function)
    return function


def table(*key):
    """A table of three columns with this primary key. Its vindex is over the first one: an id's bits are reversed to tell its shard."""
    return {
        "columns": [{"name": name, **NUMBER} for name in ("id", "d", "c")],
        "primary_key": list(key),
        "column_vindexes": [{"column": "id", "name": "rev"}],
    }


def file_of(own):
    """A VSchema with these tables, as a file."""
    keyspace = {"sharded": True, "vindexes": {"rev": {"type": "reverse_bits"}}, "tables": own}
    file = tempfile.TemporaryFile()
    file.write(json.dumps({"keyspaces": {"shop": keyspace}}).encode())
    file.seek(0)
    return file


def connect(port):
    client = packets.Client(("127.0.0.1", port))
    client.socket.setsockopt(socket.IPPROTO_TCP, socket.TCP_NODELAY, 1)
    client.login(b"bench", b"")
    return client


def second_of(number):
    """What the second column of a row has: it is in another order than the ids."""
    return number * 2_654_435_761 % 1_000_003


def asked(client, text):
    reply = client.query(text)
    if reply[0][:1] == b"\xff":
        sys.exit(f"{text[:60].decode()}: {packets.error_of(reply[0])}")


class Refused(Exception):
    """A line of the admin port was refused, or not answered."""


class Admin:
    """A connection to the admin port."""

    def __init__(self, port):
        self.socket = socket.create_connection(("127.0.0.1", port))
        self.socket.setsockopt(socket.IPPROTO_TCP, socket.TCP_NODELAY, 1)

    def answers(self, *lines):
        self.socket.sendall("".join(line + "\n" for line in lines).encode())
        answers = b""
        while answers.count(b"\n") < len(lines):
            piece = self.socket.recv(65536)
            if not piece:
                raise Refused("the admin port has closed the connection")
            answers += piece
        return answers.decode().splitlines()

    def does(self, *lines):
        for line in lines:
            (answer,) = self.answers(line)
            if not answer.startswith("ok"):
                raise Refused(f"{line}: {answer}")

    def come_level(self):
        """Takes steps until the targets are level."""
        while (answer := self.answers(*["step"] * 500)[-1]) != "ok level":
            if not answer.startswith("ok"):
                raise Refused(f"step: {answer}")

    def stop_reading(self):
        """Sends lines until no more are taken, since the router waits for their answers to be read, or until it has closed the connection."""
        self.socket.settimeout(0.2)
        try:
            while True:
                self.socket.sendall(b"status\n" * 8192)
        except (TimeoutError, ConnectionError):
            pass


class Router:
    """A router of two shards over these tables, until the `with` ends."""

    def __init__(self, program, own):
        self.program, self.own = program, own

    def __enter__(self):
        self.port, self.admin_port = free_ports(2)
        call = ["serve", "-80,80-", f"127.0.0.1:{self.port}", f"127.0.0.1:{self.admin_port}", "16", "100", "0", "bench", "-", "a nonce of the bench"]
        with file_of(self.own) as schema:
            self.process = subprocess.Popen([self.program, *call], stdin=schema, stdout=subprocess.PIPE)
        if self.process.stdout.readline() != b"listening\n":
            sys.exit("the router doesn't listen")
        return self

    def __exit__(self, *_):
        self.process.kill()
        self.process.wait()

    def admin(self):
        return Admin(self.admin_port)

    def fill(self, name, rows, at_once=ROWS_AT_ONCE, apart=4):
        """Puts so many rows into a table, by statements of so many rows. Ids that are multiples of 4 lie in -40, even ones in -80."""
        with connect(self.port) as client:
            for first in range(0, rows, at_once):
                ids = [apart * it for it in range(first, min(first + at_once, rows))]
                values = ", ".join(f"({it}, {second_of(it)}, {it})" for it in ids)
                asked(client, f"INSERT INTO {name} (id, d, c) VALUES {values}".encode())


def write(port, name, number, between, is_ready, enough, told):
    """A writer: changes a row as long as it may. Tells of each statement when it ended, and how long it took."""
    times, row = [], 4 * number
    with connect(port) as client:
        while not enough.is_set():
            begin = time.perf_counter()
            asked(client, b"UPDATE %s SET c = %d WHERE id = %d AND d = %d" % (name.encode(), len(times), row, second_of(row)))
            end = time.perf_counter()
            times.append((end, end - begin))
            is_ready.set()
            if between:
                time.sleep(between)
    told.put(times if between else [])


def read(port, is_ready, enough, told):
    """A reader of all shards: likewise."""
    times = []
    with connect(port) as client:
        while not enough.is_set():
            begin = time.perf_counter()
            asked(client, SCATTER)
            end = time.perf_counter()
            times.append((end, end - begin))
            is_ready.set()
    told.put(times)


class Clients:
    """Processes that ask until the `with` ends; what they tell is kept. The `with` begins once each was answered."""

    def __init__(self, *calls):
        self.enough, self.told, self.times = multiprocessing.Event(), multiprocessing.Queue(), []
        self.ready = [multiprocessing.Event() for _ in calls]
        self.processes = [
            multiprocessing.Process(target=function, args=(*words, is_ready, self.enough, self.told), daemon=True)
            for (function, *words), is_ready in zip(calls, self.ready)
        ]

    def __enter__(self):
        for it in self.processes:
            it.start()
        for it in self.ready:
            if not it.wait(60):
                sys.exit("a client wasn't answered")
        return self

    def __exit__(self, *fault):
        self.enough.set()
        if fault[0] is None:
            for _ in self.processes:
                self.times += self.told.get(timeout=60)
            for it in self.processes:
                it.join()
        else:
            for it in self.processes:
                it.kill()

    def longest(self, begin, end):
        """The longest of what went on between the two times, in milliseconds."""
        return 1e3 * max((took for ended, took in self.times if ended >= begin and ended - took <= end), default=0)

    def longest_since(self, begin, end):
        """The same, of each as much as lies after the begin."""
        return 1e3 * max((min(took, ended - begin) for ended, took in self.times if ended >= begin and ended - took <= end), default=0)


def writers(router, name="t"):
    """The measured client, and those beside it."""
    return Clients(*((write, router.port, name, number, 0 if number else BETWEEN) for number in range(BESIDE + 1)))


def beside(clients, work):
    """Does the work beside clients. Returns its milliseconds, and the longest wait after it and while it was done, in milliseconds. The work may return
    a time: waits are then counted from that on."""
    with clients:
        begin = time.perf_counter()
        since = work()
        end = time.perf_counter()
        after = min(max(end - begin, LEAST_AFTER), MOST_AFTER)
        time.sleep(after + 0.1)
    longest = clients.longest(begin, end + 0.01) if since is None else clients.longest_since(since, end + 0.01)
    return 1e3 * (end - begin), clients.longest(end + 0.1, end + 0.1 + after), longest


def split_of(router, source, targets):
    def split():
        router.admin().does(f"create {source} {targets}", "switch", "complete")

    return split


@scene
def small_statements(words):
    with Router(words.program, {"t": table("id", "d")}) as router:
        router.fill("t", words.rows, at_once=10, apart=2)
        yield "a table loaded by INSERTs of 10 rows", "UPDATE", *beside(writers(router), split_of(router, "-80", "-40,40-80"))


@scene
def large_statements(words):
    with Router(words.program, {"t": table("id", "d")}) as router:
        router.fill("t", words.rows, apart=2)
        yield "a table loaded by INSERTs of 1,000 rows", "UPDATE", *beside(writers(router), split_of(router, "-80", "-40,40-80"))


@scene
def split_of_a_split(words):
    with Router(words.program, {"t": table("id", "d")}) as router:
        router.fill("t", words.rows)
        split_of(router, "-80", "-40,40-80")()
        yield "a split of a split", "UPDATE", *beside(writers(router), split_of(router, "-40", "-20,20-40"))


@scene
def another_order(words):
    with Router(words.program, {"t": table("d", "id")}) as router:
        router.fill("t", words.rows, apart=2)
        yield "a table in another order than its key", "UPDATE", *beside(writers(router), split_of(router, "-80", "-40,40-80"))


@scene
def many_tables(words):
    names = [f"t{number:02}" for number in range(TABLES)]
    with Router(words.program, {name: table("id", "d") for name in names}) as router:
        for name in names:
            router.fill(name, words.rows // TABLES, apart=2)
        yield f"{TABLES} tables", "UPDATE", *beside(writers(router, names[0]), split_of(router, "-80", "-40,40-80"))


def alternate(router, seconds):
    """Splits the shard and merges it again, for so many seconds or as often as there are slots. Returns how often it changed hands."""
    end, admin, done = time.perf_counter() + seconds, router.admin(), 0
    for _ in range(CUTOVERS):
        for line in ("create -80 -40,40-80", "create -40,40-80 -80"):
            if time.perf_counter() > end:
                return done
            admin.does(line, "switch", "complete")
            done += 1
    return done


@scene
def scatters_beside_cutovers(words):
    with Router(words.program, {"t": table("id", "d")}) as router:
        router.fill("t", words.rows, apart=2)
        with Clients((read, router.port)) as alone:
            time.sleep(1)
        clients, done = Clients((read, router.port)), []
        taken, _, longest = beside(clients, lambda: done.append(alternate(router, words.seconds)))
        yield f"{done[0]} cutovers back to back", "scatter", taken, alone.longest(0, time.perf_counter()), longest


@scene
def writes_beside_cutovers(words):
    with Router(words.program, {"t": table("id", "d")}) as router:
        router.fill("t", words.rows, apart=2)
        done = []
        taken = beside(writers(router), lambda: done.append(alternate(router, words.seconds)))
        yield f"{done[0]} cutovers back to back", "UPDATE", *taken


def taken_over(words, leave):
    """A cutover whose client leaves the port so after the freeze, and is ended by another one. Waits count from when that one asks for it."""
    with Router(words.program, {"t": table("id", "d")}) as router:
        router.fill("t", words.rows, apart=2)

        def cut_over():
            first, second = router.admin(), router.admin()
            first.does("create -80 -40,40-80")
            first.come_level()
            first.does("advance")
            leave(first)
            second.socket.settimeout(PATIENCE)
            since = time.perf_counter()
            try:
                second.does("resume")
            except TimeoutError:
                # the first one leaves, so that the scene ends
                first.socket.close()
                second.socket.settimeout(None)
                second.answers("status")
            return since

        return beside(Clients((write, router.port, "t", 0, BETWEEN)), cut_over)


@scene
def stopped_admin(words):
    yield "the admin client stops reading after the freeze, and another one sends `resume`", "UPDATE", *taken_over(words, Admin.stop_reading)


@scene
def silent_admin(words):
    yield "the admin client says nothing after the freeze, and another one sends `resume`", "UPDATE", *taken_over(words, lambda first: None)


def worst(rounds):
    """Of some runs of a scene the rows with the longest waits, each with what came after it."""
    return [max(rows, key=lambda it: it[-1]) for rows in zip(*rounds)]


def rows_of(words):
    for function in scenes:
        if not words.only or function.__name__ in words.only.split(","):
            begin = time.perf_counter()
            yield from worst([list(function(words)) for _ in range(words.rounds)])
            print(f"{function.__name__}: {time.perf_counter() - begin:.0f} s", file=sys.stderr, flush=True)


def section(words):
    busy = tables.busy(os.getloadavg()[0])
    rows = sorted(rows_of(words), key=lambda it: -it[-1])
    word = "rounds" if words.rounds > 1 else "round"
    head = HEAD.format(day=datetime.date.today(), cores=os.cpu_count(), busy=busy, beside=BESIDE, rows=f"{words.rows:,}", rounds=words.rounds, word=word)
    return head + "".join(f"| {name} | {kind} | {taken:.0f} | {other:.1f} | {longest:.1f} |\n" for name, kind, taken, other, longest in rows)


def main():
    # so that an end from outside stops the routers too
    signal.signal(signal.SIGTERM, lambda *_: sys.exit(1))
    reader = argparse.ArgumentParser()
    reader.add_argument("program")
    reader.add_argument("--document", type=pathlib.Path)
    reader.add_argument("--rows", type=int, default=100000)
    reader.add_argument("--rounds", type=int, default=1)
    reader.add_argument("--seconds", type=float, default=5)
    reader.add_argument("--only", default="")
    words = reader.parse_args()
    part = section(words)
    if words.document:
        page.put(words.document, "split/scenes.py", part)
    else:
        print(part, end="")


if __name__ == "__main__":
    main()

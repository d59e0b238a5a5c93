"""A split of a served shard under load, as examples/demo.sh says."""

import argparse
import multiprocessing
import pathlib
import secrets
import socket
import subprocess
import sys
import time

TOP = pathlib.Path(__file__).resolve().parents[2]
sys.path.insert(0, str(TOP / "tests" / "clients"))

import packets  # noqa: E402

WRITERS = 4
# the first id of each writer is so far after that of the one before
APART = 1_000_000
# rows of an INSERT of the loading, and steps that are sent at once
ROWS_AT_ONCE, STEPS_AT_ONCE = 2000, 500
# how wide the longest bar is
WIDTH = 40


def connect(port):
    client = packets.Client(("127.0.0.1", port))
    client.socket.setsockopt(socket.IPPROTO_TCP, socket.TCP_NODELAY, 1)
    if client.login(b"app", b"", database=b"shop")[:1] != b"\x00":
        sys.exit("the login was refused")
    return client


def asked(client, text):
    """The rows that answer a query, or none."""
    reply = client.query(text.encode())
    if reply[0][:1] == b"\xff":
        sys.exit(f"{text}: {packets.error_of(reply[0])}")
    return [packets.texts_of(row) for row in reply[3:-1]]


def write(number, port, enough, told):
    """A writer: rows of its own are written, read, changed and read again. Tells its last id, and of each statement when it ended and how long it took."""
    client, last, times = connect(port), APART * number, []

    def timed(text):
        begin = time.monotonic()
        rows = asked(client, text)
        end = time.monotonic()
        times.append((end, end - begin))
        return rows

    while not enough.is_set():
        last += 1
        timed(f"INSERT INTO t VALUES ({last}, 1)")
        first = timed(f"SELECT c FROM t WHERE id = {last}")
        timed(f"UPDATE t SET c = 2 WHERE id = {last}")
        second = timed(f"SELECT c FROM t WHERE id = {last}")
        if (first, second) != ([[b"1"]], [[b"2"]]):
            sys.exit(f"the row {last} was read as {first}, and then as {second}")
    told.put((last, times))


class Administrator:
    """The admin port: its lines are printed with their answers, and noted with their times."""

    def __init__(self, port):
        self.stream = socket.create_connection(("127.0.0.1", port)).makefile("rw")
        self.marks = []

    def answers(self, *lines):
        self.stream.write("".join(line + "\n" for line in lines))
        self.stream.flush()
        return [self.stream.readline().strip() for _ in lines]

    def tell(self, line):
        self.marks.append((time.monotonic(), line))
        print(f"  {line}: {self.answers(line)[0]}", flush=True)

    def follow(self):
        """Takes steps until the targets are level. Many lines are sent at once, so that they are taken faster than clients write."""
        steps, answer = {}, ""
        while answer != "ok level":
            for answer in self.answers(*["step"] * STEPS_AT_ONCE):
                if not answer.startswith("ok "):
                    sys.exit(f"step: {answer}")
                steps[answer] = steps.get(answer, 0) + 1
        self.marks.append((time.monotonic(), "level"))
        print(f"  step: copied {steps.get('ok copied', 0)} times, followed {steps.get('ok followed', 0)} times, level", flush=True)


def load(port, rows):
    """Fills the table. An id's bits are reversed to tell its shard, so all even ids lie on one, all odd ids on the other: an INSERT is of one shard."""
    with connect(port) as client:
        for first in (0, 1):
            for begin in range(first, rows, 2 * ROWS_AT_ONCE):
                ids = range(begin, min(begin + 2 * ROWS_AT_ONCE, rows), 2)
                asked(client, "INSERT INTO t VALUES " + ", ".join(f"({it}, 1)" for it in ids))
            print(f"  {rows * (first + 1) // 2} rows", flush=True)


def split(port, admin):
    """Splits the shard while the writers go on; returns the last id of each, all their times, and the marks."""
    enough, told = multiprocessing.Event(), multiprocessing.Queue()
    writers = [multiprocessing.Process(target=write, args=(number, port, enough, told), daemon=True) for number in range(1, WRITERS + 1)]
    for writer in writers:
        writer.start()
    time.sleep(1)
    administrator = Administrator(admin)
    administrator.tell("status")
    administrator.tell("create -80 -40,40-80")
    administrator.follow()
    for line in ("status", "switch", "status", "complete", "status"):
        administrator.tell(line)
    time.sleep(1)
    enough.set()
    results = [told.get(timeout=60) for _ in writers]
    for writer in writers:
        writer.join()
    return [last for last, _ in results], [it for _, times in results for it in times], administrator.marks


def by_tenths(times, marks):
    """Of each whole tenth of a second when it began, how many statements were answered, the longest wait in seconds, and the lines of the split."""
    begin = min(end for end, _ in times)
    tenths = {}
    for end, took in times:
        tenths.setdefault(int(10 * (end - begin)), []).append(took)
    for tenth in range(1, max(tenths)):
        taken = tenths.get(tenth, [])
        yield tenth / 10, len(taken), max(taken, default=0), [line for at, line in marks if int(10 * (at - begin)) == tenth and line != "status"]


def chart(times, marks):
    """What the clients felt, a line each tenth of a second."""
    tenths = list(by_tenths(times, marks))
    most = max(count for _, count, _, _ in tenths)
    lines = ["  seconds  statements a second" + " " * (WIDTH - 9) + "longest wait"]
    for at, count, wait, said in tenths:
        bar = "#" * round(WIDTH * count / most)
        lines.append(f"  {at:6.1f}  {bar:{WIDTH}} {10 * count:8,} {1e3 * wait:8.2f} ms  {', '.join(said)}".rstrip())
    return "\n".join(lines)


def run(program, port, admin, rows):
    """The whole demo; returns the statements' times and the marks."""
    # two shards, eight workers, at most 100 statements that wait, the user app without a password
    call = ["serve", "-80,80-", f"127.0.0.1:{port}", f"127.0.0.1:{admin}", "8", "100", "0", "app", "-", secrets.token_hex(32)]
    with open(TOP / "examples" / "shop.json") as tables:
        router = subprocess.Popen([program, *call], stdin=tables, stdout=subprocess.PIPE)
    try:
        if router.stdout.readline() != b"listening\n":
            sys.exit("the router doesn't listen")
        print(f"loading {rows} rows", flush=True)
        load(port, rows)
        print(f"splitting -80 while {WRITERS} clients write and read", flush=True)
        lasts, times, marks = split(port, admin)
        print("looking for what was lost or doubled", flush=True)
        with connect(port) as client:
            found = [int(row[0]) for row in asked(client, "SELECT id FROM t ORDER BY id")]
        wanted = list(range(rows)) + sorted(it for last in lasts for it in range(last // APART * APART + 1, last + 1))
        if found != wanted:
            sys.exit(f"{len(found)} rows are there in place of {len(wanted)}, or others")
        print(f"  each of the {rows} rows and of the {len(wanted) - rows} that were written meanwhile is there, once, and each read saw what was written before it")
        return times, marks
    finally:
        router.kill()
        router.wait()


def main():
    asks = argparse.ArgumentParser()
    asks.add_argument("program")
    for name in ("port", "admin", "rows"):
        asks.add_argument(f"--{name}", type=int, required=True)
    words = asks.parse_args()
    print(chart(*run(words.program, words.port, words.admin, words.rows)))


if __name__ == "__main__":
    main()

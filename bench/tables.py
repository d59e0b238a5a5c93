"""Measures reading of texts, queries, stores of rows and sessions through loopback sockets, and writes how long they took as tables, with ratios.
Called by measure.sh with the program of crates/vtgate_main, and with that of lookup/main.rs if there is a compiler for it."""

import contextlib
import datetime
import os
import signal
import subprocess
import sys

import measured
from timed import AT_ONCE, BYTES_AT_ONCE, Client, Router, cell, compared

SHARDS = (1, 2, 4, 8)
HEAD = """# Performance

Written by `bench/measure.sh` on {day}, on a machine of {cores} processors; all figures of this part are of one run.
{busy}

A client asks a served router through a loopback socket. It sends up to {at_once} statements or {bytes} KiB at once, and then reads the replies. So the time
of a short statement is mostly the router's own, with little of the way there and back. What is compared takes turns in each of {rounds} rounds, and
a figure is the median of the rounds. A ratio is taken in each round, and its median is shown. It is to the first line of its table or group.
Client and router share the processors, so compare ratios, not figures.
"""


def number_of(name, otherwise):
    return int(os.environ.get(name, otherwise))


ROUNDS = number_of("ROUNDS", 15)


def heading(title, *lines):
    print(f"\n## {title}\n\n" + "\n".join(lines))


def table(head, rows):
    print("\n" + "| " + " | ".join(head) + " |\n|" + "---|" * len(head))
    for row in rows:
        print("| " + " | ".join(str(it) for it in row) + " |", flush=True)


def busy(load):
    """Whether other work kept the machine busy as the run began, by its load average of a minute."""
    said = "Other work kept the machine busy" if load > 1 else "The machine did nothing else"
    return f"{said}: its load average was {load:.1f} when the run began."


def speeds(router, own, times, unit, refused):
    """The bytes of each text, how many such units a second the router reads, and the ratio to the first text."""
    cells = [router.cell(measured.again("", text, times=its), refused) for text, its in zip(own, times)]
    found = zip(map(len, own), compared(ROUNDS, cells))
    return [(size, f"{size / took / unit:.0f}", f"{size / len(own[0]) / ratio:.2f}") for size, (took, ratio) in found]


def texts(program):
    heading(
        "Reading SQL texts",
        "Megabytes a second of longer and longer texts. The INSERT of texts is read, and refused because its table isn't there. The SELECT compares a",
        "column with as many texts by IN. It is read, resolved, planned and run over an empty table. If time is linear in the text, no ratio is below 1.",
    )
    inserts, selects = zip(*measured.texts(1 << 20))
    times = [max(1, (1 << 20) // len(it)) for it in inserts]
    with Router(program, 1) as router:
        found = zip(speeds(router, inserts, times, 10**6, True), speeds(router, selects, times, 10**6, False))
    table(("bytes", "INSERT, refused, MB/s", "ratio", "SELECT, run, MB/s", "ratio"), [(*insert, *select[1:]) for insert, select in found])


def costly(program):
    heading(
        "Costly texts",
        "Kilobytes a second of texts that have much of one thing, over 32 shards and empty tables. The INSERTs are refused: their columns or their table",
        "aren't there. The ratio is to the shorter text of the kind. If time grows no faster than n log n, it is at least 0.83, unless the longer text no",
        "longer fits into the processor's caches.",
    )
    rows = []
    with Router(program, 32) as router:
        for name, refused, sizes, make in measured.costly(number_of("COSTLY", 100_000)):
            found = speeds(router, [make(it) for it in sizes], [sizes[1] // it for it in sizes], 1000, refused)
            rows += [(size, name, *it) for size, it in zip(sizes, found)]
    table(("how many", "of what", "bytes", "kB/s", "ratio"), rows)


@contextlib.contextmanager
def routers(program, each):
    """Routers of 1, 2, 4 and 8 shards, each with so many rows."""
    with contextlib.ExitStack() as stack:
        yield [stack.enter_context(Router(program, shards, each)) for shards in SHARDS]


def microseconds(found):
    took, ratio = found
    return f"{took * 1e6:.1f}", f"{ratio:.2f}"


def queries(program):
    each = number_of("ROWS", 10_000)
    heading("Queries", f"Microseconds a query over more and more shards of {each} rows each. The ratio is to one shard.")
    rows = []
    with routers(program, each) as them:
        for kinds in zip(*(measured.queries(each, each * shards) for shards in SHARDS)):
            found = compared(ROUNDS, [router.cell(kind) for router, kind in zip(them, kinds)])
            rows += [(kinds[0].name, shards, *microseconds(it)) for shards, it in zip(SHARDS, found)]
    table(("query", "shards", "microseconds", "ratio"), rows)


def few(program):
    heading("Queries over one row a shard", "Likewise over one row in each shard. The ratio is to a point query over as many shards.")
    rows = []
    with routers(program, 1) as them:
        for shards, router in zip(SHARDS, them):
            kinds = measured.short(shards)
            found = compared(ROUNDS, [router.cell(kind) for kind in kinds])
            rows += [(kind.name, shards, *microseconds(it)) for kind, it in zip(kinds, found)]
    table(("query", "shards", "microseconds", "ratio"), rows)


def store(program):
    many = number_of("STORE", 1_000_000)
    heading(
        "A store of rows",
        "Microseconds a statement on one shard of few rows and on one of many. A SELECT and an UPDATE by the whole primary key, and an INSERT of one",
        "row, look the key up; LIMIT 1 ends with its row, COUNT(*) walks all rows. The ratio is of many rows to few.",
    )
    rows, sizes = [], (max(many // 1000, 1), many)
    with Router(program, 1, sizes[0]) as small, Router(program, 1, many) as large:
        for kinds in zip(*(measured.by_key(it) for it in sizes)):
            found = compared(ROUNDS, [router.cell(kind) for router, kind in zip((small, large), kinds)])
            rows += [(kinds[0].name, size, *microseconds(it)) for size, it in zip(sizes, found)]
    table(("statement", "rows", "microseconds", "ratio"), rows)


def maps(lookup):
    heading(
        "The maps of a store alone",
        "Nanoseconds of a lookup in std's maps, compiled by `rustc -O` (`bench/lookup/main.rs`), among few keys and many: keys of 16 bytes, rows on",
        "the heap, and between two lookups as much memory written as a statement writes. What a key among many costs more is what the",
        "machine's memory takes: a SELECT or UPDATE by the key over such a map costs at least that more.",
    )
    rows, first = [], {}
    for line in subprocess.run([lookup], capture_output=True, text=True, check=True).stdout.splitlines():
        name, each, nanos = line.split()
        first.setdefault(name, int(nanos))
        rows.append((f"`{name}`", each, nanos, int(nanos) - first[name]))
    table(("map", "keys", "nanoseconds", "more than among few"), rows)


def session_cells(clients, each, count):
    """How many sessions are at work and where, and what measures their INSERTs and their SELECTs: on four shards of so many rows."""
    for where, place in ("a shard each", lambda session: session), ("all on one shard", lambda _: 0):
        for sessions in (1, 2, 4):
            inserts = [measured.inserts(each, count, session, 4, place(session)) for session in range(sessions)]
            selects = [measured.selects(each, count, 4, place(session)) for session in range(sessions)]
            yield (sessions, where), cell(clients[:sessions], inserts), cell(clients[:sessions], selects)


def sessions(program):
    heading(
        "Sessions",
        "Statements a second by one session, and by two and four at the same time: INSERTs of one row, and SELECTs by key. The router has four shards.",
        "Each session has one of its own, or all share one. The ratio is to one session.",
    )
    with Router(program, 4, 1000) as router:
        clients = [Client(router.port) for _ in range(4)]
        names, *kinds = zip(*session_cells(clients, 1000, number_of("WRITES", 2000)))
        found = [[(f"{1 / took:.0f}", f"{1 / ratio:.2f}") for took, ratio in compared(ROUNDS, cells)] for cells in kinds]
    rows = [(*name, *insert, *select) for name, insert, select in zip(names, *found)]
    table(("sessions", "where", "INSERTs a second", "ratio", "SELECTs a second", "ratio"), rows)


def main():
    # so that an end from outside stops the routers too
    signal.signal(signal.SIGTERM, lambda *_: sys.exit(1))
    said = busy(os.getloadavg()[0])
    print(HEAD.format(day=datetime.date.today(), cores=os.cpu_count(), busy=said, at_once=AT_ONCE, bytes=BYTES_AT_ONCE // 1024, rounds=ROUNDS), end="")
    for write in (texts, costly, queries, few, store):
        write(sys.argv[1])
    if len(sys.argv) > 2:
        maps(sys.argv[2])
    sessions(sys.argv[1])


if __name__ == "__main__":
    main()

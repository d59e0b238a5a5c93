#!/usr/bin/env python3
"""Groups by values that a client chose so that their hashes would be equal, and by ordinary ones, in one run of a script.

Usage: groups.py PROGRAM [--rows N] [--rounds N] [--most RATIO]
`texts` are chosen against a hash whose key is known; `rows` against one that takes the values of a row as one text, without their lengths.
Ends with 1 where chosen values take more than RATIO times as long as ordinary ones (1.5, by the medians of the rounds).
"""
import argparse
import itertools
import statistics
import subprocess
import time

# The default hash of the kit's maps multiplies 16 bytes at a time, and the last 8 bytes of a text are joined to this constant by xor. A text that
# ends in it makes the product 0, whatever stands before it.
MULTIPLIER = 0x9E37_79B9_7F4A_7C15.to_bytes(8, "little")
LONG = 200
ROWS_OF_A_LINE = 1000


def texts(end):
    return lambda n: [b"%08d" % n + end]


def rows(byte):
    """Three texts of one byte each, as many as LONG in all: each split of that number into three comes once."""
    splits = itertools.combinations(range(LONG + 2), 2)
    lengths = [(a, b - a - 1, LONG + 1 - b) for a, b in splits]
    return lambda n: [byte * count for count in lengths[n]]


# Each table with the number of its columns, its most rows, and what a row has.
TABLES = {
    "texts": {"chosen": (1, None, texts(MULTIPLIER)), "ordinary": (1, None, texts(b"ordinary"))},
    "rows": {"chosen": (3, 20_000, rows(b"\x02")), "ordinary": (3, 20_000, rows(b"x"))},
}


def table_of(columns):
    names = ["id", *"abc"[:columns]]
    types = ["BIGINT", *["VARBINARY(255)"] * columns]
    declared = ",".join('{"name":"%s","type":"%s"}' % it for it in zip(names, types))
    return '{"columns":[%s],"primary_key":["id"]}' % declared


def inserts(name, count, values):
    for first in range(0, count, ROWS_OF_A_LINE):
        literals = (b"(%d,%s)" % (n, b",".join(b"'%s'" % it for it in values(n))) for n in range(first, min(first + ROWS_OF_A_LINE, count)))
        yield b"s: INSERT INTO %s VALUES %s" % (name.encode(), b",".join(literals))


def query(name, columns):
    listed = ",".join("abc"[:columns])
    return f"s: SELECT {listed}, COUNT(*) FROM {name} GROUP BY {listed} ORDER BY a LIMIT 1".encode()


def main():
    words = argparse.ArgumentParser(usage=__doc__)
    words.add_argument("program")
    words.add_argument("--rows", type=int, default=40_000)
    words.add_argument("--rounds", type=int, default=9)
    words.add_argument("--most", type=float, default=1.5)
    asked = words.parse_args()
    tables = {(kind, which): it for kind, both in TABLES.items() for which, it in both.items()}
    declared = ",".join(f'"{kind}_{which}":{table_of(columns)}' for (kind, which), (columns, _, _) in tables.items())
    lines, counts = [], {}
    for it, (_, most, values) in tables.items():
        counts[it] = min(asked.rows, most or asked.rows)
        lines += inserts("_".join(it), counts[it], values)
    order = [it for _ in range(asked.rounds) for it in tables]
    text = b"\n".join([b'{"keyspaces":{"base":{"sharded":false,"tables":{%s}}}}' % declared.encode(), *lines, *(query("_".join(it), tables[it][0]) for it in order)])
    run = subprocess.Popen([asked.program, "script", "-"], stdin=subprocess.PIPE, stdout=subprocess.PIPE)
    run.stdin.write(text + b"\n")
    run.stdin.close()
    for _ in lines:
        answer = run.stdout.readline()
        assert answer.startswith(b"ok "), answer
    times = {it: [] for it in tables}
    for it in order:
        began = time.monotonic()
        row, count = run.stdout.readline(), run.stdout.readline()
        times[it].append(time.monotonic() - began)
        assert row.endswith(b"|1\n") and count == b"rows 1\n", (row, count)
    assert run.wait() == 0
    failed = False
    for kind in TABLES:
        chosen, ordinary = (statistics.median(times[kind, which]) for which in ("chosen", "ordinary"))
        print(f"{counts[kind, 'chosen']} groups by {kind}: chosen {chosen * 1000:.0f} ms, ordinary {ordinary * 1000:.0f} ms, {chosen / ordinary:.2f} times as long")
        failed = failed or chosen > asked.most * ordinary
    if failed:
        raise SystemExit(1)


main()

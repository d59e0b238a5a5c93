#!/usr/bin/env python3
"""Gives the program VSchemas with many names of one kind: twice as many are to take about twice as long, not four times.

Usage: schemas.py PROGRAM [--names N] [--most RATIO]
Ends with 1 where 2 N names (300,000) take more than RATIO times as long as N (3).
"""
import argparse
import os
import subprocess
import time

COLUMN = '{"name":"%s","type":"BIGINT UNSIGNED"}'


def table(columns, key, vindex):
    return '{"columns":[%s],"primary_key":[%s],"column_vindexes":[%s]}' % (
        ",".join(COLUMN % it for it in columns), ",".join(f'"{it}"' for it in key), ",".join('{"column":"%s","name":"%s"}' % it for it in vindex))


def keyspace(vindexes, tables):
    return '{"sharded":true,"vindexes":{%s},"tables":{%s}}' % (",".join(f'"{it}":{{"type":"numeric"}}' for it in vindexes), ",".join(f'"{name}":{it}' for name, it in tables))


def schema(keyspaces):
    return '{"keyspaces":{%s}}' % ",".join(f'"{name}":{it}' for name, it in keyspaces)


ONE = table(["id"], ["id"], [("id", "v")])

# Each with as many names as asked for, without a fault but the limits.
KINDS = {
    "tables": lambda names: schema([("k", keyspace(["v"], [(it, ONE) for it in names]))]),
    "keyspaces": lambda names: schema([("k" + it, keyspace(["v"], [(it, ONE)])) for it in names]),
    "columns and keys": lambda names: schema([("k", keyspace(["v"], [("t", table(names, names, [(names[-1], "v")]))]))]),
    "column vindexes": lambda names: schema([("k", keyspace(["v"], [("t", table(names, names, [(it, "v") for it in names]))]))]),
    "vindexes": lambda names: schema([("k", keyspace(names, [("t", table(["id"], ["id"], [("id", it) for it in names]))]))]),
}

# Each with a fault in its last table alone, whose place a server with a log looks for.
FAULTY = {
    "tables and vindexes with a fault": lambda names: schema([("k", keyspace(names, [*[(it, table(["id"], ["id"], [("id", it)])) for it in names], ("z", table(["id"], ["x"], [("id", names[0])]))]))]),
}
SERVE = ["serve", "-", "127.0.0.1:0", "127.0.0.1:0", "1", "8", "0", "user", "-", "nonce"]


def timed(call, text, *told):
    began = time.monotonic()
    run = subprocess.run(call, input=text.encode(), stdout=subprocess.DEVNULL, stderr=subprocess.PIPE, env={**os.environ, "VTGATE_LOG": "error"})
    assert all(line in run.stderr for line in told) and run.returncode == 2, (run.stderr, run.returncode)
    return time.monotonic() - began


def seconds(program, text):
    return timed([program, "plan", "-", "SELECT id FROM t"], text, b"VSchema V9\n")


def seconds_of_place(program, text):
    return timed([program, *SERVE], text, b" keyspace=k table=z member=primary_key ", b"VSchema V4\n")


def is_slow(kind, make, count, most, seconds):
    """Whether twice as many names take more than so many times as long, which is told."""
    some, more = (make([f"n{it}" for it in range(names)]) for names in (count, 2 * count))
    first, second = seconds(some), seconds(more)
    print(f"a VSchema of {2 * count} {kind}: {second:.1f} s, {second / first:.1f} times as long as of {count}", flush=True)
    return second > most * first


def main():
    words = argparse.ArgumentParser(usage=__doc__)
    words.add_argument("program")
    words.add_argument("--names", type=int, default=150_000)
    words.add_argument("--most", type=float, default=3)
    asked = words.parse_args()
    slow = [is_slow(kind, make, asked.names, asked.most, lambda text: seconds(asked.program, text)) for kind, make in KINDS.items()]
    slow += [is_slow(kind, make, asked.names // 10, asked.most, lambda text: seconds_of_place(asked.program, text)) for kind, make in FAULTY.items()]
    if any(slow):
        raise SystemExit(1)


main()

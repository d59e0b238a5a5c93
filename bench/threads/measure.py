"""Measures scatters on both sides of the number of rows from which a thread reads each shard, through sockets. Called by bench/threads.sh."""

import argparse
import datetime
import os
import pathlib
import re
import sys
import threading
import time

TOP = pathlib.Path(__file__).resolve().parents[2]
sys.path[:0] = [str(TOP / "bench" / "load"), str(TOP / "bench")]

import page  # noqa: E402
from beside import FOUR, Router  # noqa: E402

STATEMENT = "SELECT id FROM t WHERE c = 7"
HEAD = """## A thread for each shard

Written by `bench/threads.sh` on {day}, on a machine of {cores} processors: milliseconds of `{statement}` on 4 shards of {rows} rows each, which the
session's own thread reads, and of one row more each, which threads read. Where the ratio is below 1, threads pay.

| connections | one thread | threads | ratio |
|---|---|---|---|
"""


def few_rows():
    """Up to how many rows of a shard the session's own thread reads."""
    text = (TOP / "crates" / "shard_calls" / "src" / "gate.rt").read_text()
    return int(re.search(r"const FEW_ROWS: usize = ([\d_]+);", text).group(1))


def milliseconds(router, connections, seconds):
    """How long a statement takes on average, while so many connections send one after the other."""
    counts = [0] * connections
    ending = threading.Event()

    def work(place, client):
        while not ending.is_set():
            client.reply(STATEMENT)
            counts[place] += 1

    clients = [router.connect() for _ in range(connections)]
    workers = [threading.Thread(target=work, args=it) for it in enumerate(clients)]
    begin = time.perf_counter()
    for it in workers:
        it.start()
    time.sleep(seconds)
    ending.set()
    for it in workers:
        it.join()
    for client in clients:
        client.socket.close()
    return (time.perf_counter() - begin) * 1000 * connections / sum(counts)


def main():
    asked = argparse.ArgumentParser()
    asked.add_argument("program")
    asked.add_argument("--seconds", type=float, default=3)
    asked.add_argument("--rows", type=int, default=few_rows())
    asked.add_argument("--document", type=pathlib.Path)
    words = asked.parse_args()
    part = HEAD.format(day=datetime.date.today(), cores=os.cpu_count(), statement=STATEMENT, rows=words.rows)
    most = 16
    with Router(words.program, FOUR, words.rows * 4, most + 2) as few, Router(words.program, FOUR, words.rows * 4 + 4, most + 2) as more:
        for connections in (1, 4, most):
            alone, threads = (milliseconds(it, connections, words.seconds) for it in (few, more))
            part += f"| {connections} | {alone:.2f} | {threads:.2f} | {threads / alone:.2f} |\n"
    if words.document:
        page.put(words.document, "threads.sh", part)
    else:
        print(part, end="")


if __name__ == "__main__":
    main()

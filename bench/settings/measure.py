"""Measures the router under settings of the system, in turn. Called by bench/settings.sh."""

import argparse
import contextlib
import datetime
import importlib.util
import os
import pathlib
import statistics
import subprocess
import sys

BENCH = pathlib.Path(__file__).resolve().parent.parent
sys.path.insert(0, str(BENCH))

import page  # noqa: E402

REPORT_ROWS, REPORT = 100_000, "SELECT * FROM t"
# glibc as it is by itself, whatever the program maps at its start
GIVES_BACK = "glibc.malloc.trim_threshold=131072"
WRITE_SIZES = pathlib.Path("/proc/sys/net/ipv4/tcp_wmem")
LARGE = "4096 1048576 16777216"
HEAD = """## Settings of the system

Written by `bench/settings.sh` on {day}, on a machine of {cores} processors: statements of `bench/serve.sh` a second by 4 connections, and milliseconds of
`{report}`, {rows} rows of two numbers and 100 bytes, asked again and again by one client. Each figure is the middle of {rounds} rounds of {seconds} seconds, in
which the settings take turns; its ratio is to the first line. The last column has what the process holds once the reports are answered.

| setting | points | ratio | scatters | ratio | report, ms | ratio | MB held |
|---|---|---|---|---|---|---|---|
"""


def loaded(name):
    """The module `measure` of a folder of bench/: each has one of this name."""
    spec = importlib.util.spec_from_file_location(f"{name}_measure", BENCH / name / "measure.py")
    made = importlib.util.module_from_spec(spec)
    spec.loader.exec_module(made)
    return made


serve, worst = loaded("serve"), loaded("worst")


def tcmalloc():
    run = subprocess.run(["ldconfig", "-p"], stdout=subprocess.PIPE, text=True, check=True)
    return next(line.split("=>")[1].strip() for line in run.stdout.splitlines() if "libtcmalloc_minimal.so.4" in line)


def settings():
    """What a page calls a setting, its environment, and the sizes of sockets, if it has its own."""
    yield "none", {}, None
    yield f"`GLIBC_TUNABLES={GIVES_BACK}`", {"GLIBC_TUNABLES": GIVES_BACK}, None
    yield "`LD_PRELOAD`: tcmalloc", {"LD_PRELOAD": tcmalloc()}, None
    if os.access(WRITE_SIZES, os.W_OK):
        yield f"`net.ipv4.tcp_wmem` = {LARGE}", {}, LARGE


@contextlib.contextmanager
def under(environment, sizes):
    """The settings, until the `with` ends, for the programs that are started meanwhile."""
    before = WRITE_SIZES.read_text() if sizes else None
    os.environ.update(environment)
    if sizes:
        WRITE_SIZES.write_text(sizes)
    try:
        yield
    finally:
        for name in environment:
            del os.environ[name]
        if sizes:
            WRITE_SIZES.write_text(before)


def rates(words, environment, sizes):
    """The points and the scatters a second."""
    for kind in ("point", "scatter"):
        server = serve.Router(20_000, words.program)
        try:
            with under(environment, sizes):
                server.begin_cell(words.load)
            yield int(server.load(words.load, "run", kind, "4", str(words.seconds)).split()[0])
        finally:
            server.stop()


def reports(words, environment, sizes):
    """The milliseconds of a report, the middle of some, and the megabytes held after them."""
    with under(environment, sizes):
        begun = worst.Router(words.program, REPORT_ROWS)
        server = begun.__enter__()
    try:
        server.reply(REPORT)
        return statistics.median(server.reply(REPORT)[0] * 1000 for _ in range(9)), server.memory("VmRSS") / 2**20
    finally:
        begun.__exit__()


def main():
    asked = argparse.ArgumentParser()
    asked.add_argument("program")
    asked.add_argument("load")
    asked.add_argument("--rounds", type=int, default=5)
    asked.add_argument("--seconds", type=float, default=1)
    asked.add_argument("--document", type=pathlib.Path)
    words = asked.parse_args()
    found = {}
    for _ in range(words.rounds):
        for name, environment, sizes in settings():
            found.setdefault(name, []).append((*rates(words, environment, sizes), *reports(words, environment, sizes)))
    middle = {name: [statistics.median(it) for it in zip(*rounds)] for name, rounds in found.items()}
    first = middle["none"]
    part = HEAD.format(
        day=datetime.date.today(), cores=os.cpu_count(), report=REPORT, rows=REPORT_ROWS, rounds=words.rounds, seconds=words.seconds
    )
    for name, (points, scatters, report, held) in middle.items():
        part += f"| {name} | {points:.0f} | {points / first[0]:.2f} | {scatters:.0f} | {scatters / first[1]:.2f} | "
        part += f"{report:.1f} | {report / first[2]:.2f} | {held:.0f} |\n"
    if words.document:
        page.put(words.document, "settings.sh", part)
    else:
        print(part, end="")


if __name__ == "__main__":
    main()

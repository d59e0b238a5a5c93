"""Clients that run the list `prepared` by prepared statements, over a router whose shards are split at its `@pause`.

Usage: CLIENTS=FOLDER prepared.py PROGRAM   writes into the list what each client shows instead of what is wanted; FOLDER has the compiled ones
"""

import pathlib
import sys
import threading

from libraries import PREPARED, read_steps
from router import USER, Router

LIST = pathlib.Path(__file__).with_name("prepared")
STEPS = read_steps(LIST)
PASSWORD = "It's a password"
SPLIT = ("create -40 -20,20-40", "switch", "complete")


def blocks_of(text):
    return [block.split("\n") for block in text.decode("latin-1").rstrip("\n").split("\n\n") if block]


def read_blocks(stream, count):
    """The bytes of as many outcomes, each of which ends with an empty line."""
    read = b""
    while count:
        line = stream.readline()
        if not line:
            break
        read += line
        count -= line == b"\n"
    return read


def outcomes_of(router, library, lines, timeout=120):
    """The outcomes of the lines, and what the split answered."""
    process = library.start(router.port, USER, PASSWORD, "shop")
    watch = threading.Timer(timeout, process.kill)
    watch.start()
    try:
        pause = lines.index("@pause") + 1
        process.stdin.write("".join(line + "\n" for line in lines[:pause]).encode())
        process.stdin.flush()
        shown = read_blocks(process.stdout, pause)
        split = router.admin(*SPLIT)
        rest, _ = process.communicate("".join(line + "\n" for line in lines[pause:]).encode())
    finally:
        watch.cancel()
        if process.poll() is None:
            process.kill()
            process.wait()
    return blocks_of(shown + rest), split


def runs_prepared(program, library, check):
    mine = [(line, library.wanted(outcomes)) for line, outcomes in STEPS if library.can(line)]
    with Router(program, PASSWORD) as router:
        outcomes, split = outcomes_of(router, library, [line for line, _ in mine])
    check(f"{library.name}: the split", split, ["ok"] * len(SPLIT))
    for place, (line, wanted) in enumerate(mine):
        check(f"{library.name}: {line[:100]}", outcomes[place] if place < len(outcomes) else None, wanted)
    check(f"{library.name}: number of outcomes", len(outcomes), len(mine))


def shown_instead(program):
    """For each step of the list what clients show instead of what is wanted, and which."""
    instead = [{} for _ in STEPS]
    for library in PREPARED:
        places = [place for place, (line, _) in enumerate(STEPS) if library.can(line)]
        with Router(program, PASSWORD) as router:
            outcomes, _ = outcomes_of(router, library, [STEPS[place][0] for place in places])
        for place, outcome in zip(places, outcomes):
            if outcome != library.shown(STEPS[place][1][None]):
                instead[place].setdefault(tuple(outcome), []).append(library.name)
    return instead


def write(program):
    lines, at = [], -1
    instead = shown_instead(program)
    for line in [*LIST.read_text().splitlines(), "#"]:
        is_outcome = line.startswith("    ")
        if is_outcome and is_other or line.startswith("  ") and not is_outcome:
            is_other = True
            continue
        if not is_outcome and at >= 0:
            for outcome, names in instead[at].items():
                lines += [f"  {', '.join(names)}:", *(f"    {it}" for it in outcome)]
            instead[at] = {}
        if line and line[0] not in "# ":
            at += 1
        is_other = False
        lines.append(line)
    LIST.write_text("\n".join(lines[:-1]) + "\n")


if __name__ == "__main__":
    write(sys.argv[1])

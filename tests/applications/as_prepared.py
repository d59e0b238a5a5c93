"""The queries that a router accepts as texts, once more as prepared statements of the server: by the C library, without values."""

import pathlib
import subprocess
import sys

from servers import PASSWORD

from libraries import BUILT, C_FLAGS, HERE, apt_get, run
from router import USER, Router

CLIENT = BUILT / "by_c_prepared"


def make_client():
    """Compiles the client, with the packages that it needs."""
    for package in ("gcc", "libmariadb-dev"):
        if run("dpkg", "-s", package).returncode:
            apt_get("install", "-y", "-qq", "--no-install-recommends", package)
    built = run("bash", "-c", f"gcc -O1 {pathlib.Path(HERE) / 'by_c_prepared.c'} -o {CLIENT} {C_FLAGS}")
    if built.returncode:
        sys.exit(built.stdout)


def outcomes_of(router, database, texts):
    lines = "".join(f"@bind [] {text}\n" for text in texts)
    words = [str(CLIENT), str(router.port), USER, PASSWORD, database]
    shown = subprocess.run(words, input=lines.encode(), stdout=subprocess.PIPE, timeout=60).stdout.decode("latin-1")
    return [block.split("\n") for block in shown.rstrip("\n").split("\n\n") if block]


def run_prepared(application, accepted, marks, check):
    """Runs queries that don't write, all over one router. Returns the marks of those that are refused so."""
    refused, name = {}, f"{application.name},prepared"
    with Router(application.program, PASSWORD, schema=application.schema) as router:
        application.filled(router.port).close()
        outcomes = outcomes_of(router, application.database, [text for text, _ in accepted])
    check(f"{name}: number of outcomes", len(outcomes), len(accepted))
    for (text, wanted), outcome in zip(accepted, outcomes):
        got = outcome if "ORDER BY" in text.upper() else [*sorted(outcome[:-1]), outcome[-1]]
        mark = marks.get((name, text))
        if got[0].startswith("ERROR"):
            number = int(got[0].split()[1])
            refused[name, text] = (number, mark[1] if mark else "prepared")
            check(f"{name}: {text} is {got}", number, mark and mark[0])
        else:
            check(f"{name}: {text}", got, wanted)
            check(f"{name}: {text}: accepted, and isn't marked", mark, None)
    return refused

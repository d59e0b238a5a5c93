#!/usr/bin/env python3
"""The kit's command rt as a module, for the scripts next to it. As a command, `scripts/kit.py WORDS..` does what `rt WORDS..` does, in less time.

To see whether a library is built, rattle-kit-13b sums the files of all that lies below it, once for each way through the lists of crates.txt
(scripts/lists counts them). Here each crate is summed once, and again after each run of the prover; rattle-kit-13f does so itself.
"""

import functools
import importlib.machinery
import importlib.util
import os
import shutil
import sys


def kit():
    """Loads the kit's command as a module."""
    file = os.path.realpath(shutil.which("rt"))
    loader = importlib.machinery.SourceFileLoader("rt_command", file)
    made = importlib.util.module_from_spec(importlib.util.spec_from_loader("rt_command", loader))
    loader.exec_module(made)
    return made


def remember(crate_type):
    """Has a crate look once at what lies below it, and once at its files until the prover has run."""
    stamp, call, sums = crate_type.stamp, crate_type.call, {}

    def remembered(crate):
        if crate.folder not in sums:
            sums[crate.folder] = stamp(crate)
        return sums[crate.folder]

    def forgetting(crate, *words, **more):
        try:
            return call(crate, *words, **more)
        finally:
            # who edits a file while the prover runs is found out
            sums.clear()

    crate_type.below = functools.cache(crate_type.below)
    crate_type.stamp, crate_type.call = remembered, forgetting


def main(words):
    rt = kit()
    remember(rt.rtlib.Crate)
    return rt.main(words)


if __name__ == "__main__":
    sys.exit(main(sys.argv[1:]))

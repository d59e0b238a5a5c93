"""Writes the lines of a script that merges two shards with too many rows, and what they are to give. Called by tests/limits.sh.

A shard has at most 2^20 rows. An id's bits are reversed to tell its shard: even ids lie on -80, odd ids on 80-. The three tables are b, t and w, by name; b
and w are empty, so their one Copy from each source has no rows. A step copies at most 100 rows, and the last of a table fewer than 100.
"""

import sys

MOST, STEP = 2**20, 100
EVEN, ODD = 700_000, 400_000
AT_ONCE = 2000


def main():
    lines, wanted = [], []

    def line(words, reply):
        lines.append(words)
        wanted.append(reply)

    for first, count in ((2, EVEN), (1, ODD)):
        for begin in range(0, count, AT_ONCE):
            rows = ", ".join(f"({first + 2 * it}, 0)" for it in range(begin, begin + AT_ONCE))
            line(f"a: INSERT INTO t (id, c) VALUES {rows}", f"ok {AT_ONCE}")
    line("! create -80,80- -", "ok")
    # from -80: b, t with its last step that is empty, w; from 80-: b, and of t what there is room for
    fit = 1 + (EVEN // STEP + 1) + 1 + 1 + (MOST - EVEN) // STEP
    for _ in range(fit):
        line("! step", "ok copied")
    for _ in range(2):
        line("! step", "F24")
    line("! status", "serving -80 80- following")
    line("! switch", "F24")
    line("! advance", "ok freeze")
    line("! advance", "ok freeze")
    line("! advance", "F24")
    line("! status", "serving -80 80- following")
    for number in (1, 2):
        line(f"b: UPDATE t SET c = {number} WHERE id = {number}", "ok 1")
    line("b: SELECT COUNT(*), SUM(c) FROM t", f"{EVEN + ODD}|3\nrows 1")
    # the writes are followed if their rows are copied, and there is still no room for the next rows
    line("! step", "ok followed")
    line("! cancel", "ok")
    line("! status", "serving -80 80- none")
    with open(sys.argv[1], "w") as file:
        file.write("\n".join(lines) + "\n")
    with open(sys.argv[2], "w") as file:
        file.write("\n".join(wanted) + "\n")


main()

"""Runs the lines on standard input by the mariadb command line at a terminal, and prints the outcome of each, with an empty line after it.
Usage: by_terminal.py PORT USER PASSWORD DATABASE"""

import fcntl
import os
import pty
import re
import select
import struct
import sys
import termios
import time

TEXTS = {"@off": "SET autocommit = 0", "@on": "SET autocommit = 1", "@begin": "BEGIN", "@commit": "COMMIT", "@rollback": "ROLLBACK"}
PROMPT = re.compile(r"(MariaDB|MySQL) \[[^]]*\]> $")


class Terminal:
    def __init__(self, port, user, password, database):
        words = ["-h", "127.0.0.1", "-P", port, "-u", user, *([f"-p{password}"] if password else []), *([database] if database else [])]
        process, self.terminal = pty.fork()
        if not process:
            # so that no history is read or written
            os.environ.update(HOME="/nowhere", TERM="dumb", LC_ALL="C.UTF-8", MYSQL_HISTFILE="/dev/null")
            os.execvp("mariadb", ["mariadb", "--no-defaults", *words])
        fcntl.ioctl(self.terminal, termios.TIOCSWINSZ, struct.pack("HHHH", 50, 4000, 0, 0))
        self.greeting = self.read()

    def read(self):
        """What is shown up to the next prompt, or to the end."""
        shown, end = "", time.monotonic() + 30
        while not PROMPT.search(shown) and time.monotonic() < end:
            if not select.select([self.terminal], [], [], 1)[0]:
                continue
            try:
                piece = os.read(self.terminal, 65536)
            except OSError:
                break
            shown += piece.decode("latin-1")
        return shown

    def run(self, line):
        if line.startswith("@use "):
            typed = "use " + line[5:]
        else:
            typed = TEXTS.get(line, line) + ";"
        os.write(self.terminal, typed.encode() + b"\n")
        # the line itself comes first, and once more if it was typed before the client had the terminal
        shown = self.read().replace("\r\n", "\n").partition("\n")[2]
        return outcome_of(shown.removeprefix(typed.encode().decode("latin-1") + "\n"))


def cell(text):
    return "".join(it if " " <= it <= "~" and it not in "'\\" else f"\\x{ord(it):02x}" for it in text)


def rows_of(table):
    """The rows of a table in a frame, of which the first is that of names."""
    rows = [row.strip("\n")[2:-2] for row in re.split(r"\n(?=[|+])", table) if row.startswith("|")]
    return ["|".join(cell(it.strip(" ")) for it in row.split(" | ")) for row in rows[1:]]


def outcome_of(shown):
    if error := re.match(r"ERROR \d+ \(.{5}\): .*", shown):
        return [error[0]]
    if count := re.match(r"Query OK, (\d+) row", shown):
        return [f"ok {count[1]}"]
    if "Database changed" in shown:
        return ["ok 0"]
    if shown.startswith("Empty set"):
        return ["rows 0"]
    if count := re.search(r"^(\d+) rows? in set", shown, re.M):
        return [*rows_of(shown[: count.start()]), f"rows {count[1]}"]
    return ["no outcome: " + repr(shown)]


def main():
    words = sys.argv[1:]
    client, other = Terminal(*words), None
    if error := re.search(r"ERROR .*", client.greeting):
        sys.exit(print(error[0].strip()))
    for line in sys.stdin.read().splitlines():
        if line.startswith("@other "):
            other = other or Terminal(*words)
            lines = other.run(line[7:])
            other.run("COMMIT")
        else:
            lines = client.run(line)
        print(*lines, "", sep="\n", flush=True)


main()

"""Sends the statements of a page's table to the router, each in the client that the table names."""

import contextlib
import re
import subprocess
from dataclasses import dataclass

CLIENT = "mariadb -h 127.0.0.1 -P 3306 -u app --batch --skip-column-names --force --unbuffered -vv shop 2>&1"
# what a client prints once it has printed the answer to all before it
END = "all is answered"


@dataclass
class Row:
    """Statements, each after its session and a colon, and the lines of the last one's answer; those before it are answered OK."""

    statements: list
    answers: list


def row_of(line):
    """The row of a table whose first cell has statements in code spans, and whose second has the answer's lines; or none."""
    cells = line.split("|")
    spans = [re.findall(r"`([^`]+)`", it) for it in cells[1:3]] if len(cells) > 3 else []
    return Row(*spans) if spans and spans[1] and all(re.match(r"[ab]: ", it) for it in spans[0]) and spans[0] else None


class Sessions:
    """A client for each session, from its first statement to the end."""

    def __init__(self):
        self.clients = {}

    def __enter__(self):
        return self

    def __exit__(self, *_):
        for client in self.clients.values():
            client.communicate()

    def ask(self, session, statement):
        """The lines that answer a statement, without the statement and without where it stood."""
        if session not in self.clients:
            self.clients[session] = subprocess.Popen(["sh", "-c", CLIENT], stdin=subprocess.PIPE, stdout=subprocess.PIPE, text=True)
        client, shown = self.clients[session], ""
        # a client that couldn't connect has ended, and has said why
        with contextlib.suppress(BrokenPipeError):
            client.stdin.write(f"{statement};\nsystem echo {END}\n")
            client.stdin.flush()
        for line in client.stdout:
            if line.strip() == END:
                break
            shown += line
        shown = re.sub(r"-{14}\n.*?\n-{14}\n", "", shown, flags=re.S)
        return [re.sub(r" at line \d+", "", it) for it in shown.split("\n") if it.strip() and not re.fullmatch(r"\d+ rows? in set", it)]

    def answer(self, row):
        """The lines that answer the last statement of a row, or the first refusal before it."""
        for it in row.statements:
            session, _, statement = it.partition(": ")
            lines = self.ask(session, statement)
            if it != row.statements[-1] and lines and lines[0].startswith("ERROR"):
                return [f"{it}: {lines[0]}"]
        return lines

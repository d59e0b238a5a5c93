"""Runs the list `prepared` on standard input by pyodbc and MariaDB's ODBC driver, and prints the outcome of each line, with an empty line after it.

Usage: by_odbc.py PORT USER PASSWORD DATABASE
"""

import decimal
import json
import re
import sys

import pyodbc

PORT, USER, PASSWORD, DATABASE = sys.argv[1:5]


def connected():
    place = f"DRIVER=libmaodbc.so;SERVER=127.0.0.1;PORT={PORT};DATABASE={DATABASE};UID={USER};PWD={{{PASSWORD}}}"
    return pyodbc.connect(place, autocommit=True)


def value(it):
    if it is None:
        return "NULL"
    if isinstance(it, str):
        it = it.encode()
    if not isinstance(it, (bytes, bytearray)):
        return str(it)
    return "'" + "".join(chr(each) if 0x20 <= each <= 0x7E and each not in b"'\\" else f"\\x{each:02x}" for each in it) + "'"


def shown(cursor):
    if cursor.description is None:
        return [f"ok {cursor.rowcount}"]
    rows = ["|".join(map(value, row)) for row in cursor.fetchall()]
    return [*rows, f"rows {len(rows)}"]


def bound(it):
    """Texts as bytes. ODBC's numbers have 63 bits and a sign: a larger one is a decimal."""
    if isinstance(it, str):
        return it.encode("latin-1")
    return decimal.Decimal(it) if it is not None and it >= 1 << 63 else it


def values_of(text):
    return list(map(bound, json.loads(text)))


class Client:
    def __init__(self):
        self.connection = connected()
        self.other = None

    def run(self, line):
        if found := re.match(r"@(?:bind|long) (\[.*?\]) (.*)", line):
            return shown(self.connection.execute(found[2], values_of(found[1])))
        if line.startswith("@keep "):
            # pyodbc prepares a text as it is first executed, and keeps it while the cursor executes the same text
            self.cursor, self.text = self.connection.cursor(), line[6:]
        elif line.startswith("@kept "):
            return shown(self.cursor.execute(self.text, values_of(line[6:])))
        elif line.startswith("@other "):
            self.other = self.other or connected()
            return shown(self.other.execute(line[7:]))
        elif line == "@begin":
            self.connection.autocommit = False
        elif line in ("@commit", "@rollback"):
            try:
                self.connection.commit() if line == "@commit" else self.connection.rollback()
            finally:
                self.connection.autocommit = True
        return ["ok 0"]


def refusal(error):
    state, message = error.args[0], str(error.args[-1])
    found = re.search(r"\]([^\[\]]*) \((\d+)\)", message)
    return f"ERROR {found[2]} ({state}): {found[1]}" if found else f"ERROR {message}"


client = Client()
for line in sys.stdin:
    try:
        lines = client.run(line.rstrip("\n"))
    except Exception as error:
        lines = [refusal(error)]
    print("\n".join(lines) + "\n", flush=True)

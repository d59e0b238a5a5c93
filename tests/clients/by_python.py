"""Runs the lines on standard input by a library of Python's, and prints the outcome of each, with an empty line after it.
Usage: by_python.py pymysql|MySQLdb|aiomysql|sqlalchemy PORT USER PASSWORD DATABASE"""

import asyncio
import importlib
import json
import os
import re
import sys


def value(it):
    if it is None:
        return "NULL"
    if isinstance(it, bytes):
        plain = (chr(byte) if 0x20 <= byte <= 0x7E and byte not in b"'\\" else f"\\x{byte:02x}" for byte in it)
        return "'" + "".join(plain) + "'"
    return str(it)


def shown(count, description, rows):
    if description is None:
        return [f"ok {count}"]
    return ["|".join(map(value, row)) for row in rows] + [f"rows {len(rows)}"]


class Plain:
    """A connection of PyMySQL or MySQLdb."""

    def __init__(self, library, choices):
        self.connection = library.connect(**choices)

    def execute(self, text, values):
        with self.connection.cursor() as cursor:
            count = cursor.execute(text, values)
            return shown(count, cursor.description, cursor.fetchall())

    def autocommit(self, on):
        self.connection.autocommit(on)

    def begin(self):
        self.connection.begin()

    def commit(self):
        self.connection.commit()

    def rollback(self):
        self.connection.rollback()

    def use(self, name):
        self.connection.select_db(name)

    def ping(self):
        self.connection.ping()

    def close(self):
        self.connection.close()


class Waiting:
    """A connection of aiomysql, each of whose calls is waited for."""

    def __init__(self, library, choices):
        self.loop = asyncio.new_event_loop()
        choices["db"] = choices.pop("database")
        self.connection = self.wait(library.connect(**choices))

    def wait(self, call):
        return self.loop.run_until_complete(call)

    async def executed(self, text, values):
        async with self.connection.cursor() as cursor:
            count = await cursor.execute(text, values)
            return shown(count, cursor.description, await cursor.fetchall())

    def execute(self, text, values):
        return self.wait(self.executed(text, values))

    def autocommit(self, on):
        self.wait(self.connection.autocommit(on))

    def begin(self):
        self.wait(self.connection.begin())

    def commit(self):
        self.wait(self.connection.commit())

    def rollback(self):
        self.wait(self.connection.rollback())

    def use(self, name):
        self.wait(self.connection.select_db(name))

    def ping(self):
        self.wait(self.connection.ping(reconnect=False))

    def close(self):
        self.wait(self.connection.ensure_closed())


class Mapped:
    """A connection of SQLAlchemy over PyMySQL, with texts as `text()`."""

    def __init__(self, library, choices):
        place = library.engine.URL.create(
            "mysql+pymysql", choices["user"], choices["password"] or None, choices["host"], choices["port"], choices["database"]
        )
        self.library = library
        self.connection = library.create_engine(place).connect()
        self.begins = False  # whether a transaction begins as one ends
        self.transaction = None

    def execute(self, text, values):
        names = dict(zip("abc", values or []))
        for name in names:
            text = text.replace("%s", ":" + name, 1)
        result = self.connection.execute(self.library.text(text), names)
        if result.returns_rows:
            return shown(0, True, [tuple(row) for row in result])
        return shown(result.rowcount, None, None)

    def autocommit(self, on):
        if self.begins:
            self.begins = False
            self.commit()
        self.connection = self.connection.execution_options(isolation_level="AUTOCOMMIT" if on else "REPEATABLE READ")
        self.begins = not on
        if not on:
            self.begin()

    def begin(self):
        self.transaction = self.connection.begin()

    def end(self, call):
        try:
            call()
        except Exception:
            # a refused commit leaves it inactive until that
            self.transaction.rollback()
            raise
        if self.begins:
            self.begin()

    def commit(self):
        self.end(self.transaction.commit)

    def rollback(self):
        self.end(self.transaction.rollback)

    def close(self):
        self.connection.close()


def run(client, line):
    if line in ("@off", "@on"):
        client.autocommit(line == "@on")
    elif line in ("@begin", "@commit", "@rollback", "@ping"):
        getattr(client, line[1:])()
    elif line.startswith("@use "):
        client.use(line[5:])
    elif line.startswith(("@bind ", "@typed ")):
        values, text = re.fullmatch(r"@(?:bind|typed) (\[.*?\]) (.*)", line).groups()
        return client.execute(text.replace("?", "%s"), json.loads(values))
    else:
        return client.execute(line, None)
    return ["ok 0"]


def refusal(error):
    error = getattr(error, "orig", error)
    return f"ERROR {error.args[0]}: {error.args[1]}" if len(error.args) == 2 else f"ERROR {error!r}"


def outcome(client, line):
    try:
        return run(client, line)
    except Exception as error:
        return [refusal(error)]


def main():
    name, port, user, password, database = sys.argv[1:]
    # SQLAlchemy 1.4 warns of what 2.0 has no longer
    os.environ["SQLALCHEMY_SILENCE_UBER_WARNING"] = "1"
    library = importlib.import_module(name)
    made = {"aiomysql": Waiting, "sqlalchemy": Mapped}.get(name, Plain)

    def connected():
        choices = {"host": "127.0.0.1", "port": int(port), "user": user, "password": password, "database": database}
        return made(library, choices)

    try:
        client = connected()
    except Exception as error:
        sys.exit(print(refusal(error)))
    other = None
    for line in sys.stdin.read().splitlines():
        if line.startswith("@other "):
            other = other or connected()
            lines = outcome(other, line[7:])
            outcome(other, "COMMIT")
        else:
            lines = outcome(client, line)
        print(*lines, "", sep="\n", flush=True)
    for each in (client, other):
        if each:
            each.close()


main()

"""Runs the queries of applications, and programs of frameworks, over the router and MariaDB's server. Called by tests/applications.sh.

A folder of tests/applications is an application: `schema.json` is its VSchema, `rows` the INSERTs that fill its tables, and `queries` what it asks.
There a line is a statement, the lines below it with four blanks are what MariaDB's server answers, and a blank line ends a unit. Each unit has
a new router and new connections, and begins with the rows of `rows`. `refused` has the statements that the router refuses.
"""

import pathlib
import signal
import sys
from collections import Counter

import pymysql

import document
from as_prepared import make_client, run_prepared
from frameworks import PROGRAMS, run_frameworks
from servers import PASSWORD, MariaDB, sharded_keyspace, tables_of

from checks import check, ended
from router import USER, Router

HERE = pathlib.Path(__file__).resolve().parent
MARKS = HERE / "refused"


def read_units(path):
    """The units of a file of queries: lists of [comments above, statement, outcome]."""
    units, comments, unit = [], [], []
    for line in [*path.read_text().splitlines(), ""]:
        if line.startswith("    "):
            unit[-1][2].append(line[4:])
        elif line.startswith("#"):
            comments.append(line)
        elif line:
            unit.append([comments, line, []])
            comments = []
        elif unit:
            units.append(unit)
            unit = []
    return units


def write_units(path, units):
    texts = []
    for unit in units:
        lines = []
        for comments, statement, outcome in unit:
            lines += [*comments, statement, *(f"    {it}" for it in outcome)]
        texts.append("\n".join(lines) + "\n")
    path.write_text("\n".join(texts))


def read_marks():
    """The statements that are refused, by application and text, each with its number and reason; and the lines before them."""
    lines = MARKS.read_text().splitlines()
    head = [it for it in lines if it.startswith("#")]
    marks = {}
    for line in lines:
        if line and not line.startswith("#"):
            number, reason, application, text = line.split(None, 3)
            marks[application, text] = (int(number), reason)
    return head, marks


def write_marks(head, marks):
    MARKS.write_text("\n".join([*head, *(f"{number} {reason:<11} {name:<9} {text}" for (name, text), (number, reason) in marks.items())]) + "\n")


def cell(value):
    if isinstance(value, str):
        value = value.encode()
    if isinstance(value, bytes):
        return "'" + "".join(chr(it) if 32 <= it <= 126 and it not in b"'\\" else f"\\x{it:02x}" for it in value) + "'"
    return "NULL" if value is None else str(value)


def outcome_of(connection, text):
    """What a statement answers: its lines, and the names of the columns. Rows without an order are sorted."""
    with connection.cursor() as cursor:
        try:
            cursor.execute(text)
        except pymysql.MySQLError as error:
            return [f"ERROR {error.args[0]}"], None
        if cursor.description is None:
            return [f"ok {cursor.rowcount}"], None
        rows = ["|".join(map(cell, row)) for row in cursor.fetchall()]
    if "ORDER BY" not in text.upper():
        rows.sort()
    return [*rows, f"rows {len(rows)}"], [it[0] for it in cursor.description]


def without_effect(connection, text):
    """What a statement answers, which is then undone: the router has refused it."""
    begin, undo = ("SAVEPOINT before_it", "ROLLBACK TO before_it") if connection.server_status & 1 else ("BEGIN", "ROLLBACK")
    connection.query(begin)
    answer = outcome_of(connection, text)
    connection.query(undo)
    return answer


class Application:
    def __init__(self, folder, program, mariadb):
        self.name, self.program, self.mariadb = folder.name, program, mariadb
        self.path, self.schema = folder / "queries", folder / "schema.json"
        self.units = read_units(self.path)
        self.tables = [name for name, _ in tables_of(self.schema)]
        self.rows = [line for line in (folder / "rows").read_text().splitlines() if line and not line.startswith("#")]
        self.database = sharded_keyspace(self.schema)

    def count(self):
        """How many queries there are: what begins and ends a transaction is none."""
        return sum(text.split()[0] not in ("BEGIN", "START", "COMMIT", "ROLLBACK") for unit in self.units for _, text, _ in unit)

    def accepted_reads(self, refused):
        """The SELECTs that stand alone and are accepted, each with its outcome."""
        alone = [unit[0] for unit in self.units if len(unit) == 1]
        return [(text, outcome) for _, text, outcome in alone if text.upper().startswith("SELECT") and (self.name, text) not in refused]

    def filled(self, port, first=()):
        connection = pymysql.connect(host="127.0.0.1", port=port, user=USER, password=PASSWORD, database=self.database, autocommit=True)
        for text in [*first, *self.rows]:
            connection.query(text)
        return connection

    def run(self, marks):
        """Runs all units, each over a new router. Returns what is refused now."""
        refused = {}
        for unit in self.units:
            with Router(self.program, PASSWORD, schema=self.schema) as router:
                connections = self.filled(router.port), self.filled(self.mariadb.port, [f"DELETE FROM `{it}`" for it in self.tables])
                for statement in unit:
                    self.run_one(statement, connections, marks, refused)
                for connection in connections:
                    connection.close()
        return refused

    def run_one(self, statement, connections, marks, refused):
        _, text, wanted = statement
        name = f"{self.name}: {text}"
        router, mariadb = connections
        got, names = outcome_of(router, text)
        has_error = got[0].startswith("ERROR")
        there, names_there = (without_effect if has_error and got != wanted else outcome_of)(mariadb, text)
        check(f"{name}: MariaDB's server", there, wanted)
        statement[2] = there
        mark = marks.get((self.name, text))
        if has_error and got != there or got == there and names != names_there:
            number = int(got[0].split()[1]) if has_error else 0
            refused[self.name, text] = (number, mark[1] if mark else "new")
            check(f"{name}: the router answers {(got, names)}", number, mark and mark[0])
        else:
            check(name, got, there)
            check(f"{name}: accepted, and isn't marked", mark, None)


def count_of(refused):
    """How many are refused for each reason."""
    counts = Counter(reason for _, reason in refused.values())
    return ", ".join(f"{count} {reason}" for reason, count in counts.most_common()) or "none"


def run_applications(program, mariadb, marks, writes):
    """Runs the queries of all applications, as texts and prepared. Returns the marks of what is refused now of either, and what a document says."""
    refused, prepared, counts, reads = {}, {}, {}, 0
    make_client()
    for folder in sorted(it.parent for it in HERE.glob("*/queries")):
        mariadb.make(folder / "schema.json")
        application = Application(folder, program, mariadb)
        mine = application.run(marks)
        count = application.count()
        print(f"{application.name}: {count - len(mine)} of {count} queries are accepted", flush=True)
        counts[application.name] = (count - len(mine), count)
        refused |= mine
        accepted = application.accepted_reads(mine)
        prepared |= run_prepared(application, accepted, marks, check)
        reads += len(accepted)
        if writes:
            write_units(application.path, application.units)
    print(f"queries that are refused: {count_of(refused)}")
    everything = sum(count for _, count in counts.values())
    print(f"queries: {everything - len(refused)} of {everything} are accepted")
    print(f"SELECTs that are accepted: {reads - len(prepared)} of {reads} are prepared statements too")
    return refused | prepared, document.part(counts, refused, prepared, reads)


def main():
    program, work, choices = sys.argv[1], pathlib.Path(sys.argv[2]), sys.argv[3:]
    # so that an end from outside stops the servers too
    signal.signal(signal.SIGTERM, lambda *_: sys.exit(1))
    head, marks = read_marks()
    mariadb = MariaDB(work)
    try:
        queries, told = run_applications(program, mariadb, marks, "--write" in choices)
        if "--queries" in choices:
            steps, step_counts = {key: mark for key, mark in marks.items() if key[0] in PROGRAMS}, {}
        else:
            steps, step_counts = run_frameworks(program, mariadb, marks, check)
    finally:
        mariadb.stop()
    if "--write" in choices:
        write_marks(head, queries | steps)
        document.write(told, step_counts)
    if step_counts:
        step_count = sum(count for _, count in step_counts.values())
        print(f"steps that are refused: {count_of(steps)}")
        print(f"steps of frameworks: {step_count - len(steps)} of {step_count} are as MariaDB's server has them")
    sys.exit(ended("applications"))


main()

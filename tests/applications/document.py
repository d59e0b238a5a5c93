"""Writes what was run into docs/CLIENTS.md: the part on queries of applications, and how many steps of each framework are answered."""

import pathlib
import re
from collections import Counter

DOCUMENT = pathlib.Path(__file__).resolve().parents[2] / "docs" / "CLIENTS.md"
BEGIN, END = "<!-- tests/applications.sh begins -->\n", "<!-- tests/applications.sh ends -->\n"
# what each reason of `refused` is in the document
REASONS = {
    "alias": "`AS` and bare aliases",
    "arithmetic": "`SET n = n + 1`",
    "boolean": "a column or `TRUE` as a condition",
    "count": "`COUNT(1)`",
    "countdistinct": "`COUNT(DISTINCT ..)`",
    "distinct": "`SELECT DISTINCT`",
    "function": "`COALESCE`, `UNIX_TIMESTAMP`",
    "having": "`HAVING`",
    "hexadecimal": "`x'00'`",
    "join": "joins by two columns, of three tables, to the outside, of groups, or over both keyspaces",
    "like": "`LIKE`",
    "limit": "`DELETE .. LIMIT`",
    "literal": "`SELECT 1 FROM t`",
    "lock": "`FOR UPDATE`",
    "modifier": "`SQL_CALC_FOUND_ROWS`",
    "name": "`count(*)`, whose column comes back as `COUNT(*)`",
    "order": "`ORDER BY` an aggregate, or its alias",
    "quoted": "a number in quotes",
    "set": "`INSERT .. SET`",
    "shards": "a write over several shards",
    "star": "`t.*` beside other columns",
    "subquery": "a SELECT inside",
    "upsert": "`ON DUPLICATE KEY UPDATE`, `REPLACE`, `INSERT IGNORE`",
    "value": "`INSERT INTO t VALUE (..)` without columns",
}
# how the table of clients begins the row of each framework
ROWS = {
    "Django": "Django",
    "SQLAlchemy": "SQLAlchemy, its core",
    "SQLAlchemy's_mapper": "SQLAlchemy, its mapper",
    "peewee": "peewee",
    "Laravel": "Laravel's database (illuminate)",
    "Doctrine": "Doctrine DBAL, pdo_mysql",
    "Doctrine's_mapper": "Doctrine ORM",
    "ActiveRecord": "ActiveRecord",
    "Sequel": "Sequel",
    "DBIx::Class": "DBIx::Class",
    "sysbench's_scripts": "sysbench",
}


def table(head, rows):
    return ["| " + " | ".join(head) + " |", "|" + "---|" * len(head), *("| " + " | ".join(map(str, row)) + " |" for row in rows), ""]


def part(counts, refused, prepared, reads):
    """counts: how many queries of each application are accepted, and of how many. prepared: those of so many SELECTs that are refused at PREPARE."""
    accepted, everything = (sum(it[place] for it in counts.values()) for place in (0, 1))
    yield "## Queries of applications"
    yield ""
    yield "`tests/applications` has the ordinary queries of eight applications, written from their public schemas, over tables that are sharded by what"
    yield f"each asks for most. The router accepts {accepted} of {everything}, and answers each of these as MariaDB's server does: the rows, the counts, the"
    yield "names of columns. BEGIN and COMMIT aren't counted."
    yield ""
    yield from table(("Application", "Accepted", "Of"), [(name, *it) for name, it in counts.items()])
    yield "What is refused, and how often. `tests/applications/refused` has each query with its reason."
    yield ""
    reasons = Counter(reason for _, reason in refused.values())
    yield from table(("Reason", "Queries"), [(REASONS.get(reason, reason), count) for reason, count in reasons.most_common()])
    yield f"Of {reads} SELECTs that are accepted, and stand alone, {reads - len(prepared)} are answered in the same way as prepared statements. The others are"
    yield "refused at PREPARE (1064): they say in other words what the grammar can say, as `BETWEEN`." if prepared else "refused."


def write(lines, steps):
    """Puts the part between its marks, and so many steps into the rows of frameworks."""
    text = DOCUMENT.read_text()
    text = text.split(BEGIN)[0] + BEGIN + "\n".join([*lines, END]) + text.split(END)[1]
    for name, (count, everything) in steps.items():
        row = re.compile(rf"^(\| {re.escape(ROWS[name])} \|(?:[^|]*\|){{2}} )\d+ of \d+", re.M)
        text = row.sub(rf"\g<1>{count} of {everything}", text)
    DOCUMENT.write_text(text)

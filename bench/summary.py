"""Writes the summary at the top of docs/PERFORMANCE.md from the tables of the page itself, so that it says what they say.

Usage: bench/summary.py [--check] [DOCUMENT]   (--check: ends with 1 if the summary isn't that of the page)

Each script that writes a part of the page ends by calling this. A line whose tables aren't there is left out.
"""

import pathlib
import re
import sys

PAGE = pathlib.Path(__file__).resolve().parent.parent / "docs/PERFORMANCE.md"
BEGIN, END = "<!-- bench/summary.py begins -->\n", "<!-- bench/summary.py ends -->\n"
HEAD = "\n## In short\n\n"
# The page's headings of what MariaDB's server was asked too, and what a summary calls each.
KINDS = {
    "Point": "a query by key",
    "Insert": "an INSERT",
    "Update": "an UPDATE",
    "Scatter": "a query of all shards",
    "Mix": "a mix of these",
    "Transaction": "a transaction",
    "First": "the first 10 rows",
    "Among": "two rows by IN",
}

# The kinds of its dearest statements, likewise.
DEAREST = {
    "IN": "4,095 rows by IN",
    "scatter": "all rows",
    "ORDER BY": "all rows in an order",
    "aggregates": "aggregates of all rows",
    "GROUP BY the key": "100,000 groups by the key",
    "GROUP BY": "100,000 groups",
    "INSERT": "an INSERT of 1,365 rows",
    "UPDATE": "an UPDATE of 4,094 rows",
}


def sections(text):
    """Returns the tables below each heading, each a list of rows by the names of the columns."""
    found, current, head = {}, [], None
    for line in text.split("\n"):
        if line.startswith("#"):
            current = found.setdefault(line.lstrip("# "), [])
            head = None
        elif not line.startswith("|"):
            head = None
        elif head is None:
            head = named_apart(cells(line))
            current.append([])
        elif not set(line) <= set("|-"):
            current[-1].append(dict(zip(head, cells(line))))
    return found


def cells(line):
    return [it.strip() for it in line.strip().strip("|").split(" | ")]


def named_apart(names):
    """Returns the names of columns, where one that was there already gets a number."""
    return [it if it not in names[:at] else f"{it} {names[:at].count(it) + 1}" for at, it in enumerate(names)]


def numbers(rows, column):
    return [float(it[column]) for it in rows if re.fullmatch(r"[\d.]+", it.get(column, ""))]


def shown(value):
    return f"{value:.0f}" if value >= 10 else f"{value:.1f}" if value >= 1 else f"{value:.2f}"


def span(values):
    low, high = shown(min(values)), shown(max(values))
    return low if low == high else f"{low} to {high}"


def against_mariadb(page):
    """Returns the ratios to MariaDB's server of each kind of statement and of each join."""
    found = {}
    for kind, words in KINDS.items():
        for rows in page.get(kind, []):
            found[words] = numbers(rows, "router : MariaDB")
    for row in page.get("The dearest statement of each kind", [[]])[0]:
        if row["kind"] in DEAREST and "ratio" in row:
            found[DEAREST[row["kind"]]] = numbers([row], "ratio")
    joins = {row["join"]: numbers([row], "ratio") for rows in page.get("Joins", [])[:1] for row in rows}
    found["a join"] = [it for values in joins.values() for it in values if it >= 1]
    found |= {f"the join of {name}": values for name, values in joins.items() if values and values[0] < 1}
    return {name: values for name, values in found.items() if values}


def faster(page):
    kinds = {name: it for name, it in against_mariadb(page).items() if min(it) >= 1}
    if kinds:
        said = ", ".join(f"{name} {span(it)}" for name, it in kinds.items())
        yield f"Faster than MariaDB's server on the same machine, which keeps its rows on a disk: {said} times as fast."


def slower(page):
    kinds = {name: it for name, it in against_mariadb(page).items() if min(it) < 1}
    if kinds:
        said = ", ".join(f"{name} {span(it)}" for name, it in kinds.items())
        given_up = [float(it["conflicts"].rstrip(" %")) for rows in page.get("Transaction", []) for it in rows if "conflicts" in it]
        conflicts = f" Up to {max(given_up):.0f} % of the transactions on one table conflict and have to be tried again." if given_up else ""
        yield f"Slower than it, at least at some number of connections: {said} times as fast.{conflicts}"


def sessions(page):
    for rows in page.get("Sessions", []):
        times = {(it["sessions"], it["where"]): it["ratio"] for it in rows}
        apart, together = (times.get(("4", where)) for where in ("a shard each", "all on one shard"))
        if apart and together:
            yield f"Four sessions that insert at the same time have {apart} times the rate of one if each has a shard of its own, and {together} times on one shard."


def longest_of(row):
    return f"{float(row['longest wait, ms']):.0f} ms ({row['scene']}; {row['statement']})"


def splits(page):
    said, tables = [], page.get("Splits", [])
    for rows in tables:
        if rows and "copied a second" in rows[0]:
            said.append(f"{int(numbers(rows, 'copied a second')[-1]):,} rows are copied a second")
        if rows and "copies begun" in rows[0]:
            worst = min(rows, key=lambda it: float(it["ratio"]))
            said.append(f"during a copy `{worst['statements']}` keeps {float(worst['ratio']):.2f} of its rate")
        if rows and "longest wait, ms" in rows[0]:
            said.append(f"while a shard changes hands a write waits up to {max(numbers(rows, 'longest wait, ms')):.1f} ms, and `switch` takes up to {max(numbers(rows, '`switch`, ms')):.0f} ms")
    if said:
        yield f"In a split {'; '.join(said)}."
    for rows in page.get("Waits in splits", []):
        stopped, others = ([it for it in rows if ("admin client" in it["scene"]) == is_stopped] for is_stopped in (True, False))
        worst = [max(its, key=lambda it: float(it["longest wait, ms"])) for its in (others, stopped) if its]
        yield f"In scenes that could make a client wait for a split it waits up to {' and '.join(longest_of(it) for it in worst)}."


def reports(page):
    for rows in page.get("Statements beside others", []):
        if rows and "report beside it" in rows[0]:
            keep = [span(numbers([it for it in rows if it["server"] == name and it["report beside it"] != "alone"], "of alone")) for name in ("router", "MariaDB")]
            yield f"While a client asks for reports of all rows over and over, statements by key keep {keep[0]} of their rate (MariaDB's {keep[1]})."


def memory(page):
    for rows in page.get("The dearest statement of each kind", [])[:1]:
        each = [it for it in rows if re.fullmatch(r"\d+", it["bytes a row beyond the reply"])]
        most, slowest = max(each, key=lambda it: int(it["bytes a row beyond the reply"])), max(rows, key=lambda it: float(it["milliseconds"]))
        yield (
            f"The router holds up to {int(most['bytes a row beyond the reply']):,} bytes for each row that a statement reads or changes ({most['kind']}). "
            f"The slowest statement of all over 100,000 rows takes {float(slowest['milliseconds']):.0f} ms ({slowest['kind']})."
        )


def summary(text):
    page = sections(text)
    lines = [line for part in (faster, slower, sessions, reports, splits, memory) for line in part(page)]
    return BEGIN + HEAD.lstrip("\n") + "".join(f"- {it}\n" for it in lines) + END + "\n" if lines else ""


def with_summary(text):
    """Returns the page with its summary, before the first part."""
    text = re.sub(re.escape(BEGIN) + ".*?" + re.escape(END) + "\n?", "", text, flags=re.S)
    at = text.find("\n## ") + 1
    return text[:at] + summary(text) + text[at:]


def write(document):
    document.write_text(with_summary(document.read_text()))


def main():
    words = [it for it in sys.argv[1:] if it != "--check"]
    document = pathlib.Path(words[0]) if words else PAGE
    if "--check" in sys.argv:
        return int(document.read_text() != with_summary(document.read_text()))
    write(document)
    return 0


if __name__ == "__main__":
    sys.exit(main())

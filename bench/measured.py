"""What bench/measure.sh measures: the tables, their rows, and the statements of each kind."""

from collections import namedtuple

NUMBER = {"type": "BIGINT UNSIGNED"}
SCHEMA = {
    "keyspaces": {
        "shop": {
            "sharded": True,
            "vindexes": {"rev": {"type": "reverse_bits"}, "md5": {"type": "binary_md5"}},
            "tables": {
                "t": {
                    "columns": [{"name": name, **NUMBER} for name in ("id", "c", "few", "many")],
                    "primary_key": ["id"],
                    "column_vindexes": [{"column": "id", "name": "rev"}],
                },
                "m": {
                    "columns": [{"name": "k", "type": "VARBINARY(8)"}, {"name": "v", "type": "VARBINARY(255)"}],
                    "primary_key": ["k"],
                    "column_vindexes": [{"column": "k", "name": "md5"}],
                },
            },
        }
    }
}

# How many rows one INSERT has at most: with four literals each, 4,000 of a statement's 4,096.
BATCH = 1000

# How many groups the query of many groups has, if there are as many rows.
GROUPS = 10_000

# A kind of statement: its name, a function from the number of a round to its statements, and the statements that undo a round, if one has to be undone.
Kind = namedtuple("Kind", "name texts undo", defaults=[()])


def again(name, *texts, times=1):
    """A kind whose statements are the same in each round."""
    return Kind(name, lambda _: list(texts) * times)


def names_of(shards):
    """The names of so many ranges of one width, a power of 2 up to 256, with commas between them."""
    edges = [f"{256 // shards * place:02x}" for place in range(1, shards)]
    return ",".join(begin + "-" + end for begin, end in zip([""] + edges, edges + [""]))


def row(shards, shard, number):
    """The row of a shard with this number. The remainder of an id decides its shard, and c is scattered."""
    it = number * shards + shard
    return f"({it}, {it * 2_654_435_761 % 1_000_003}, {number % 10}, {number % GROUPS})"


def load(shards, rows):
    """INSERTs that put so many rows into each shard."""
    for shard in range(shards):
        for first in range(0, rows, BATCH):
            numbers = range(first, min(first + BATCH, rows))
            yield "INSERT INTO t VALUES " + ", ".join(row(shards, shard, number) for number in numbers)


def points(rows, count, shards=1, shard=0):
    """Queries by key, which jump about in the rows of a shard, or of all."""
    return [f"SELECT c FROM t WHERE id = {it * 7919 % rows * shards + shard}" for it in range(count)]


def short(rows):
    """What is asked of one row a shard, of so many in all."""
    return again("point", *points(rows, 1000)), again("scatter", "SELECT id FROM t WHERE c = 0", times=1000)


def queries(each, rows):
    """What is asked of so many rows on each shard, and so many in all."""
    return (
        again("point", *points(rows, 2000)),
        again("scatter", "SELECT id FROM t WHERE c = 0", times=5),
        again("ordered", "SELECT id FROM t ORDER BY c LIMIT 10", times=5),
        again("10 groups", "SELECT few, COUNT(*), SUM(c) FROM t GROUP BY few", times=2),
        again(f"{min(each, GROUPS):,} groups", "SELECT many, COUNT(*), SUM(c) FROM t GROUP BY many"),
    )


def updates(rows, count):
    """A function from the number of a round to UPDATEs by key, each of which changes its row."""
    return lambda number: [f"UPDATE t SET c = {2_000_000 + number * count + it} WHERE id = {it * 7919 % rows}" for it in range(count)]


def by_key(rows, count=2000):
    """What is asked of a shard of few rows and of one of many. Rows that are inserted are deleted again."""
    new = range(rows, rows + count // 4)
    return (
        again("point", *points(rows, count)),
        Kind("update", updates(rows, count)),
        again("LIMIT 1", "SELECT id FROM t LIMIT 1", times=count),
        again("COUNT(*)", "SELECT COUNT(*) FROM t", times=max(2, min(200, 200_000 // rows))),
        Kind("insert", lambda _: [f"INSERT INTO t VALUES {row(1, 0, it)}" for it in new], [f"DELETE FROM t WHERE id = {it}" for it in new]),
    )


def inserts(rows, count, session, shards, shard):
    """Rows that a session of up to four inserts into a shard, beside so many rows, and the statements that delete them."""
    ids = [(rows + it * 4 + session) * shards + shard for it in range(count)]
    values = [f"INSERT INTO t (id, c, few, many) VALUES ({it}, 1, 1, 1)" for it in ids]
    return Kind("INSERTs", lambda _: values, [f"DELETE FROM t WHERE id = {it}" for it in ids])


def selects(rows, count, shards, shard):
    return again("SELECTs", *points(rows, count, shards, shard))


def text(number, size):
    """A text of so many bytes, another one for each number."""
    return "'" + f"{number:05}".ljust(size, "a") + "'"


def texts(most):
    """Statements of 1 KiB and more, up to so many bytes: an INSERT of texts into a table that isn't there, and a SELECT of a column that is one of them."""
    count = 4
    while count * 255 < most:
        insert = "INSERT INTO nowhere VALUES " + ", ".join(f"({text(it, 249)})" for it in range(count))
        select = "SELECT k FROM m WHERE v IN (" + ", ".join(text(it, 251) for it in range(count)) + ")"
        yield insert, select
        count *= 4


def new_columns(count):
    return "INSERT INTO t (c" + "".join(f",c{it}" for it in range(1, count)) + ") VALUES (1)"


def numbers(count):
    return "INSERT INTO nowhere VALUES " + ", ".join(["(1234567, 89)"] * (count // 2))


def items(count):
    return "SELECT c" + ",c" * (count - 1) + " FROM t GROUP BY c" + ",id" * (count - 1)


def members(count):
    return "SELECT k FROM m WHERE k IN (" + ",".join(f"'{it}'" for it in range(count)) + ")"


def costly(size):
    """Of what there is much in a text, whether that is refused, how many of it a shorter and a longer text have, and the function that makes them. A
    statement has at most 4,096 literals."""
    sizes, literals = (size // 4, size), (min(size, 4096) // 4, min(size, 4096))
    return (
        ("distinct columns of an INSERT", True, sizes, new_columns),
        ("numbers of an INSERT", True, literals, numbers),
        ("items of a SELECT and of its GROUP BY", False, sizes, items),
        ("members of IN", False, literals, members),
    )

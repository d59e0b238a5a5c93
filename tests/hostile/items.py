"""Measures what the router holds for statements that name one column half a million times. Called by tests/hostile/items.sh."""

import pathlib
import sys

TOP = pathlib.Path(__file__).resolve().parents[2]
sys.path[:0] = [str(TOP / "bench" / "worst")]

import measure  # noqa: E402

ITEMS = 500_000
# What may be held of each item of the statement, besides the reply: its tree, its column's definition, its place.
BYTES_OF_AN_ITEM = 1000
# What may be held of each byte of the reply: itself as it is encoded, what its client hasn't taken yet, and what a list that grows has to spare.
BYTES_OF_A_BYTE = 2.25


def statements():
    """A name, and the statement."""
    return (
        ("columns", "SELECT " + ",".join(["c"] * ITEMS) + " FROM t"),
        ("columns, in order", "SELECT " + ",".join(["c"] * ITEMS) + " FROM t ORDER BY c"),
        ("aggregates", "SELECT id," + ",".join(["MAX(c)"] * (ITEMS // 4)) + " FROM t GROUP BY id"),
    )


def main():
    failed = False
    for name, text in statements():
        items = text.count(",") + 1
        held = {}
        for rows in (10, 100):
            with measure.Router(sys.argv[1], rows) as router:
                _, reply, most = measure.reply_and_memory(router, text)
            held[rows] = (reply, most)
            print(f"{name}: {items} items over {rows} rows: {most / 2**20:.0f} MB at most, for a reply of {reply / 2**20:.0f} MB", flush=True)
            failed |= most > BYTES_OF_A_BYTE * reply + BYTES_OF_AN_ITEM * items
        more_reply, more_held = (held[100][it] - held[10][it] for it in (0, 1))
        failed |= more_held > BYTES_OF_A_BYTE * more_reply + 2**25
    print("items: more is held than may be" if failed else "items: passed")
    sys.exit(failed)


if __name__ == "__main__":
    main()

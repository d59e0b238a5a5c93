#!/usr/bin/env python3
"""Draws the ratios of docs/PERFORMANCE.md as docs/pictures/ratios.svg, each kind of statement on a line, the slowest first.

Usage: docs/pictures/ratios.py [--check]   (--check: ends with 1 if the picture isn't that of the page)
"""

import html
import math
import pathlib
import sys

HERE = pathlib.Path(__file__).resolve().parent
sys.path[:0] = [str(HERE.parents[1] / "bench"), str(HERE.parents[1] / "bench/split")]

import summary  # noqa: E402
from picture import BLUE, GREY, RED, text  # noqa: E402

PICTURE = HERE / "ratios.svg"
# the whole picture, where its scale begins and ends, and a line's height, in pixels
WIDTH, LEFT, RIGHT, EACH = 880, 350, 770, 20
# the scale, whose ends what is beyond them is drawn at
LEAST, MOST = 0.2, 8
# the kinds that the page's summary doesn't name, or names by the one before
OTHERS = {"Mix": "a mix of queries, writes and scatters", "point": "a query by key, of 100,000 rows", "LIMIT": "the last 10 rows in an order"}


def against_mariadb(page):
    """The ratios to MariaDB's server, of every row that the page has of them."""
    names = {**summary.KINDS, **summary.DEAREST, **OTHERS}
    names["Transaction"] += f", of which up to {max(float(it['conflicts'].rstrip(' %')) for it in page['Transaction'][0]):.0f} % conflict"
    found = {names[kind]: summary.numbers(page[kind][0], "router : MariaDB") for kind in summary.KINDS}
    found |= {names[row["kind"]]: summary.numbers([row], "ratio") for row in page["The dearest statement of each kind"][0]}
    return found | {f"join {row['join'].replace(' rows', '').replace('unsharded, ON', 'on')}": summary.numbers([row], "ratio") for row in page["Joins"][0]}


def against_itself(page):
    """The ratios of the router beside something else to the router alone, and to a server that knows nothing."""
    copying = next(rows for rows in page["Splits"] if "copies begun" in rows[0])
    beside = next(rows for rows in page["Statements beside others"] if "of alone" in rows[0])
    return {
        "to a server that only echoes": [it for kind in summary.KINDS for it in summary.numbers(page[kind][0], "router : echo")],
        "while a split copies rows": summary.numbers(copying, "ratio"),
        "by key, while a client asks for reports": summary.numbers([it for it in beside if it["server"] == "router" and it["report beside it"] != "alone"], "of alone"),
        "by key, with a log at debug": summary.numbers(page["With a log"][0], "ratio 2"),
    }


def at(ratio):
    part = math.log(min(max(ratio, LEAST), MOST) / LEAST) / math.log(MOST / LEAST)
    return LEFT + part * (RIGHT - LEFT)


def bar(low, high, y):
    """A bar from the lowest ratio to the highest, red below 1 and blue above; a single ratio is a short one."""
    left, right = at(low), at(high)
    if right - left < 6:
        left, right = left - 3, right + 3
    parts = [(left, min(right, at(1)), RED), (max(left, at(1)), right, BLUE)] if low < 1 < high else [(left, right, RED if high < 1 else BLUE)]
    return [f'<rect x="{begin:.1f}" y="{y - 9}" width="{end - begin:.1f}" height="10" fill="{colour}"/>' for begin, end, colour in parts]


def panel(top, title, ratios):
    """The lines of a panel, and where it ends."""
    bottom = top + EACH * len(ratios) + 8
    parts = [text(LEFT, top - 24, html.escape(title), "middle", "#000000")]
    for step in (0.25, 0.5, 1, 2, 4, 8):
        colour = GREY if step == 1 else "#dddddd"
        parts += [f'<line x1="{at(step):.0f}" y1="{top - 4}" x2="{at(step):.0f}" y2="{bottom}" stroke="{colour}"/>', text(at(step), top - 8, f"{step:g}", "middle")]
    for line, (name, values) in enumerate(sorted(ratios.items(), key=lambda it: (min(it[1]), it[0]))):
        y = top + EACH * line + 18
        shown = summary.span(values) + (" →" if max(values) > MOST else "")
        parts += [text(LEFT - 10, y, html.escape(name)), *bar(min(values), max(values), y), text(WIDTH - 10, y, shown)]
    return parts, bottom


def svg(page):
    first, end = panel(60, "times as fast as MariaDB's server: right of 1 the router is faster", against_mariadb(page))
    second, bottom = panel(end + 60, "the router's rate, to its rate alone or to an echo", against_itself(page))
    body = "\n".join(first + second)
    return f'<svg xmlns="http://www.w3.org/2000/svg" viewBox="0 0 {WIDTH} {bottom + 20}" font-family="sans-serif" font-size="12">\n<rect width="100%" height="100%" fill="white"/>\n{body}\n</svg>\n'


def main():
    drawn = svg(summary.sections(summary.PAGE.read_text()))
    if "--check" in sys.argv:
        return int(PICTURE.read_text() != drawn)
    PICTURE.write_text(drawn)
    return 0


if __name__ == "__main__":
    sys.exit(main())

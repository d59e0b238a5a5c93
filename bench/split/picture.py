"""Draws what clients feel of a split, as SVG: of each tenth of a second the statements a second and the longest wait, with the lines of the split."""

# of the whole picture and of a panel, in pixels
WIDTH, PANEL, LEFT, TOP, BETWEEN = 880, 150, 90, 80, 50
BLUE, RED, GREY = "#4477aa", "#cc6677", "#666666"


def round_up(number):
    """The next of 1, 2 and 5 times a power of ten."""
    power = 10 ** (len(str(int(number))) - 1) if number >= 1 else 0.01
    return next(it * scale for scale in (power, 10 * power, 100 * power) for it in (1, 2, 5) if it * scale >= number)


def text(x, y, words, anchor="end", colour=GREY):
    return f'<text x="{x:.0f}" y="{y:.0f}" text-anchor="{anchor}" fill="{colour}">{words}</text>'


def panel(top, values, most, colour, title):
    """A panel of bars, one a tenth of a second, with its scale."""
    each = (WIDTH - LEFT - 20) / len(values)
    parts = [text(LEFT, top - 8, title, "start", colour)]
    for part in (0, 0.5, 1):
        y = top + PANEL * (1 - part)
        parts += [f'<line x1="{LEFT}" y1="{y:.0f}" x2="{WIDTH - 20}" y2="{y:.0f}" stroke="#dddddd"/>', text(LEFT - 8, y + 4, f"{most * part:,g}")]
    for at, value in enumerate(values):
        height = PANEL * value / most
        parts.append(f'<rect x="{LEFT + at * each + 1:.1f}" y="{top + PANEL - height:.1f}" width="{each - 2:.1f}" height="{height:.1f}" fill="{colour}"/>')
    return parts


def marks_of(tenths, bottom):
    """A line where something was done, with its words, each a little lower than the one before."""
    each = (WIDTH - LEFT - 20) / len(tenths)
    parts, height = [], 14
    for at, (_, _, _, said) in enumerate(tenths):
        if said:
            x = LEFT + (at + 0.5) * each
            parts += [f'<line x1="{x:.0f}" y1="{height + 4}" x2="{x:.0f}" y2="{bottom}" stroke="{GREY}" stroke-dasharray="3 3"/>', text(x + 4, height, ", ".join(said), "start")]
            height = height % 42 + 14
    return parts


def svg(tenths):
    """The picture of (begin in seconds, statements, longest wait in seconds, lines) of each tenth of a second."""
    second = TOP + PANEL + BETWEEN
    bottom = second + PANEL
    rates, waits = [10 * count for _, count, _, _ in tenths], [1e3 * wait for _, _, wait, _ in tenths]
    parts = panel(TOP, rates, round_up(max(rates)), BLUE, "statements a second") + panel(second, waits, round_up(max(waits)), RED, "longest wait, ms")
    each = (WIDTH - LEFT - 20) / len(tenths)
    parts += [text(LEFT + at * each, bottom + 18, f"{begin:g} s", "middle") for at, (begin, _, _, _) in enumerate(tenths) if round(10 * begin) % 5 == 0]
    body = "\n".join(parts + marks_of(tenths, bottom))
    return f'<svg xmlns="http://www.w3.org/2000/svg" viewBox="0 0 {WIDTH} {bottom + 30}" font-family="sans-serif" font-size="12">\n<rect width="100%" height="100%" fill="white"/>\n{body}\n</svg>\n'

"""What the programs of Python share: the words of the call, and how a step is shown."""

import sys

PORT, USER, PASSWORD, DATABASE = int(sys.argv[1]), *sys.argv[2:5]


def text(value):
    """A value as it is shown: a column of bytes is a text here."""
    return value.decode() if isinstance(value, bytes) else "NULL" if value is None else str(value)


def number_of(error):
    """The number of the refusal that an error has inside of it, or the error's name."""
    while error is not None:
        for it in (getattr(error, "orig", None), error):
            if it is not None and it.args and isinstance(it.args[0], int):
                return it.args[0]
        error = error.__cause__ or error.__context__
    return "unknown"


def step(name, action, after=lambda: None):
    """Runs an action, and prints what it returns, values joined by |."""
    try:
        shown = action()
        print(f"{name}: {'ok' if shown is None else '|'.join(map(text, shown))}", flush=True)
    except Exception as error:
        number = number_of(error)
        print(f"{name}: ERROR {number if number != 'unknown' else type(error).__name__ + ' ' + str(error)[:200]}", flush=True)
        after()

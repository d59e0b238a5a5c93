"""What the programs of tests share that compare things, and count how many were as they are to be.

A case is a function that is marked by `@case` and is given the program. It calls `check` for each thing that it shows.
"""

import traceback

cases = []
passed, failed = 0, 0


def case(function):
    cases.append(function)
    return function


def check(name, got, wanted=True):
    global passed, failed
    if got == wanted:
        passed += 1
        return
    failed += 1
    print(f"{name}:\n  wanted {wanted}\n  got    {got}", flush=True)


def attempt(test, *arguments, name=None):
    """Runs a test; one that stops in the middle has failed."""
    try:
        test(*arguments)
    except Exception:
        check(name or test.__name__, traceback.format_exc(), "no exception")


def run_cases(program, names=(), tells=False):
    """Runs the cases one after the other, or those of these names; `tells`: prints the name of each before."""
    for each in cases:
        if not names or each.__name__ in names:
            if tells:
                print(each.__name__, flush=True)
            attempt(each, program)


def ended(what):
    """Prints the last line of a program of tests, and returns its status."""
    print(f"{what}: {passed} passed, {failed} failed")
    return 1 if failed else 0

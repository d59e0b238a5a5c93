"""Hostile prepared statements. Called by tests/hostile/prepared.sh with the program."""

import pathlib
import sys

sys.path.insert(0, str(pathlib.Path(__file__).resolve().parents[1] / "clients"))

from checks import check, ended
from packets import Client, error_of
from router import USER, Router

PREPARE, EXECUTE, LONG, CLOSE, RESET, FETCH = 0x16, 0x17, 0x18, 0x19, 0x1A, 0x1C
SYNTAX = "ERROR 1064 (42000): syntax error"
WRONG = "ERROR 1210 (HY000): wrong arguments"
UNKNOWN = "ERROR 1243 (HY000): unknown prepared statement"
NOT_SUPPORTED = "ERROR 1235 (42000): not supported"
TOO_MANY = "ERROR 1461 (42000): too many statements"
TOO_LARGE = "ERROR 1153 (08S01): packet too large"
# what a connection's texts may take of the process beyond what it takes without them
MOST_HELD = 16 << 20
INT, TEXT = b"\x08\0", b"\xfd\0"


def number(value, size=8):
    return value.to_bytes(size, "little")


class Session:
    def __init__(self, router):
        self.client = Client(router.address)
        self.client.login(USER.encode(), b"", database=b"shop")

    def answer(self, code, data):
        self.client.command(code, data)
        return self.client.read_reply()

    def prepare(self, text):
        """The number of a statement, or a refusal's line."""
        self.client.command(PREPARE, text)
        first = self.client.read()
        if first[0] == 0xFF:
            return error_of(first)
        columns, holes = (int.from_bytes(first[at : at + 2], "little") for at in (5, 7))
        for count in (holes, columns):
            for _ in range(count + 1 if count else 0):
                self.client.read()
        return int.from_bytes(first[1:5], "little")

    def execute(self, statement, values, flags=0, times=1):
        """What EXECUTE answers: `rows N`, `ok` or a refusal's line."""
        payloads = self.answer(EXECUTE, number(statement, 4) + bytes([flags]) + number(times, 4) + values)
        if payloads[0][0] == 0xFF:
            return error_of(payloads[0])
        return "ok" if payloads[0][0] == 0 else f"rows {len(payloads) - 3 - payloads[0][0]}"

    def goes_on(self, name):
        check(f"{name}: the session goes on", self.client.query(b"SELECT COUNT(*) FROM u")[0], b"\1")


def memory(router, which):
    with open(f"/proc/{router.process.pid}/status") as status:
        return next(int(line.split()[1]) * 1024 for line in status if line.startswith(which))


def values_are_read_to_their_end(session):
    """Two holes, a number and a text, in every wrong form."""
    statement = session.prepare(b"SELECT k FROM b WHERE v = ? AND k IN (?)")
    bound = b"\0\1" + TEXT + TEXT
    right = bound + b"\1a\1b"
    check("types that weren't bound before", session.execute(statement, b"\0\0" + b"\1a\1b"), WRONG)
    check("as it should be", session.execute(statement, right), "rows 0")
    check("types of before", session.execute(statement, b"\0\0\1a\1b"), "rows 0")
    for length in range(len(right)):
        check(f"cut after {length} bytes", session.execute(statement, right[:length]), WRONG)
    for name, values in (
        ("bytes left over", right + b"\0"),
        ("a length of 2^64-1", bound + b"\xfe" + b"\xff" * 8 + b"a\1b"),
        ("a length of 2^24-1", bound + b"\xfd" + b"\xff" * 3 + b"a\1b"),
        ("a length that wraps round", bound + b"\xfe" + number((1 << 64) - 5) + b"a\1b"),
        ("a length that is NULL", bound + b"\xfba\1b"),
        ("a length of no form", bound + b"\xff" + b"a\1b"),
    ):
        check(name, session.execute(statement, values), WRONG)
    check("a NULL by the bitmap with its value", session.execute(statement, b"\1\1" + TEXT + TEXT + b"\1a\1b"), WRONG)
    check("NULLs beyond the holes", session.execute(statement, b"\xff\1" + TEXT + TEXT), "rows 0")
    session.goes_on("wrong values")


def types_are_known(session):
    statement = session.prepare(b"SELECT c FROM t WHERE id = ?")
    check("a BIGINT", session.execute(statement, b"\0\1" + INT + number(4)), "rows 0")
    for kind in (0x07, 0x0A, 0x0B, 0x0C, 0x0D, 0xFF, 0xF5, 0x42):
        answer = session.execute(statement, b"\0\1" + bytes([kind, 0]) + number(4))
        check(f"a value of the type {kind:#x}", answer in (NOT_SUPPORTED, WRONG), True)
    check("a DOUBLE that is no number", session.execute(statement, b"\0\1\x05\0" + b"\0\0\0\0\0\0\xf8\x7f"), NOT_SUPPORTED)
    check("a DOUBLE that is infinite", session.execute(statement, b"\0\1\x05\0" + b"\0\0\0\0\0\0\xf0\x7f"), NOT_SUPPORTED)
    check("a DOUBLE of 0.5", session.execute(statement, b"\0\1\x05\0" + b"\0\0\0\0\0\0\xe0\x3f"), NOT_SUPPORTED)
    for kind in (0x00, 0xF6):
        for spelled in (b"4", b"+4.", b"-0.000", b"0004.00"):
            check(f"a DECIMAL {spelled}", session.execute(statement, b"\0\1" + bytes([kind, 0, len(spelled)]) + spelled), "rows 0")
        for spelled in (b"1e3", b"1.5", b"--1", b"", b".", b".0", b"1.0.0", b" 1", b"18446744073709551616", b"9" * 200):
            check(f"a DECIMAL {spelled[:20]}", session.execute(statement, b"\0\1" + bytes([kind, 0, len(spelled)]) + spelled), NOT_SUPPORTED)
    check("a cursor", session.execute(statement, b"\0\1" + INT + number(4), flags=1), NOT_SUPPORTED)
    session.client.command(FETCH, number(statement, 4) + number(1, 4))
    check("FETCH", error_of(session.client.read()) in (NOT_SUPPORTED, UNKNOWN), True)
    session.goes_on("types")


def numbers_are_of_the_connection(session, other):
    statement = session.prepare(b"SELECT c FROM t WHERE id = 4")
    for wrong in (0, statement + 1, statement + 1000, (1 << 32) - 1):
        check(f"the statement {wrong}", session.execute(wrong, b""), UNKNOWN)
        session.client.command(RESET, number(wrong, 4))
        check(f"RESET of {wrong}", error_of(session.client.read()), UNKNOWN)
        session.client.command(CLOSE, number(wrong, 4))
        session.client.command(LONG, number(wrong, 4) + b"\0\0x")
    check("of another connection", other.execute(statement, b""), UNKNOWN)
    session.client.command(CLOSE, number(statement, 4))
    check("once it is closed", session.execute(statement, b""), UNKNOWN)
    for code in (EXECUTE, RESET):
        for length in range(4):
            session.client.command(code, b"\1" * length)
            check(f"the command {code:#x} with {length} bytes", error_of(session.client.read()) in (WRONG, UNKNOWN), True)
    session.goes_on("numbers")


def holes_are_counted(session):
    check("4,096 holes", isinstance(session.prepare(b"SELECT id FROM t WHERE id IN (" + b"?," * 4095 + b"?)"), int))
    check("4,097 holes", session.prepare(b"SELECT id FROM t WHERE id IN (" + b"?," * 4096 + b"?)"), SYNTAX)
    check("65,535 holes", session.prepare(b"SELECT id FROM t WHERE id IN (" + b"?," * 65534 + b"?)"), SYNTAX)
    for text in (b"", b"?", b"SELECT ? FROM t", b"SELECT id FROM ?", b"SELECT id FROM t WHERE ? = id ORDER BY ?", b"SELECT id FROM t; SELECT id FROM t",
                 b"SELECT id FROM t WHERE id = '?", b"SELECT id FROM t WHERE id = ? ?", b"INSERT INTO t (?) VALUES (1)"):  # fmt: skip
        check(f"PREPARE {text}", session.prepare(text), SYNTAX)
    session.goes_on("holes")


def statements_are_counted(router):
    session = Session(router)
    answers = [session.prepare(b"SELECT id FROM t WHERE id = ?") for _ in range(1024)]
    check("1,024 statements", sum(isinstance(it, int) for it in answers), 1024)
    check("one more", session.prepare(b"SELECT id FROM t WHERE id = ?"), TOO_MANY)
    session.client.command(CLOSE, number(answers[500], 4))
    anew = session.prepare(b"SELECT id FROM t WHERE id = ?")
    check("one in the place of one that was closed, with a number of its own", isinstance(anew, int) and anew not in answers)
    session.client.command(0x1F)
    check("COM_RESET_CONNECTION", session.client.read()[0], 0)
    check("gives them all up", session.execute(answers[0], b""), UNKNOWN)


def texts_are_bounded(router):
    """As many texts of a megabyte as one connection is given room for."""
    session = Session(router)
    before = memory(router, "VmRSS:")
    text = b"INSERT INTO b VALUES (?, '" + b"x" * 1040000 + b"')"
    held = 0
    for _ in range(1024):
        if not isinstance(session.prepare(text), int):
            break
        held += 1
        if memory(router, "VmRSS:") - before > 8 * MOST_HELD:
            break
    grown = memory(router, "VmRSS:") - before
    print(f"  {held} texts of a megabyte are held in {grown >> 20} MB", flush=True)
    check("what a connection's texts take", grown <= MOST_HELD)
    session.goes_on("long texts")


def long_data_is_bounded(router):
    """Pieces of long data without an end, for a value that is never executed."""
    session = Session(router)
    before = memory(router, "VmRSS:")
    statement = session.prepare(b"SELECT k FROM b WHERE v = ?")
    for _ in range(256):
        session.client.command(LONG, number(statement, 4) + b"\0\0" + b"x" * 1000000)
    session.goes_on("long data")
    grown = memory(router, "VmHWM:") - before
    print(f"  256 MB of long data were held in {grown >> 20} MB", flush=True)
    check("what long data takes", grown <= MOST_HELD)
    check("and is refused at EXECUTE", session.execute(statement, b"\0\1" + TEXT), TOO_LARGE)
    check("once", session.execute(statement, b"\0\1" + TEXT + b"\1a"), "rows 0")
    other = session.prepare(b"SELECT k FROM b WHERE v = ?")
    session.client.command(LONG, number(statement, 4) + b"\0\0" + b"x" * 600000)
    session.client.command(LONG, number(other, 4) + b"\0\0" + b"x" * 600000)
    check("the limit is that of the connection", session.execute(other, b"\0\1" + TEXT), TOO_LARGE)
    check("what was there before is taken", session.execute(statement, b"\0\1" + TEXT), "rows 0")
    session.client.command(LONG, number(other, 4) + b"\1\0a")
    check("a hole that isn't there", session.execute(other, b"\0\1" + TEXT), WRONG)
    session.client.command(LONG, number(other, 4) + b"\1\0a")
    session.client.command(RESET, number(other, 4))
    check("RESET", session.client.read()[0], 0)
    check("gives it up", session.execute(other, b"\0\1" + TEXT + b"\1a"), "rows 0")
    session.goes_on("long data, again")


def main():
    with Router(sys.argv[1]) as router:
        session, other = Session(router), Session(router)
        values_are_read_to_their_end(session)
        types_are_known(session)
        numbers_are_of_the_connection(session, other)
        holes_are_counted(session)
        statements_are_counted(router)
        texts_are_bounded(router)
        long_data_is_bounded(router)
    return ended("prepared")


if __name__ == "__main__":
    sys.exit(main())

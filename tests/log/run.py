"""Makes each event of a server happen, and compares the lines that it logs. Called by tests/log.sh with the program; further words are the names of cases to run alone."""

import json
import os
import pathlib
import re
import resource
import socket
import struct
import subprocess
import sys
import tempfile
import threading
import time

sys.path.insert(0, str(pathlib.Path(__file__).resolve().parents[1] / "clients"))

from checks import case, check, ended, run_cases
from packets import DEPRECATE_EOF, INIT_DB, PING, PLAIN, QUERY, QUIT, Client
from router import SCHEMA, SHARDS, USER, free_ports

TIME = r"\d{4}-\d\d-\d\dT\d\d:\d\d:\d\d\.\d{3}Z"
WORD = r'(?:"(?:[ !#-\[\]-~]|\\["\\]|\\u00[0-9a-f]{2})*"|[!#-<>-\[\]-~]+)'
LINE = re.compile(rf"({TIME}) (error|warn|info|debug) ({WORD})((?: {WORD}={WORD})*)\n")
FIELD = re.compile(rf" ({WORD})=({WORD})")


def plain(word):
    """What a word says."""
    if not word.startswith('"'):
        return word
    return re.sub(r'\\(?:u00([0-9a-f]{2})|(.))', lambda found: chr(int(found[1], 16)) if found[1] else found[2], word[1:-1])


def told(text):
    """The lines of a log, as pairs of a level with its event, and fields."""
    lines = []
    for line in text.splitlines(keepends=True):
        found = LINE.fullmatch(line)
        if not found:
            raise AssertionError(f"no line of the log: {line!r}")
        fields = {plain(key): plain(value) for key, value in FIELD.findall(found[4])}
        lines.append((f"{found[2]} {plain(found[3])}", fields))
    return lines


def of(lines, event):
    return [fields for name, fields in lines if name == event]


def in_order(lines):
    """The lines of connections, by their numbers."""
    return sorted(of(lines, "info connection"), key=lambda fields: int(fields["number"]))


class Served:
    """`vtgate serve` with a log; `lines` are those that it wrote once it has ended."""

    def __init__(self, program, level, workers=2, connections=0, shards=SHARDS, schema=SCHEMA, port=None, limits=None):
        self.port, self.admin_port = free_ports(2)
        self.port = port or self.port
        words = ["serve", shards, f"127.0.0.1:{self.port}", f"127.0.0.1:{self.admin_port}", str(workers), "8", str(connections), USER, "-", "a nonce"]
        environment = {name: value for name, value in os.environ.items() if name != "VTGATE_LOG"}
        if level is not None:
            environment["VTGATE_LOG"] = level
        self.process = subprocess.Popen([program, *words], stdin=open(schema), stdout=subprocess.PIPE, stderr=subprocess.PIPE, env=environment, text=True, preexec_fn=limits)
        self.said = self.process.stdout.readline()

    address = property(lambda self: ("127.0.0.1", self.port))

    def end(self, seconds=20):
        """What it has written to standard error, and its status."""
        try:
            _, errors = self.process.communicate(timeout=seconds)
        except subprocess.TimeoutExpired:
            self.process.terminate()
            _, errors = self.process.communicate(timeout=seconds)
        return errors, self.process.returncode

    def admin(self, *lines):
        with socket.create_connection(("127.0.0.1", self.admin_port), 10) as connection, connection.makefile("rw") as stream:
            answers = []
            for line in lines:
                stream.write(line + "\n")
                stream.flush()
                answers.append(stream.readline().rstrip("\n"))
            return answers


def talk(server, user):
    """A client that logs in, and leaves where it is let in."""
    with Client(server.address) as client:
        if client.login(user.encode(), b"")[:1] == b"\0":
            client.command(QUIT)


@case
def connections(program):
    """One that leaves, one that is denied, one whose name is no word, one that breaks off."""
    server = Served(program, "info", connections=4)
    check("it listens", server.said, "listening\n")
    forged = 'x\n2026-01-01T00:00:00.000Z info end by="connections'
    for user in (USER, "someone", forged):
        talk(server, user)
    with Client(server.address) as client:
        client.greeting()
    errors, status = server.end()
    lines = told(errors)
    check("status", status, 0)
    check("it starts", [fields["workers"] for fields in of(lines, "info start")], ["2"])
    check("the limits", [(fields["rows"], fields["entries"], fields["tables"]) for fields in of(lines, "info start")], [("1048576", "1048576", "4")])
    ended = of(lines, "info connection")
    check("the numbers", sorted(fields["number"] for fields in ended), ["1", "2", "3", "4"])
    ends = {fields["number"]: (fields["end"], fields["denied"], fields["refused"], fields["user"]) for fields in ended}
    check("the first leaves", ends.get("1"), ("quit", "0", "none", USER))
    check("the second is denied", ends.get("2"), ("denied", "1045", "F7:1", "someone"))
    check("the third too", ends.get("3"), ("denied", "1045", "F7:1", forged))
    check("the fourth leaves early", ends.get("4"), ("truncated", "0", "none", ""))
    check("it ends", of(lines, "info end"), [{"by": "connections", "connections": "4"}])


@case
def statements(program):
    """Statements in pieces and at once, refusals of one code, a large one, and what is no statement; then one client that resets its connection."""
    server = Served(program, "info", connections=2)
    with Client(server.address) as client:
        check("it is let in", client.login(USER.encode(), b"", database=b"shop")[:1], b"\0")
        client.query(b"INSERT INTO t (id, c) VALUES (1, 2)")
        for text in (b"INSERT INTO t (id, c) VALUES (1, 3)", b"SELECT * FROM nothing", b"UPDATE t SET c = 1", b"SELEC"):
            check(f"{text} is refused", client.query(text)[0][:1], b"\xff")
        client.query(b"SELECT id FROM t WHERE id = 1 AND c < " + b"1" * 18 + b" " * 200000)
        text = bytes([QUERY]) + b"SELECT c FROM t WHERE id = 1"
        packet = len(text).to_bytes(3, "little") + b"\0" + text
        for byte in packet:
            client.socket.sendall(bytes([byte]))
        client.read_reply()
        client.socket.sendall(packet * 3 + b"\1\0\0\0" + bytes([PING]) + b"\5\0\0\0" + bytes([INIT_DB]) + b"base")
        for _ in range(3):
            client.read_reply()
        client.read(), client.read()
        client.command(QUIT)
    with Client(server.address) as client:
        client.login(USER.encode(), b"")
        client.socket.setsockopt(socket.SOL_SOCKET, socket.SO_LINGER, struct.pack("ii", 1, 0))
        port = client.socket.getsockname()[1]
    ended = in_order(told(server.end()[0]))
    check("what they were", [(fields["user"], fields["database"], fields["end"]) for fields in ended], [(USER, "shop", "quit"), (USER, "", "unread")])
    check("the statements", [(fields["statements"], fields["refused"]) for fields in ended], [("10", "F2:1,F4:1,F12:1,F20:1"), ("0", "none")])
    check("the peer of a reset", ended[-1]["peer"], f"127.0.0.1:{port}")


@case
def silence(program):
    """A client that says nothing is cut after ten seconds."""
    server = Served(program, "info", connections=1)
    with socket.create_connection(server.address, 60) as connection:
        while connection.recv(4096):
            pass
    lines = told(server.end()[0])
    ended = of(lines, "info connection")
    check("it was silent", [fields["end"] for fields in ended], ["silent"])
    check("for ten seconds", [9 < float(fields["silent"]) < 15 for fields in ended], [True])


@case
def full_queue(program):
    """More clients than the queue has places, while the one worker is held by a write that waits for a cutover."""
    server = Served(program, "warn", workers=1, shards="-80,80-")
    with Client(server.address) as client:
        client.login(USER.encode(), b"", database=b"shop")
        server.admin("create -80 -40,40-80", "step", "step", "step", "advance")
        client.command(QUERY, b"INSERT INTO t (id, c) VALUES (2, 7)")
        time.sleep(0.5)
        waiting = [socket.create_connection(server.address, 60) for _ in range(70)]
        time.sleep(0.5)
        server.admin("resume")
        check("the write is done", client.read()[:1], b"\0")
        for each in waiting:
            each.close()
    time.sleep(0.5)
    server.process.terminate()
    lines = told(server.end()[0])
    check("it is full once", [fields["waiting"] for fields in of(lines, "warn queue_full")], ["65"])
    check("nothing below warn", {name.split()[0] for name, _ in lines}, {"warn"})


@case
def too_many_connections(program):
    """More clients than there are descriptors: a line once they are refused, and one once there is room."""
    descriptors = 64
    server = Served(program, "info", workers=8, limits=lambda: resource.setrlimit(resource.RLIMIT_NOFILE, (descriptors, descriptors)))
    clients = [socket.create_connection(server.address, 60) for _ in range(descriptors - 32)]
    for _ in range(3):
        with socket.create_connection(server.address, 60) as refused:
            check("it is refused", refused.recv(100)[4:7], b"\xff\x10\x04")
    for each in clients[:8]:
        each.close()
    time.sleep(1)
    talk(server, USER)
    # a signal doesn't wait until the lines are written
    time.sleep(0.5)
    server.process.terminate()
    lines = told(server.end()[0])
    check("it is told once", [fields["connections"] for fields in of(lines, "warn connections_full")], [str(descriptors - 32)])
    check("and that there is room", len(of(lines, "info connections_free")), 1)
    check("the buffer may hold all workers", of(lines, "warn workers_may_wait"), [{"workers": "8", "buffer": "8"}])


@case
def a_split(program):
    """Admin lines with their answers."""
    server = Served(program, "info", shards="-80,80-")
    answers = server.admin("status", "create -80 -40,40-80", "switch", "complete", "nonsense")
    time.sleep(0.2)
    server.process.terminate()
    lines = told(server.end()[0])
    admin = of(lines, "info admin")
    check("the lines", [fields["line"] for fields in admin], ["status", "create -80 -40,40-80", "switch", "complete", "nonsense"])
    check("the answers", [fields["answer"] for fields in admin], answers)
    shards = [(fields["keyspace"], fields["range"], fields["mode"], fields["rows"], fields["entries_left"]) for fields in of(lines, "info shard")]
    check("the shards", shards, [("base", "-", "serving", "0", "1048576"), ("shop", "-80", "serving", "0", "1048576"), ("shop", "80-", "serving", "0", "1048576")])
    check("each has a time", all(re.fullmatch(r"\d+\.\d{3}", fields["seconds"]) for fields in admin))


@case
def a_freeze(program):
    """A source freezes before its targets have copied it, which is told, and one once they are level."""
    server = Served(program, "info", shards="-80,80-")
    answers = server.admin("create -80 -40,40-80", "advance", "cancel", "create -80 -40,40-80", *["step"] * 20, "advance")
    time.sleep(0.2)
    server.process.terminate()
    lines = told(server.end()[0])
    check("all come level", answers[-2:], ["ok level", "ok freeze"])
    check("what was left", of(lines, "warn not_level"), [{"copying": "2", "entries": "0"}])


@case
def a_cutover(program):
    """The times of a cutover while sessions write, in order, and the statements that waited for it."""
    server = Served(program, "info", workers=4, shards="-")
    goes_on = threading.Event()
    goes_on.set()

    def write(first):
        with Client(server.address) as client:
            client.login(USER.encode(), b"", database=b"shop")
            number = first
            while goes_on.is_set():
                client.query(b"INSERT INTO t (id) VALUES (%d)" % number)
                number += 2
            client.command(QUIT)

    writers = [threading.Thread(target=write, args=[first]) for first in (1, 2)]
    for each in writers:
        each.start()
    time.sleep(0.5)
    answers = server.admin("create - -80,80-")
    answers += server.admin("switch", "complete", "switch")
    time.sleep(0.3)
    goes_on.clear()
    for each in writers:
        each.join()
    server.process.terminate()
    lines = told(server.end()[0])
    check("it is cut over once", answers, ["ok", "ok", "ok", "N4"])
    times = of(lines, "info cutover")
    check("it is told once", len(times), 1)
    steps = [float(times[0][name]) for name in ("froze", "retired", "published", "released")]
    check("the steps come in order", steps, sorted(steps))
    took = [float(fields["seconds"]) for fields in of(lines, "info admin") if fields["line"] == "switch"][0]
    check("while the line was answered", 0 <= steps[0] and steps[3] < took + 0.1)
    check("at most two waited", int(times[0]["waited"]) <= 2 and float(times[0]["longest"]) <= steps[3])
    check("none waits at the end", [fields["waiting"] for fields in of(lines, "info admin")][-1], "0")


@case
def each_statement(program):
    """At `debug`, a line for each statement, without its values."""
    server = Served(program, "debug", connections=2)
    texts = {
        b"INSERT INTO t (id, c) VALUES (1, 9876543210), (5, 9876543211)": ("EqualUnique", "80-c0", "2", "none"),
        b"SELECT c FROM t WHERE id = 1": ("EqualUnique", "80-c0", "1", "none"),
        b"SELECT id, c FROM t ORDER BY id": ("Scatter", "-40 40-80 80-c0 c0-", "2", "none"),
        b"INSERT INTO t (id, c) VALUES (1, 9876543212)": ("EqualUnique", "80-c0", "0", "F12"),
        b"INSERT INTO t (id, c) VALUES (1, 7), (2, 8)": ("IN", "40-80 80-c0", "0", "F20"),
        b"INSERT INTO u (n, name) VALUES (1, '987654')": ("Unsharded", "0", "1", "none"),
        b"SELECT nothing FROM t": ("", "", "0", "F5"),
        b"BEGIN": ("None", "", "0", "none"),
        b"SELECT @@version": ("", "", "1", "none"),
        b"SELECT c FROM t WHERE id = 3": ("EqualUnique", "c0-", "0", "none"),
        b"COMMIT": ("None", "", "0", "none"),
    }
    for flags in (0, DEPRECATE_EOF):
        with Client(server.address) as client:
            client.login(USER.encode(), b"", database=b"shop", **({"capabilities": PLAIN | flags} if flags else {}))
            for text in texts:
                client.query(text)
            client.command(PING)
            client.read()
            if not flags:
                client.query(b"DELETE FROM t WHERE id IN (1, 5)")
                client.query(b"DELETE FROM u WHERE n = 1")
                one, two = (bytes([QUERY]) + text for text in list(texts)[1:3])
                client.socket.sendall(b"".join(len(each).to_bytes(3, "little") + b"\0" + each for each in (one, two)))
                client.read_reply(), client.read_reply()
            client.command(QUIT)
    errors = server.end()[0]
    executed = of(told(errors), "debug statement")
    shown = [(fields["route"], fields["shards"], fields["rows"], fields["refused"]) for fields in executed if fields["together"] == "1"]
    first = [fields for fields in executed if fields["connection"] == "1"]
    check("each statement", shown[: len(texts)], list(texts.values()))
    check("each without EOF packets too", shown[-len(texts) :], list(texts.values()))
    check("two at once", [(fields["route"], fields["rows"]) for fields in first if fields["together"] == "2"], [("EqualUnique", "0"), ("Scatter", "0")])
    check("no values", "987654" in errors, False)
    check("times", all(0 < int(fields["micros"]) < 10**7 for fields in executed))


@case
def places(program):
    """The place of each fault of a VSchema."""
    def changed(change):
        schema = json.loads(SCHEMA.read_text())
        change(schema["keyspaces"])
        return json.dumps(schema)

    def set_at(*path):
        def change(keyspaces):
            at = keyspaces
            for name in path[:-2]:
                at = at[name]
            at[path[-2]] = path[-1]
        return changed(change)

    shop, table = "shop", ("shop", "tables", "w")
    texts = [
        ('{"keyspaces":\n {]}', "1", ("", "", "", "2", "4")),
        ("{}", "2", ("", "", "keyspaces", "0", "0")),
        (set_at(shop, "shraded", True), "2", (shop, "", "shraded", "0", "0")),
        (set_at(shop, "sharded", 1), "2", (shop, "", "sharded", "0", "0")),
        (set_at("base", "vindexes", {}), "2", ("base", "", "vindexes", "0", "0")),
        (set_at(shop, "vindexes", "rev", "type", "hash"), "3", (shop, "", "vindexes", "0", "0")),
        (set_at(*table, "colunms", []), "2", (shop, "w", "colunms", "0", "0")),
        (set_at(*table, "columns", 0, "type", "TEXT"), "2", (shop, "w", "columns", "0", "0")),
        (set_at(*table, "primary_key", []), "2", (shop, "w", "primary_key", "0", "0")),
        (set_at(*table, "column_vindexes", [{"column": "id"}]), "2", (shop, "w", "column_vindexes", "0", "0")),
        (set_at(*table, "column_vindexes", 0, "name", "ver"), "3", (shop, "w", "column_vindexes", "0", "0")),
        (set_at(*table, "primary_key", ["id", "e"]), "4", (shop, "w", "primary_key", "0", "0")),
        (set_at(*table, "column_vindexes", 0, "column", "e"), "4", (shop, "w", "column_vindexes", "0", "0")),
        (set_at(*table, "columns", 0, "type", "VARBINARY(8)"), "5", (shop, "w", "column_vindexes", "0", "0")),
        (set_at(*table, "columns", 1, "null", True), "6", (shop, "w", "primary_key", "0", "0")),
        (set_at(*table, "primary_key", ["d"]), "7", (shop, "w", "column_vindexes", "0", "0")),
        (set_at(*table, "columns", 1, "name", "id"), "4", (shop, "w", "primary_key", "0", "0")),
        (set_at("base", "tables", "u", "columns", 1, "name", "n"), "8", ("base", "u", "columns", "0", "0")),
        (changed(lambda keyspaces: keyspaces["base"]["tables"].update(w=keyspaces["base"]["tables"]["u"])), "8", ("", "", "", "0", "0")),
        (changed(lambda keyspaces: keyspaces["base"]["tables"]["u"]["columns"].extend({"name": f"c{n}", "type": "BIGINT"} for n in range(64))), "9", ("base", "u", "columns", "0", "0")),
    ]
    for text, number, place in texts:
        with tempfile.NamedTemporaryFile("w") as schema:
            schema.write(text)
            schema.flush()
            errors, status = Served(program, "error", schema=schema.name).end()
        check(f"the printed line of {text[:60]}", (f"VSchema V{number}\n" in errors, status), (True, 2))
        faults = of(told(errors.replace(f"VSchema V{number}\n", "")), "error vschema")
        check(f"the place in {text}", [(fields["number"], *(fields[name] for name in ("keyspace", "table", "member", "line", "column"))) for fields in faults], [(number, *place)])


@case
def filling(program):
    """A shard with more than 80 % of its rows is logged once, by the minute."""
    server = Served(program, "info", shards="-")
    with Client(server.address) as client:
        client.login(USER.encode(), b"", database=b"shop")
        for first in range(0, 840000, 1000):
            client.query(b"INSERT INTO t (id) VALUES " + b",".join(b"(%d)" % number for number in range(first, first + 1000)))
        time.sleep(125)
        client.command(QUIT)
    server.process.terminate()
    lines = told(server.end()[0])
    filled = [(fields["range"], fields["rows"], fields["rows_left"], fields["entries"]) for fields in of(lines, "warn shard_filling")]
    check("it is told once", filled, [("-", "840000", "208576", "840")])
    check("each minute", len(of(lines, "info shard")) >= 4)


@case
def faults(program):
    """A port that is in use, a faulty VSchema, a level that isn't there; what was printed before stays."""
    with socket.socket() as other:
        other.bind(("127.0.0.1", 0))
        other.listen()
        port = other.getsockname()[1]
        errors, status = Served(program, "error", port=port).end()
    check("status of a port in use", status, 1)
    check("it says so as before", errors.splitlines()[-1:] == ["cannot bind"] or "cannot bind" in errors.splitlines())
    lines = told("".join(line for line in errors.splitlines(keepends=True) if line != "cannot bind\n"))
    check("the port", [(fields["port"], fields["address"]) for fields in of(lines, "error bind")], [("clients", f"127.0.0.1:{port}")])
    check("the system's reason", "os error 98" in of(lines, "error bind")[0]["reason"])
    errors, status = Served(program, "error", schema="/dev/null").end()
    check("a faulty VSchema", (status, "VSchema V1\n" in errors), (2, True))
    check("its number", [fields["number"] for fields in of(told(errors.replace("VSchema V1\n", "")), "error vschema")], ["1"])
    errors, _ = Served(program, "loud", connections=1, schema="/dev/null").end()
    check("an unknown level", of(told(errors.replace("VSchema V1\n", "")), "error unknown_level"), [{"taken": "error"}])


@case
def without(program):
    """Without the variable, and with `off`, nothing more is printed, whatever happens."""
    for level in (None, "", "off", "OFF"):
        server = Served(program, level, connections=3)
        answers = server.admin("status", "create -40 -20,20-40", "switch", "complete", "nonsense")
        talk(server, "someone")
        with Client(server.address) as client:
            client.login(USER.encode(), b"", database=b"shop")
            client.query(b"INSERT INTO t (id, c) VALUES (1, 2)")
            client.query(b"SELEC")
        socket.create_connection(server.address).close()
        printed = (server.said, *server.end())
        check(f"the lines at {level}", answers[1:], ["ok", "ok", "ok", "unknown"])
        check(f"{level}", printed, ("listening\n", "", 0))
    errors, status = Served(program, None, schema="/dev/null").end()
    check("a faulty VSchema without a log", (errors, status), ("VSchema V1\n", 2))
    with socket.socket() as other:
        other.bind(("127.0.0.1", 0))
        other.listen()
        errors, status = Served(program, None, port=other.getsockname()[1]).end()
    check("a port in use without a log", (errors, status), ("cannot bind\n", 1))


def main():
    run_cases(sys.argv[1], sys.argv[2:])
    return ended("log")


if __name__ == "__main__":
    sys.exit(main())

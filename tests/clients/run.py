"""Has real clients speak to the router, and compares what each shows. Called by tests/clients.sh with the program."""

import os
import pathlib
import re
import signal
import subprocess
import sys
import tempfile
import threading
import time

import asks
import checks
import libraries
import packets
import prepared
from checks import check
from libraries import ALSO, BY_DEFAULT, COMMAND_LINE, DBD_MARIADB, DBD_MYSQL, GO, PYMYSQL
from packets import error_of
from router import SCHEMA, SHARDS, TOP, USER, Router, free_ports

PASSWORD = "It's a password"
LIBRARIES = (COMMAND_LINE, PYMYSQL, GO, DBD_MYSQL, DBD_MARIADB)
STATEMENTS = libraries.read_steps(pathlib.Path(__file__).with_name("statements"))
STEPS = libraries.read_steps(pathlib.Path(__file__).with_name("steps"))
DENIED = "ERROR 1045 (28000): access denied"
UNKNOWN = "ERROR 1049 (42000): no such database"
SYNTAX = "ERROR 1064 (42000): syntax error"


def check_all(name, library, statements, outcomes):
    """Compares the outcome of each statement."""
    for place, (line, wanted) in enumerate(statements):
        got = outcomes[place] if place < len(outcomes) else None
        check(f"{name}: {line[:100]}", got, library.shown(wanted))
    check(f"{name}: number of outcomes", len(outcomes), len(statements))


def runs_the_list(program, library, steps, password, database):
    name = f"{library.name} {'with' if password else 'without'} a password"
    mine = [(line, library.wanted(outcomes)) for line, outcomes in steps if library.can(line)]
    with Router(program, password) as router:
        outcomes = library.run(router.port, USER, password, database, [line for line, _ in mine])
    for place, (line, wanted) in enumerate(mine):
        got = outcomes[place] if place < len(outcomes) else None
        check(f"{name}: {line[:100]}", got, wanted)
    check(f"{name}: number of outcomes", len(outcomes), len(mine))


def refused_line(library, outcomes):
    """What a login that fails has to be shown as, with what is shown."""
    text = outcomes[0][0] if outcomes else ""
    return text.replace(" at line 0", "")


def refuses_logins(program, library):
    logins = (
        (PASSWORD, USER, "wrong", "", DENIED),
        (PASSWORD, USER, "", "", DENIED),
        (PASSWORD, "root", PASSWORD, "shop", DENIED),
        (PASSWORD, USER, "wrong", "nowhere", DENIED),
        (PASSWORD, USER, PASSWORD, "nowhere", UNKNOWN),
        ("", USER, PASSWORD, "", DENIED),
        ("", USER, "", "nowhere", UNKNOWN),
    )
    for password in (PASSWORD, ""):
        with Router(program, password) as router:
            for has, user, given, database, wanted in logins:
                if has == password:
                    got = library.run(router.port, user, given, database, ["SELEC"])
                    name = f"{library.name} as {user} with {given or 'no password'} for {database or 'no database'}"
                    check(name, refused_line(library, got), library.shown([wanted])[0])
            got = library.run(router.port, USER, password, "base", ["SELECT n FROM u"])
            check(f"{library.name} after those", got, [["rows 0"]])


def refuses_a_wrong_password(program, library):
    """What a login with a wrong password is shown as; aiomysql tells only that it couldn't connect."""
    wanted = "Can't connect" if library.name == "aiomysql" else "access denied"
    with Router(program, PASSWORD) as router:
        got = library.run(router.port, USER, "wrong", "shop", ["SELEC"])
    check(f"{library.name} with a wrong password", got and wanted in got[0][0] or got, True)


def long_list():
    """Replies and texts that are long: more than 255 packets, values of 255 bytes, and a text of 4,096 literals."""
    rows = ", ".join(f"({number}, '{number:032}')" for number in range(2048))
    many = [f"{number}|'{number:032}'" for number in range(2048)]
    long = "x" * 255
    return [
        (f"INSERT INTO u VALUES {rows}", ["ok 2048"]),
        ("SELECT * FROM u ORDER BY n LIMIT 300", many[:300] + ["rows 300"]),
        ("SELECT n, name FROM u ORDER BY n", many + ["rows 2048"]),
        (f"INSERT INTO u VALUES {rows}, (3000, NULL)", [SYNTAX]),
        (f"INSERT INTO b VALUES ('{long}', '{long}')", ["ok 1"]),
        (f"SELECT k, v FROM b WHERE k = '{long}'", [f"'{long}'|'{long}'", "rows 1"]),
        (f"INSERT INTO b VALUES ('{long}y', NULL)", ["ERROR 1406 (22001): value too long"]),
        ("DELETE FROM u WHERE n >= 1", ["ok 2047"]),
        ("SELECT n FROM u", ["0", "rows 1"]),
    ]


def runs_long_texts(program, library):
    with Router(program) as router:
        outcomes = library.run(router.port, USER, "", "shop", [line for line, _ in long_list()])
    check_all(f"{library.name}, long texts", library, long_list(), outcomes)


def switches_plugins(program):
    """A client that begins with another plugin is asked to switch."""
    for password in (PASSWORD, ""):
        with Router(program, password) as router:
            choice = "--default-auth=caching_sha2_password"
            process = COMMAND_LINE.start(router.port, USER, password, "shop", choice)
            check(f"{choice}, password {password}", COMMAND_LINE.finish(process, ["SELECT id FROM t"]), [["rows 0"]])
            process = COMMAND_LINE.start(router.port, USER, "wrong", "shop", choice)
            got = COMMAND_LINE.finish(process, ["SELECT id FROM t"])
            check(f"{choice}, wrong password", refused_line(COMMAND_LINE, got), DENIED)


def answers_mariadb_admin(program):
    with Router(program, PASSWORD) as router:
        call = ["mariadb-admin", "--no-defaults", "-h", "127.0.0.1", "-P", str(router.port), "-u", USER]
        run = subprocess.run([*call, f"-p{PASSWORD}", "ping"], capture_output=True, text=True)
        check("mariadb-admin ping", (run.returncode, run.stdout), (0, "mysqld is alive\n"))


def shows_what_is_asked(program, not_ready):
    """The last line of what clients ask besides."""
    with Router(program) as router:
        for name, call, wanted in asks.ASKS:
            if name not in not_ready:
                words = [word.replace("%PORT%", str(router.port)) for word in call]
                run = subprocess.run(words, stdout=subprocess.PIPE, stderr=subprocess.STDOUT, text=True, timeout=60)
                check(f"{name}: {words[-1]}", (run.stdout.rstrip("\n").splitlines() or [""])[-1], wanted)


def documents_variables(program):
    """docs/CLIENTS.md has each variable, with what SELECT and SHOW VARIABLES tell of it."""
    rows = re.findall(r"^\| `(\w+)` \| (.*?) \| ?(.*?) ?\|$", (TOP / "docs" / "CLIENTS.md").read_text(), re.M)
    told = lambda cell: "" if cell == "empty" else cell.strip("`")
    selected = {name: told(value) for name, value, _ in rows if name != "autocommit"}
    shown = {name: told(show or value) for name, value, show in rows}
    shown["autocommit"] = "ON"
    with Router(program) as router:
        steps = ["SHOW VARIABLES", *(f"SELECT @@{name}" for name in selected)]
        listed, *outcomes = PYMYSQL.run(router.port, USER, "", "shop", steps)
    check("SHOW VARIABLES", listed, [f"'{name}'|'{value}'" for name, value in shown.items()] + [f"rows {len(shown)}"])
    check("SELECT of each", outcomes, [[f"'{value}'", "rows 1"] for value in selected.values()])


COLUMNS = """
SELECT * FROM t|id shop t t LONGLONG 20 NOT_NULL PRI_KEY UNSIGNED BINARY|c shop t t LONGLONG 20 UNSIGNED BINARY
SELECT v FROM b|v shop b b VAR_STRING 255 BINARY
SELECT name, n FROM u|name base u u VAR_STRING 32 BINARY|n base u u LONGLONG 20 NOT_NULL PRI_KEY BINARY
SELECT COUNT(*), SUM(c), MIN(c) FROM t|COUNT(*)    LONGLONG 21 NOT_NULL BINARY|SUM(c)    NEWDECIMAL 41 BINARY|MIN(c)    LONGLONG 20 UNSIGNED BINARY
"""


def defines_columns(program):
    """The definitions of columns, as the command line shows them."""
    with Router(program) as router:
        for line in COLUMNS.strip().splitlines():
            text, *wanted = line.split("|")
            call = ["mariadb", "--no-defaults", "-h", "127.0.0.1", "-P", str(router.port), "-u", USER, "-t", "--column-type-info", "-e", text]
            output = subprocess.run(call, capture_output=True, text=True).stdout
            fields = [block for block in output.split("\n\n") if block.startswith("Field")]
            check(f"columns of {text}", [column_of(block) for block in fields], wanted)


def column_of(block):
    parts = dict(line.split(":", 1) for line in block.splitlines() if ":" in line)
    name = next(value for key, value in parts.items() if key.startswith("Field"))
    wanted = [name, parts["Database"], parts["Table"], parts["Org_table"], parts["Type"], parts["Length"], parts["Flags"]]
    return " ".join(it.strip().strip("`") for it in wanted).replace(" NUM", "")


def ends_result_sets(program):
    """The bytes of a result set, where the client wants EOF packets and where it doesn't."""
    column = bytes.fromhex("03646566 0473686f70 0174 0174 026964 026964 0c3f0014000000 08a300000000")
    eof, ok = bytes.fromhex("fe00000200"), bytes.fromhex("fe000002000000")
    with Router(program) as router:
        for capabilities, wanted in (
            (packets.PLAIN, [b"\1", column, eof, b"\x015", eof]),
            (packets.PLAIN | packets.DEPRECATE_EOF, [b"\1", column, b"\x015", ok]),
        ):
            with packets.Client(router.address) as client:
                client.login(USER.encode(), b"", capabilities=capabilities)
                client.query(b"INSERT INTO t VALUES (5, 9)")
                check(f"result set with {capabilities:#x}", client.query(b"SELECT id FROM t WHERE id = 5"), wanted)
                empty = [it for it in wanted if it != b"\x015"]
                check(f"empty result set with {capabilities:#x}", client.query(b"SELECT id FROM t WHERE id = 6"), empty)
                check(f"number with {capabilities:#x}", client.number, len(wanted) - 1)
                check(f"refusal with {capabilities:#x}", error_of(client.query(b"SELEC")[0]), SYNTAX)


def is_closed(client):
    try:
        client.read_exactly(1)
    except packets.Closed as closed:
        return str(closed)
    return "open"


def greets(program):
    """What a greeting tells, and that each connection has its own salt."""
    with Router(program) as router:
        salts = set()
        for number in (1, 2):
            with packets.Client(router.address) as client:
                check("greeting", client.greeting(), (b"8.0.0-router", number, 0x0108A20D))
                salts.add(client.salt)
                client.respond(USER.encode(), b"")
                check("login", client.read(), bytes.fromhex("00000002000000"))
                client.command(packets.QUIT)
                check("after COM_QUIT", is_closed(client), "end")
        check("salts of two connections", len(salts), 2)


def refuses_packets(program):
    """Refusals that no library asks for: each ends the connection, or not, after its packet."""
    with Router(program) as router:
        with packets.Client(router.address) as client:
            client.greeting()
            client.respond(USER.encode(), b"", capabilities=packets.PROTOCOL_41)
            check("no SECURE_CONNECTION", error_of(client.read()), "ERROR 1043 (08S01): bad handshake")
            check("no SECURE_CONNECTION, then", is_closed(client), "end")
        for payload, number, wanted in (
            (b"\3SELEC", 1, "ERROR 1156 (08S01): packets out of order"),
            (b"\3" + b" " * (1 << 20), 0, "ERROR 1153 (08S01): packet too large"),
        ):
            with packets.Client(router.address) as client:
                client.login(USER.encode(), b"")
                client.send(payload, number)
                check("a packet", error_of(client.read()), wanted)
                check(f"{wanted}, then", is_closed(client), "end")
        with packets.Client(router.address) as client:
            client.login(USER.encode(), b"")
            for payload in (b"", b"\x1dSELECT 1", b"\x04t\0", b"\x11", b"\x1b\2\0"):
                client.send(payload, 0)
                check(f"command {payload}", error_of(client.read()), "ERROR 1047 (08S01): unknown command")
            client.command(packets.PING)
            check("ping behind them", client.read(), bytes.fromhex("00000002000000"))


def begins_anew(program):
    """Commands that pools and drivers send: the line of COM_STATISTICS, COM_SET_OPTION, and COM_RESET_CONNECTION in a transaction."""
    with Router(program) as router:
        for capabilities, end in ((packets.PLAIN, "fe00000200"), (packets.PLAIN | packets.DEPRECATE_EOF, "fe000002000000")):
            with packets.Client(router.address) as client:
                client.login(USER.encode(), b"", capabilities=capabilities)
                client.command(packets.STATISTICS)
                check("COM_STATISTICS", client.read(), b"8.0.0-router")
                client.command(packets.SET_OPTION, b"\1\0")
                check("one statement a text", client.read(), bytes.fromhex(end))
                client.command(packets.SET_OPTION, b"\0\0")
                check("several", error_of(client.read()), "ERROR 1235 (42000): not supported")
        with packets.Client(router.address) as client:
            client.login(USER.encode(), b"")
            check("BEGIN", client.query(b"BEGIN"), [bytes.fromhex("00000003000000")])
            check("a write", client.query(b"INSERT INTO t VALUES (7, 1)"), [bytes.fromhex("00010003000000")])
            client.command(packets.RESET_CONNECTION)
            check("COM_RESET_CONNECTION", client.read(), bytes.fromhex("00000002000000"))
            check("no row", texts_of(client.query(b"SELECT id FROM t WHERE id = 7")), [])


def tells_autocommit(program):
    """The status of each reply: 2 while autocommit is on, 1 while a transaction is open."""
    def ok(count, status):
        return [bytes([0, count, 0, status, 0, 0, 0])]

    with Router(program) as router:
        with packets.Client(router.address) as client:
            client.login(USER.encode(), b"")
            for text, wanted in (
                (b"SET autocommit = 0", ok(0, 0)),
                (b"SET NAMES utf8mb4", ok(0, 0)),
                (b"INSERT INTO t VALUES (4, 1)", ok(1, 1)),
                (b"ROLLBACK", ok(0, 0)),
                (b"UPDATE t SET c = 2 WHERE id = 4", ok(0, 1)),
                (b"COMMIT", ok(0, 0)),
                (b"INSERT INTO t VALUES (4, 1)", ok(1, 1)),
                (b"SET autocommit = 1", ok(0, 2)),
                (b"UPDATE t SET c = 2 WHERE id = 4", ok(1, 2)),
                (b"BEGIN", ok(0, 3)),
                (b"SET autocommit = 0", ok(0, 1)),
                (b"COMMIT", ok(0, 0)),
            ):
                check(f"{text}", client.query(text), wanted)
            ends = [it for it in client.query(b"SELECT c FROM t WHERE id = 4") if it[0] == 0xFE]
            check("ends of a result set", ends, [bytes.fromhex("fe00000100")] * 2)
            check("a write that a reset drops", client.query(b"UPDATE t SET c = 7 WHERE id = 4"), ok(1, 1))
            client.command(packets.RESET_CONNECTION)
            check("COM_RESET_CONNECTION with autocommit off", client.read(), ok(0, 2)[0])
            check("rows after it", texts_of(client.query(b"SELECT c FROM t WHERE id = 4")), [[b"2"]])


def texts_of(payloads):
    """The rows of a reply that has EOF packets."""
    ends = [place for place, it in enumerate(payloads) if it[0] == 0xFE]
    return [packets.texts_of(it) for it in payloads[ends[0] + 1 : ends[1]]] if ends else payloads


def serves_two_at_once(program):
    """Two connections in turn, each of which sees at once what the other has written."""
    with Router(program, workers=2) as router:
        with packets.Client(router.address) as one, packets.Client(router.address) as other:
            for client in (one, other):
                client.login(USER.encode(), b"")
            for number in range(50):
                writer, reader = (one, other) if number % 2 else (other, one)
                check("a write", writer.query(b"INSERT INTO t VALUES (%d, 1)" % number), [bytes.fromhex("00010002000000")])
                rows = texts_of(reader.query(b"SELECT COUNT(*), MAX(id) FROM t"))
                check("seen by the other", rows, [[b"%d" % (number + 1), b"%d" % number]])


def run_all_at_once(router, name, lines_of, meanwhile=lambda threads: None):
    """Has each library run its lines while the others do, and `meanwhile` with their threads."""
    started = [library.start(router.port, USER, PASSWORD, "shop") for library in LIBRARIES]
    outcomes = [None] * len(LIBRARIES)

    def finish(place):
        outcomes[place] = LIBRARIES[place].finish(started[place], [line for line, _ in lines_of(place)])

    threads = [threading.Thread(target=finish, args=(place,)) for place in range(len(LIBRARIES))]
    for thread in threads:
        thread.start()
    meanwhile(threads)
    for thread in threads:
        thread.join()
    for place, library in enumerate(LIBRARIES):
        check_all(f"{library.name} beside {name}", library, lines_of(place), outcomes[place] or [])


def serves_all_at_once(program):
    """Each library writes and reads rows of its own while the others do."""
    def lines_of(place):
        lines = []
        for number in range(place, 400, len(LIBRARIES)):
            lines.append((f"INSERT INTO t VALUES ({number}, {place})", ["ok 1"]))
            lines.append((f"SELECT id, c FROM t WHERE id = {number}", [f"{number}|{place}", "rows 1"]))
            lines.append((f"UPDATE t SET c = {place + 10} WHERE id = {number}", ["ok 1"]))
        lines.append((f"SELECT COUNT(*) FROM t WHERE c = {place + 10}", [str(400 // len(LIBRARIES)), "rows 1"]))
        return lines

    with Router(program, PASSWORD, workers=4) as router:
        run_all_at_once(router, "the others", lines_of)
        got = PYMYSQL.run(router.port, USER, PASSWORD, "shop", ["SELECT COUNT(*), MIN(c), MAX(c) FROM t"])
        check("all rows", got, [[f"400|10|{9 + len(LIBRARIES)}", "rows 1"]])


def gives_up_gone_clients(program):
    """With one worker: a client that goes away in any state frees it."""
    with Router(program, PASSWORD, workers=1) as router:
        def login(client):
            client.login(USER.encode(), PASSWORD.encode())

        def still_serves(name, count):
            got = PYMYSQL.run(router.port, USER, PASSWORD, "shop", ["SELECT COUNT(*) FROM t"])
            check(name, got, [[str(count), "rows 1"]])

        with packets.Client(router.address) as client:
            pass
        still_serves("after one that said nothing", 0)
        with packets.Client(router.address) as client:
            client.greeting()
            client.socket.sendall(b"\x20\0")
        still_serves("after a part of a login", 0)
        text = b"\3INSERT INTO t VALUES (1, 1)"
        with packets.Client(router.address) as client:
            login(client)
            client.socket.sendall(len(text).to_bytes(3, "little") + b"\0" + text[:-1])
        still_serves("after a part of an INSERT", 0)
        with packets.Client(router.address) as client:
            login(client)
            client.query(b"INSERT INTO t VALUES (1, 1)")
        still_serves("after an INSERT and no COM_QUIT", 1)
        with packets.Client(router.address) as client:
            login(client)
            for number in range(2, 66):
                client.query(b"INSERT INTO t VALUES (%d, 1)" % number)
            ask_without_reading(client)
            # closing with unread input resets the connection, in the middle of a reply
        still_serves("after one that doesn't read its replies", 65)
        killed_command_line(router, still_serves)


def ask_without_reading(client):
    """Sends queries until neither side takes more."""
    client.socket.settimeout(0.5)
    try:
        while True:
            client.command(packets.QUERY, b"SELECT * FROM t WHERE c = 1")
    except TimeoutError:
        pass


def killed_command_line(router, still_serves):
    with tempfile.TemporaryFile() as lines:
        lines.write(b"".join(b"INSERT INTO b VALUES ('%d', NULL);\n" % number for number in range(200000)))
        lines.seek(0)
        process = COMMAND_LINE.start(router.port, USER, PASSWORD, "shop", stdin=lines)
        time.sleep(0.3)
        process.kill()
        process.communicate()
    still_serves("after a killed mariadb", 65)
    rows = PYMYSQL.run(router.port, USER, PASSWORD, "shop", ["SELECT k FROM b"])[0]
    kept = sorted(int(row.strip("'")) for row in rows[:-1])
    check("rows of a killed mariadb", kept, list(range(len(kept))))


def serves_more_clients_than_workers(program):
    """A client between two statements keeps no worker, one in a transaction neither."""
    with Router(program, workers=2) as router:
        clients = [packets.Client(router.address) for _ in range(6)]
        for client in clients:
            client.login(USER.encode(), b"")
            check("BEGIN of each of six clients of two workers", client.query(b"BEGIN"), [bytes.fromhex("00000003000000")])
        for number, client in enumerate(clients):
            insert = b"INSERT INTO b VALUES ('%d', NULL)" % number
            check("its INSERT", client.query(insert), [bytes.fromhex("00010003000000")])
            check("its ROLLBACK", client.query(b"ROLLBACK"), [bytes.fromhex("00000002000000")])
            client.socket.close()


def closes_silent_clients(program):
    """A client that doesn't log in is given up after 10 seconds, one that has isn't."""
    with Router(program, workers=2) as router:
        with packets.Client(router.address) as silent, packets.Client(router.address) as idle:
            idle.login(USER.encode(), b"")
            silent.greeting()
            begin = time.monotonic()
            got = is_closed(silent)
            seconds = time.monotonic() - begin
            check("a silent client", (got in ("end", "reset"), 9 <= seconds <= 13), (True, True))
            idle.command(packets.PING)
            check("an idle client", idle.read(), bytes.fromhex("00000002000000"))


def seconds_used(router, seconds):
    """What the router uses of the processors while so much time goes by."""
    before = router.processor_seconds()
    time.sleep(seconds)
    return router.processor_seconds() - before


def sleeps_while_idle(program):
    with Router(program) as router:
        with packets.Client(router.address) as client:
            client.login(USER.encode(), b"")
            check("idle, less than a twentieth of a processor", seconds_used(router, 2) < 0.1, True)


def goes_on_after_a_stop(program):
    """A process that is stopped and goes on (by a shell, a debugger, a paused container) keeps its sessions: their reads are interrupted."""
    with Router(program) as router:
        with packets.Client(router.address) as client:
            client.login(USER.encode(), b"")
            time.sleep(0.2)
            for what in (signal.SIGSTOP, signal.SIGCONT):
                os.kill(router.process.pid, what)
                time.sleep(0.2)
            client.command(packets.PING)
            check("after a stop", client.read(), bytes.fromhex("00000002000000"))


def awaits_descriptors(router, count):
    """How many files the process has open, once that are so many, or after five seconds."""
    for _ in range(50):
        if router.descriptors() == count:
            break
        time.sleep(0.1)
    return router.descriptors()


def ends_in_a_way(router, way):
    """A connection that ends as soon as it is there, after a login that succeeds, fails, or isn't waited for."""
    with packets.Client(router.address) as client:
        if way == 0:
            return
        client.greeting()
        client.respond(USER.encode(), packets.native(PASSWORD.encode() if way == 1 else b"wrong", client.salt))
        if way == 3:
            return
        client.read()
        if way == 1:
            client.command(packets.QUIT)


def keeps_no_descriptors(program):
    """Connections that end in each way leave nothing open, and where no more can be opened the rest are refused."""
    with Router(program, PASSWORD, descriptors=64) as router:
        # once a client was let in, all is open that the router keeps open
        with packets.Client(router.address) as client:
            client.login(USER.encode(), PASSWORD.encode())
            before = router.descriptors() - 1
        for number in range(200):
            ends_in_a_way(router, number % 4)
            # one that has gone may take its place for a moment more
            if number % 20 == 19:
                check("open descriptors meanwhile", awaits_descriptors(router, before), before)
        many = [packets.Client(router.address) for _ in range(60)]
        first = [client.read() for client in many]
        refused = [error_of(it) for it in first if it[0] == 0xFF]
        check("those without a place", set(refused), {"ERROR 1040 (08004): too many connections"})
        check("those with one", 20 < len(many) - len(refused) < 40, True)
        check("without places, less than a tenth of a processor", seconds_used(router, 1) < 0.1, True)
        for client in many:
            client.socket.close()
        check("open descriptors", awaits_descriptors(router, before), before)
        got = PYMYSQL.run(router.port, USER, PASSWORD, "shop", ["SELECT n FROM u"])
        check("once there are places again", got, [["rows 0"]])


def answers_admin_lines(program):
    with Router(program) as router:
        status = "serving -40 40-80 80-c0 c0- none"
        check("admin lines", router.admin("status", "what", "status"), [status, "unknown", status])
        check("admin, again", router.admin("status"), [status])


def splits_live(program):
    """Each library writes and reads rows of its own while shards are split and merged again, by lines to the admin port."""
    def lines_of(place):
        lines = []
        for number in range(place, 2000, len(LIBRARIES)):
            lines.append((f"INSERT INTO t VALUES ({number}, {place})", ["ok 1"]))
            lines.append((f"SELECT id, c FROM t WHERE id = {number}", [f"{number}|{place}", "rows 1"]))
            lines.append((f"UPDATE t SET c = {place + 10} WHERE id = {number}", ["ok 1"]))
            lines.append((f"SELECT COUNT(*) FROM t WHERE c = {place + 10}", [str(number // len(LIBRARIES) + 1), "rows 1"]))
        return lines

    def cuts_over(router, sources, targets):
        """The answers of a workflow: it is created, brought level, cut over and completed."""
        answers = router.admin(f"create {sources} {targets}")
        while answers[-1] in ("ok", "ok copied", "ok followed"):
            answers += router.admin(*["step"] * 500)
        return [answers[0], answers[-1], *router.admin("switch", "complete")]

    with Router(program, PASSWORD, workers=len(LIBRARIES)) as router:
        def split_and_merge(threads):
            cutovers = 0
            while cutovers < 2 or cutovers < 12 and any(thread.is_alive() for thread in threads):
                check("a split", cuts_over(router, "-40", "-20,20-40"), ["ok", "ok level", "ok", "ok"])
                check("ranges after it", router.admin("status"), ["serving -20 20-40 40-80 80-c0 c0- none"])
                check("a merge", cuts_over(router, "-20,20-40", "-40"), ["ok", "ok level", "ok", "ok"])
                check("ranges after it", router.admin("status"), ["serving -40 40-80 80-c0 c0- none"])
                cutovers += 2

        run_all_at_once(router, "splits", lines_of, split_and_merge)
        got = PYMYSQL.run(router.port, USER, PASSWORD, "shop", ["SELECT COUNT(*), MIN(c), MAX(c) FROM t"])
        check("all rows after splits", got, [[f"2000|10|{9 + len(LIBRARIES)}", "rows 1"]])


def begins_again_after_a_conflict(program):
    """examples/again.php moves its amount in the end, though each of its first commits is refused."""
    with Router(program) as router:
        with packets.Client(router.address) as other:
            other.login(USER.encode(), b"", database=b"shop")
            script = (TOP / "examples" / "again.php").read_text()
            # another session writes the table before each of the first three commits
            meanwhile = "static $other, $times = 0; $other ??= new PDO('mysql:host=127.0.0.1;port=%d;dbname=shop', 'app', ''); " % router.port
            meanwhile += "if ($times++ < 3) $other->exec('INSERT INTO t VALUES (' . (20 + 4 * $times) . ', 1)');\n    "
            changed = script.replace("    $connection->commit();", f"    {meanwhile}$connection->commit();").removeprefix("<?php")
            ended = subprocess.run(["php", "-r", changed, "--", str(router.port)], capture_output=True, text=True, timeout=60)
            check("again.php after three conflicts", (ended.stdout, ended.stderr, ended.returncode), ("8 70\n16 30\n", "", 0))
            check("the others' rows", texts_of(other.query(b"SELECT COUNT(*) FROM t WHERE c = 1")), [[b"3"]])


def runs_examples_after_a_split(program):
    """What examples/again moves lies on one shard, before README's split and after it."""
    with Router(program) as router:
        for when in ("before", "after"):
            for call in (["/usr/bin/python3", "again.py"], ["sh", "again.go"], ["php", "again.php"]):
                call[1:] = [TOP / "examples" / call[1], str(router.port)]
                ended = subprocess.run(call, stdin=subprocess.DEVNULL, capture_output=True, text=True, timeout=120)
                check(f"{call[1].name} {when} a split: status", (ended.returncode, ended.stderr), (0, ""))
                check(f"{call[1].name} {when} a split", re.findall("[0-9]+", ended.stdout), ["8", "70", "16", "30"])
            if when == "before":
                check("README's split", router.admin("create -40 -20,20-40", "switch", "complete"), ["ok"] * 3)


def ends_by_itself(program):
    with Router(program, connections=2) as router:
        for _ in range(2):
            check("a connection of two", PYMYSQL.run(router.port, USER, "", "", ["SELECT n FROM u"]), [["rows 0"]])
        check("status after two connections", router.process.wait(20), 0)
        check("what it told", router.process.stderr.read(), b"")


def words_are_tested(program):
    port, admin, other = free_ports(3)
    right = ["serve", SHARDS, f"127.0.0.1:{port}", f"127.0.0.1:{admin}", "2", "8", "0", USER, "-", "nonce"]
    usage = "usage: vtgate serve|plan|script\n"

    def told(words, schema):
        run = subprocess.run([program, *words], input=schema, capture_output=True, timeout=20)
        return run.returncode, run.stdout.decode(), run.stderr.decode()

    schema = SCHEMA.read_bytes()
    for place, word in ((1, "-80"), (4, "0"), (4, "33"), (4, "02"), (5, "0"), (5, "1001"), (6, "-1"), (6, "4294967296"), (8, "abc"), (8, "A" * 40)):
        words = right[:place] + [word] + right[place + 1 :]
        check(f"word {place} is {word}", told(words, schema), (2, "", usage))
    check("a word is missing", told(right[:-1], schema), (2, "", usage))
    check("no VSchema", told(right, b'{"keyspaces":{}}'), (2, "", "VSchema V2\n"))
    check("no JSON", told(right, b"{"), (2, "", "VSchema V1\n"))
    with Router(program) as router:
        taken = right[:2] + [f"127.0.0.1:{router.port}"] + right[3:]
        check("a taken port", told(taken, schema), (1, "", "cannot bind\n"))
        taken = right[:3] + [f"127.0.0.1:{router.admin_port}"] + right[4:]
        check("a taken admin port", told(taken, schema), (1, "", "cannot bind\n"))
    check("no address", told(right[:2] + ["nowhere"] + right[3:], schema), (1, "", "cannot bind\n"))


def attempt(test, *arguments):
    """Runs a test over a program and the rest of its arguments, which say what it is."""
    begin = time.monotonic()
    checks.attempt(test, *arguments, name=f"{test.__name__} of {[getattr(it, 'name', it) for it in arguments[1:]]}")
    if "TIMES" in os.environ:
        print(f"{time.monotonic() - begin:.1f} s: {test.__name__}", file=sys.stderr, flush=True)


def main():
    program = sys.argv[1]
    # so that an end from outside stops the routers too
    signal.signal(signal.SIGTERM, lambda *_: sys.exit(1))
    not_ready = libraries.make_ready()
    for name, why in not_ready.items():
        check(name, why, "ready")
    waiting = threading.Thread(target=attempt, args=(closes_silent_clients, program))
    waiting.start()
    for library in BY_DEFAULT:
        if library.name not in not_ready:
            attempt(runs_the_list, program, library, STEPS, PASSWORD, "shop")
            attempt(refuses_a_wrong_password, program, library)
    for library in ALSO:
        if library.name not in not_ready:
            attempt(runs_the_list, program, library, STATEMENTS, "", "shop")
            # a line at a terminal has at most 4,096 bytes
            if library.name != "terminal":
                attempt(runs_long_texts, program, library)
    for library in LIBRARIES:
        attempt(runs_the_list, program, library, STATEMENTS, "", "")
        attempt(runs_the_list, program, library, STATEMENTS, PASSWORD, "shop")
        attempt(refuses_logins, program, library)
        attempt(runs_long_texts, program, library)
    for library in libraries.PREPARED:
        if library.name.removeprefix("prepared ") not in not_ready:
            attempt(prepared.runs_prepared, program, library, check)
    attempt(shows_what_is_asked, program, not_ready)
    for test in (
        switches_plugins,
        answers_mariadb_admin,
        documents_variables,
        defines_columns,
        greets,
        ends_result_sets,
        refuses_packets,
        begins_anew,
        tells_autocommit,
        serves_two_at_once,
        serves_all_at_once,
        gives_up_gone_clients,
        serves_more_clients_than_workers,
        sleeps_while_idle,
        goes_on_after_a_stop,
        keeps_no_descriptors,
        answers_admin_lines,
        splits_live,
        runs_examples_after_a_split,
        begins_again_after_a_conflict,
        ends_by_itself,
        words_are_tested,
    ):
        attempt(test, program)
    waiting.join()
    sys.exit(checks.ended("clients"))


main()

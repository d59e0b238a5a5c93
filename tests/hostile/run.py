"""Does to the router what a hostile client can do. Called by tests/hostile.sh with the program; further words are the names of cases to run alone."""

import os
import pathlib
import resource
import select
import socket
import subprocess
import sys
import threading
import time

sys.path.insert(0, str(pathlib.Path(__file__).resolve().parents[1] / "clients"))

from checks import case, check, ended, run_cases
from packets import Client, Closed
from router import SCHEMA, SHARDS, USER, Router, free_ports


class Trickler(threading.Thread):
    """A client that logs in a byte at a time, and begins again where it is cut."""

    def __init__(self, address, pause):
        super().__init__(daemon=True)
        self.address, self.pause = address, pause
        self.is_over = threading.Event()

    def run(self):
        while not self.is_over.is_set():
            try:
                with socket.create_connection(self.address, 60) as connection:
                    self.trickle(connection)
            except OSError:
                pass

    def trickle(self, connection):
        """Sends a login until the router cuts it; it is longer than what can be sent so."""
        connection.sendall(b"\xff\xff\x00\x01")
        while not self.is_over.wait(self.pause):
            connection.sendall(b"\x00")
            if select.select([connection], [], [], 0)[0] and not connection.recv(4096):
                return


def log_in(router, timeout=60):
    """A client that is let in, and after how many seconds."""
    start = time.monotonic()
    client = Client(router.address, timeout)
    client.login(USER.encode(), b"")
    return client, time.monotonic() - start


@case
def trickling_logins_keep_nobody_out(program):
    with Router(program, workers=8) as router:
        first, _ = log_in(router)
        tricklers = [Trickler(router.address, 0.5) for _ in range(32)]
        for each in tricklers:
            each.start()
        time.sleep(3)
        for place in range(4):
            _, seconds = log_in(router)
            check(f"login {place} while 32 trickle, {seconds:.1f} seconds", seconds < 20)
        check("a client that was let in before", first.query(b"SELECT id FROM t WHERE id = 1")[0], b"\x01")
        for each in tricklers:
            each.is_over.set()


@case
def a_login_is_cut_after_thirty_seconds(program):
    with Router(program, workers=2) as router:
        start = time.monotonic()
        with socket.create_connection(router.address, 60) as connection:
            try:
                connection.sendall(b"\x60\x00\x00\x01")
                while time.monotonic() - start < 50:
                    connection.sendall(b"\x00" if time.monotonic() - start < 28 else b"")
                    if select.select([connection], [], [], 1)[0] and not connection.recv(4096):
                        break
            except OSError:
                pass
        seconds = time.monotonic() - start
        check(f"a login that trickles ends after 30 seconds, {seconds:.1f}", 28 < seconds < 33)
        check("the next one is let in at once", log_in(router)[1] < 2)


@case
def an_idle_login_is_cut_after_ten_seconds(program):
    with Router(program, workers=1) as router:
        start = time.monotonic()
        with socket.create_connection(router.address, 60) as connection:
            while connection.recv(4096):
                pass
        seconds = time.monotonic() - start
        check(f"a login that says nothing ends after 10 seconds, {seconds:.1f}", 9 < seconds < 13)


@case
def vanished_clients_are_probed(program):
    with Router(program) as router:
        client, _ = log_in(router)
        client.query(b"SELECT id FROM t WHERE id = 1")
        time.sleep(1)
        with open("/proc/net/tcp") as table:
            rows = [line.split() for line in table.readlines()[1:]]
        timers = [row[5].split(":")[0] for row in rows if row[1].endswith(f":{router.port:04X}") and row[3] == "01"]
        check("the system probes the client of a connection", timers, ["02"])


def answer_of(router, data):
    """What the admin port answers until it ends the connection."""
    with socket.create_connection(("127.0.0.1", router.admin_port), 10) as connection:
        connection.sendall(data)
        answer = b""
        try:
            while piece := connection.recv(4096):
                answer += piece
        except ConnectionResetError:
            pass
    return answer


@case
def the_admin_port_does_nothing_for_a_browser(program):
    request = b"POST / HTTP/1.1\r\nHost: 127.0.0.1\r\nContent-Length: 40\r\n\r\ncreate -40 -20,20-40\nswitch\ncomplete\n"
    with Router(program) as router:
        before = router.admin("status")
        check("a web page's POST", answer_of(router, request), b"unknown\n")
        check("the shards are as before", router.admin("status"), before)
        for byte in (0x00, 0x09, 0x0D, 0x1F, 0x7F, 0x80, 0xFF):
            line = b"status" + bytes([byte]) + b"\nstatus\n"
            check(f"a line with the byte {byte:02x}", answer_of(router, line), b"unknown\n")
        check("other lines are answered", router.admin("status", "nothing", "status"), before + ["unknown"] + before)
        too_long = answer_of(router, b"x" * 8193 + b"\nstatus\n")
        check("a line of more than 8192 bytes", too_long, b"")
        check("one of 8192 bytes", router.admin("x" * 8192, "status"), ["unknown"] + before)


def ends_within_a_second(name, router):
    """Has the only connection of a router served, and looks how long that takes to end."""
    client, _ = log_in(router)
    client.command(1)
    start = time.monotonic()
    try:
        status = router.process.wait(10)
    except subprocess.TimeoutExpired:
        status = None
    seconds = time.monotonic() - start
    check(f"{name}: status", status, 0)
    check(f"{name}: ends within a second, {seconds:.1f}", seconds < 1)


def send_lines(connection, is_over, reads):
    connection.settimeout(0.05)
    while not is_over.is_set():
        try:
            connection.sendall(b"status\n")
            if reads:
                connection.recv(4096)
        except TimeoutError:
            pass
        except OSError:
            return
        time.sleep(0.005 if reads else 0)


@case
def it_ends_beside_an_admin_client(program):
    for name, reads in (("an admin client sends lines", True), ("an admin client takes no answers", False)):
        with Router(program, connections=1) as router:
            is_over = threading.Event()
            connection = socket.create_connection(("127.0.0.1", router.admin_port), 10)
            sender = threading.Thread(target=send_lines, args=(connection, is_over, reads), daemon=True)
            sender.start()
            time.sleep(2)
            ends_within_a_second(name, router)
            is_over.set()
            sender.join()
            connection.close()


class Admin:
    """A connection to the admin port that stays open, until the `with` ends."""

    def __init__(self, router):
        self.socket = socket.create_connection(("127.0.0.1", router.admin_port), 10)

    def __enter__(self):
        return self

    def __exit__(self, *_):
        self.socket.close()

    def ask(self, *lines):
        self.socket.sendall("".join(line + "\n" for line in lines).encode())
        answers = b""
        while answers.count(b"\n") < len(lines):
            piece = self.socket.recv(4096)
            if not piece:
                raise Closed("the admin port")
            answers += piece
        return answers.decode().splitlines()

    def stop_reading(self):
        """Sends lines until no more are taken, since the router waits for their answers to be read."""
        self.socket.settimeout(1)
        try:
            while True:
                self.socket.sendall(b"status\n" * 8192)
        except TimeoutError:
            pass


def freeze(router, admin):
    """Freezes a shard by one client of the admin port, and begins a write there: its thread, which ends once the write is answered."""
    check("the shard is frozen", admin.ask("create -40 -20,20-40", "advance"), ["ok", "ok freeze"])
    client, _ = log_in(router)

    def write():
        try:
            # the first bits of its keyspace id are the last of this number
            client.query(b"INSERT INTO t (id) VALUES (4)")
        except Closed:
            # the router has ended, since the case has failed
            pass

    writer = threading.Thread(target=write, daemon=True)
    writer.start()
    time.sleep(0.5)
    check("a write waits", writer.is_alive())
    return writer


def resumes(name, router, writer):
    """Has another client of the admin port end the cutover, and looks how long that takes."""
    start = time.monotonic()
    answers = router.admin("resume", "status")
    seconds = time.monotonic() - start
    check(f"{name}: another client ends the cutover", answers, ["ok", "serving -40 40-80 80-c0 c0- following"])
    check(f"{name}: within some seconds, {seconds:.1f}", seconds < 5)
    writer.join(5)
    check(f"{name}: the write is answered", writer.is_alive(), False)


@case
def a_stopped_admin_client_gives_way_in_a_cutover(program):
    with Router(program) as router, Admin(router) as admin:
        writer = freeze(router, admin)
        admin.stop_reading()
        resumes("an admin client takes no answers", router, writer)


@case
def a_silent_admin_client_gives_way_in_a_cutover(program):
    with Router(program) as router, Admin(router) as admin:
        writer = freeze(router, admin)
        resumes("an admin client says nothing", router, writer)
        check("the silent one was closed", admin.socket.recv(4096), b"")


@case
def a_silent_admin_client_stays_while_it_is_alone(program):
    with Router(program) as router, Admin(router) as admin:
        writer = freeze(router, admin)
        time.sleep(4)
        check("it goes on", admin.ask("cancel", "status"), ["ok", "serving -40 40-80 80-c0 c0- none"])
        writer.join(5)
        check("the write is answered", writer.is_alive(), False)
        with Admin(router) as other:
            time.sleep(4)
            check("nor does it leave while no statement waits", admin.ask("status"), ["serving -40 40-80 80-c0 c0- none"])
            admin.socket.close()
            check("the other one is next", other.ask("status"), ["serving -40 40-80 80-c0 c0- none"])


@case
def each_connection_counts(program):
    with Router(program, connections=3) as router:
        for place in range(3):
            check(f"before connection {place + 1} it runs", router.process.poll(), None)
            client, _ = log_in(router)
            client.command(1)
            client.socket.close()
        check("after the third it ends", router.process.wait(10), 0)


def run_with(program, words, limits=None):
    """Runs the program to its end: its status, and what it says."""
    ended = subprocess.run([program, *words], stdin=SCHEMA.open(), capture_output=True, preexec_fn=limits, timeout=60)
    return ended.returncode, ended.stdout, ended.stderr


def serve_words(workers):
    client, admin = free_ports(2)
    return ["serve", SHARDS, f"127.0.0.1:{client}", f"127.0.0.1:{admin}", str(workers), "8", "1", USER, "-", "a nonce of the tests"]


def few_threads():
    """Lets a process have fewer threads than 32: by the number where the system counts them for this user, and by the room for their stacks."""
    if os.getuid() == 0:
        os.setgid(54321)
        os.setuid(54321)
        resource.setrlimit(resource.RLIMIT_NPROC, (16, 16))
    resource.setrlimit(resource.RLIMIT_STACK, (64 << 20, 64 << 20))
    resource.setrlimit(resource.RLIMIT_AS, (1 << 30, 1 << 30))


@case
def too_few_threads_are_a_failure(program):
    check("fewer threads than workers", run_with(program, serve_words(32), few_threads), (1, b"", b"failed\n"))


@case
def words_that_are_no_text_are_wrong(program):
    usage = (2, b"", b"usage: vtgate serve|plan|script\n")
    for place in range(1, 10):
        words = [word.encode() for word in serve_words(1)]
        words[place] += b"\xff"
        check(f"serve with such a word {place}", run_with(program, words), usage)
    check("plan with such shards", run_with(program, ["plan", b"-\xff", "SELECT id FROM t"]), usage)
    check("script with such shards", run_with(program, ["script", b"-\xff"]), usage)
    check("another call", run_with(program, [b"\xff"]), usage)
    check("plan with such a statement", run_with(program, ["plan", "-", b"SELECT id FROM t \xff"])[:1], (1,))
    check("plan with such a text", run_with(program, ["plan", "-80,80-", b"SELECT id FROM t WHERE name = '\xff'"])[2], b"")


def main():
    run_cases(sys.argv[1], sys.argv[2:])
    return ended("hostile")


if __name__ == "__main__":
    sys.exit(main())

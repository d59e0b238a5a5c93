"""Many connections to few workers. Called by tests/many.sh with the program; further words are the names of cases to run alone."""

import os
import pathlib
import resource
import select
import socket
import struct
import sys
import threading
import time
import traceback

sys.path.insert(0, str(pathlib.Path(__file__).resolve().parents[1] / "clients"))

from checks import case, check, ended, run_cases
from packets import PING, QUERY, QUIT, Client, error_of
from router import USER, Router

CONNECTIONS = int(os.environ.get("CONNECTIONS", "10000"))
WORKING, ROWS_EACH = 100, 20
THREADS = 10
OTHER_FILES = 32
BUFFER_FULL = "ERROR 1105 (HY000): buffer full"
TOO_MANY = "ERROR 1040 (08004): too many connections"


def log_in(router, timeout=60):
    client = Client(router.address, timeout)
    client.socket.setsockopt(socket.IPPROTO_TCP, socket.TCP_NODELAY, 1)
    answer = client.login(USER.encode(), b"", database=b"shop")
    if answer[:1] != b"\0":
        raise RuntimeError(error_of(answer))
    return client


def memory(router):
    """The bytes that the process holds."""
    with open(f"/proc/{router.process.pid}/status") as status:
        for line in status:
            if line.startswith("VmRSS:"):
                return int(line.split()[1]) * 1024
    return 0


def rows_of(payloads):
    """The rows of a reply, each a list of texts."""
    if payloads[0][:1] == b"\xff":
        raise RuntimeError(error_of(payloads[0]))
    rows = []
    for payload in payloads[payloads[0][0] + 2 : -1]:
        at, row = 0, []
        while at < len(payload):
            if payload[at] == 251:
                row.append(None)
                at += 1
            else:
                length = payload[at]
                row.append(payload[at + 1 : at + 1 + length])
                at += 1 + length
        rows.append(row)
    return rows


def answers(client):
    client.command(PING)
    return client.read()[:1] == b"\0"


class Works:
    """A client that writes and reads rows of its own, and knows what each has."""

    def __init__(self, client, place):
        self.client, self.place = client, place
        self.rows, self.done, self.put_off = {}, 0, 0

    def write(self, text):
        """Runs a write, again if the buffer is full."""
        while True:
            answer = self.client.query(text.encode())[0]
            if answer[:1] == b"\0":
                return
            if error_of(answer) != BUFFER_FULL:
                raise RuntimeError(f"{text}: {error_of(answer)}")
            self.put_off += 1
            time.sleep(0.002)

    def act(self):
        """Writes one row, and compares another with what it is to have."""
        step = self.done
        row = self.place * ROWS_EACH + step % ROWS_EACH
        value = step * 1000 + self.place
        if row in self.rows:
            self.write(f"UPDATE t SET c = {value} WHERE id = {row}")
        else:
            self.write(f"INSERT INTO t (id, c) VALUES ({row}, {value})")
        self.rows[row] = value
        self.compare(self.place * ROWS_EACH + (step * 7) % ROWS_EACH)
        self.done += 1

    def compare(self, row):
        found = self.client.query(f"SELECT c FROM t WHERE id = {row}".encode())
        if error_of(found[0]) == BUFFER_FULL:
            self.put_off += 1
            return
        wanted = [[str(self.rows[row]).encode()]] if row in self.rows else []
        if rows_of(found) != wanted:
            raise RuntimeError(f"row {row}: {rows_of(found)} and not {wanted}")


class Group(threading.Thread):
    """Some clients that work in turn."""

    def __init__(self, workers, is_over):
        super().__init__(daemon=True)
        self.workers, self.is_over, self.fault = workers, is_over, None

    def run(self):
        try:
            while not self.is_over.is_set():
                for worker in self.workers:
                    worker.act()
        except Exception:
            self.fault = traceback.format_exc()


def administer(router, *lines):
    """Sends lines to the admin port, each of which has to be answered by `ok`."""
    for line in lines:
        deadline = time.monotonic() + 120
        while True:
            answer = router.admin(line)
            if answer and not answer[0].startswith(("N4", "F24")) or time.monotonic() > deadline:
                break
            time.sleep(0.05)
        check(f"admin line {line}", answer[:1] and answer[0].split()[0] not in ("unknown",) and answer[0][:1] not in "FN", True)


def follow(router):
    """Brings the targets forward until they are level."""
    for _ in range(100000):
        answer = router.admin("step")
        if answer != ["ok"] and not (answer and answer[0].startswith(("copied", "followed"))):
            return


@case
def ten_thousand_connections(program):
    with Router(program, workers=8, buffer=4, descriptors=CONNECTIONS + 500) as router:
        before = memory(router)
        start = time.monotonic()
        clients = [log_in(router) for _ in range(CONNECTIONS)]
        seconds = time.monotonic() - start
        held = memory(router)
        each = (held - before) // CONNECTIONS
        print(f"  {CONNECTIONS} logins in {seconds:.1f} s; {before >> 10} KB before, {held >> 10} KB with them: {each} bytes each", flush=True)
        check(f"an idle connection takes at most 8 KB, {each}", each <= 8192)
        check(f"10,000 connections take at most 120 MB, {held >> 20}", held <= 120 << 20)
        working = [Works(client, place) for place, client in enumerate(clients[:WORKING])]
        is_over = threading.Event()
        groups = [Group(working[place::THREADS], is_over) for place in range(THREADS)]
        for group in groups:
            group.start()
        time.sleep(2)
        administer(router, "create -40 -20,20-40", "switch", "complete")
        time.sleep(1)
        administer(router, "create -20,20-40 -40", "switch", "complete")
        time.sleep(1)
        is_over.set()
        for group in groups:
            group.join(60)
            check("a group of clients worked", group.fault, None)
        done = sum(each.done for each in working)
        print(f"  {done} writes and as many reads, {sum(each.put_off for each in working)} put off by a full buffer", flush=True)
        check("each client worked", min(each.done for each in working) > ROWS_EACH)
        wanted = sorted([str(row).encode(), str(value).encode()] for each in working for row, value in each.rows.items())
        check("each row is what was written", sorted(rows_of(clients[-1].query(b"SELECT id, c FROM t"))) == wanted)
        check("the idle ones answer", all(answers(client) for client in clients[WORKING:: 50]))
        # connections that come and go beside the others
        for place in range(500):
            clients[-1 - place].socket.close()
        again = [log_in(router) for _ in range(500)]
        check("those that came in their place answer", all(answers(client) for client in again))
        for client in clients + again:
            client.socket.close()
        deadline = time.monotonic() + 20
        while router.descriptors() > 40 and time.monotonic() < deadline:
            time.sleep(0.1)
        check("all are closed", router.descriptors() <= 40)
        check("and a new one answers", answers(log_in(router)))


class Passers(Group):
    """Clients each of which goes once it has worked, in one of four ways, and another comes in its place."""

    def __init__(self, router, workers, is_over):
        super().__init__(workers, is_over)
        self.router, self.gone = router, 0

    def go(self, worker):
        client, way = worker.client, self.gone % 4
        if way == 1:
            client.command(QUIT)
        elif way == 2:
            # what a client leaves that goes in a transaction is dropped
            client.query(b"BEGIN")
            client.query(f"UPDATE t SET c = 1 WHERE id = {worker.place * ROWS_EACH}".encode())
        elif way == 3:
            client.socket.setsockopt(socket.SOL_SOCKET, socket.SO_LINGER, struct.pack("ii", 1, 0))
        client.socket.close()
        self.gone += 1
        worker.client = log_in(self.router)

    def run(self):
        try:
            while not self.is_over.is_set():
                for worker in self.workers:
                    worker.act()
                    self.go(worker)
        except Exception:
            self.fault = traceback.format_exc()


@case
def a_thousand_come_and_go(program):
    with Router(program, workers=8, buffer=4, descriptors=2500) as router:
        working = [Works(log_in(router), place) for place in range(1000)]
        others = router.descriptors() - len(working)
        is_over = threading.Event()
        groups = [Passers(router, working[place::THREADS], is_over) for place in range(THREADS)]
        for group in groups:
            group.start()
        for _ in range(2):
            time.sleep(2)
            administer(router, "create -40 -20,20-40", "switch", "complete")
            time.sleep(2)
            administer(router, "create -20,20-40 -40", "switch", "complete")
        is_over.set()
        for group in groups:
            group.join(60)
            check("a group of clients came and went", group.fault, None)
        gone = sum(group.gone for group in groups)
        print(f"  {gone} came and went, {sum(each.done for each in working)} writes and as many reads", flush=True)
        check("each place was taken again", gone > 1000)
        wanted = sorted([str(row).encode(), str(value).encode()] for each in working for row, value in each.rows.items())
        check("each row is what was written", sorted(rows_of(working[0].client.query(b"SELECT id, c FROM t"))) == wanted)
        for each in working:
            each.client.socket.close()
        deadline = time.monotonic() + 20
        while router.descriptors() > others and time.monotonic() < deadline:
            time.sleep(0.1)
        check("nothing is left open", router.descriptors(), others)


def refused(router):
    """What a client gets that may not come."""
    client = Client(router.address, 10)
    try:
        payload = client.read()
        return error_of(payload) if payload[:1] == b"\xff" else "greeted"
    finally:
        client.socket.close()


@case
def more_than_there_may_be_are_refused(program):
    descriptors = 100
    with Router(program, workers=2, descriptors=descriptors) as router:
        clients = [log_in(router) for _ in range(descriptors - OTHER_FILES)]
        check("the next one", refused(router), TOO_MANY)
        check("and again", refused(router), TOO_MANY)
        check("those before answer", all(answers(client) for client in clients))
        clients.pop().socket.close()
        time.sleep(1)
        clients.append(log_in(router))
        check("one comes in the place of one that went", answers(clients[-1]))


@case
def one_place_is_kept_for_an_operator(program):
    own = socket.gethostbyname(socket.gethostname())
    if own.startswith("127."):
        print("  this machine has no address but the loopback", flush=True)
        return
    descriptors = 100
    with Router(program, workers=2, descriptors=descriptors, host="0.0.0.0") as router:
        outside = (own, router.port)
        clients = []
        for _ in range(descriptors - OTHER_FILES - 1):
            clients.append(Client(outside, 10))
            clients[-1].login(USER.encode(), b"")
        client = Client(outside, 10)
        check("a client from outside", error_of(client.read()), TOO_MANY)
        operator = log_in(router)
        check("an operator", answers(operator))
        check("a second one", refused(router), TOO_MANY)


def load(router, rows):
    """A client, after rows were put in, each with its own number."""
    client = log_in(router)
    for row in range(rows):
        client.query(f"INSERT INTO t (id, c) VALUES ({row}, {row})".encode())
    return client


@case
def a_client_that_does_not_read_holds_up_nobody(program):
    with Router(program, workers=2) as router:
        client = load(router, 2000)
        before = memory(router)
        deaf = [log_in(router) for _ in range(4)]
        report = b"SELECT id, c FROM t"
        for each in deaf:
            packet = (len(report) + 1).to_bytes(3, "little") + b"\0" + bytes([QUERY]) + report
            each.socket.sendall(packet * 1000)
        slowest = 0
        for row in range(500):
            start = time.monotonic()
            check_row = rows_of(client.query(f"SELECT c FROM t WHERE id = {row}".encode()))
            slowest = max(slowest, time.monotonic() - start)
            if check_row != [[str(row).encode()]]:
                check("a row beside clients that don't read", check_row, row)
        check(f"the slowest read beside them took {slowest * 1000:.1f} ms", slowest < 1)
        grown = memory(router) - before
        check(f"what is kept for four of them, {grown >> 10} KB", grown < 8 << 20)
        # one of them reads all after all
        counts = [len(deaf[0].read_reply()) for _ in range(1000)]
        check("its replies are whole", set(counts), {2005})
        time.sleep(62)
        check("the others were closed after a minute", router.descriptors() < 20 and answers(client))


@case
def a_thousand_statements_at_once_are_answered_in_order(program):
    with Router(program, workers=2) as router:
        client = load(router, 1000)
        other = log_in(router)
        packets = b""
        for row in range(1000):
            text = f"SELECT c FROM t WHERE id = {row}".encode()
            packets += (len(text) + 1).to_bytes(3, "little") + b"\0" + bytes([QUERY]) + text
        client.socket.sendall(packets)
        check("another client meanwhile", answers(other))
        wrong = [row for row in range(1000) if rows_of(client.read_reply()) != [[str(row).encode()]]]
        check("each reply in its turn", wrong, [])
        # byte by byte
        text = b"SELECT c FROM t WHERE id = 7"
        for byte in (len(text) + 1).to_bytes(3, "little") + b"\0" + bytes([QUERY]) + text:
            other.socket.sendall(bytes([byte]))
            time.sleep(0.006)
        check("a statement byte by byte", rows_of(other.read_reply()), [[b"7"]])


@case
def trickling_logins_hold_no_worker(program):
    with Router(program, workers=2) as router:
        tricklers = [socket.create_connection(router.address, 60) for _ in range(200)]
        is_over = threading.Event()

        def trickle():
            for each in tricklers:
                each.sendall(b"\xff\xff\x00\x01")
            while not is_over.wait(0.3):
                for each in tricklers:
                    try:
                        each.sendall(b"\x00")
                    except OSError:
                        pass

        sender = threading.Thread(target=trickle, daemon=True)
        sender.start()
        time.sleep(1)
        for place in range(5):
            start = time.monotonic()
            client = log_in(router)
            seconds = time.monotonic() - start
            check(f"login {place} beside 200 that trickle, {seconds:.2f} s", seconds < 1 and answers(client))
        time.sleep(33)
        check(f"they are cut after 30 seconds, {router.descriptors()} descriptors", router.descriptors() < 30)
        is_over.set()


@case
def a_frozen_shard_holds_as_many_workers_as_the_buffer_has_room(program):
    with Router(program, workers=4, buffer=2) as router:
        client = load(router, 400)
        writers = [log_in(router) for _ in range(40)]
        router.admin("create -40 -20,20-40")
        follow(router)
        answer = router.admin("advance")
        # ids of the shard -40: their bits are reversed
        frozen = [row for row in range(400) if int(f"{row:064b}"[::-1], 2) >> 56 < 0x40]
        others = [row for row in range(400) if int(f"{row:064b}"[::-1], 2) >> 56 >= 0x80]
        for writer, row in zip(writers, frozen):
            writer.command(QUERY, f"UPDATE t SET c = 7 WHERE id = {row}".encode())
        time.sleep(1)
        told = {writer: writer.read() for writer in writers if select.select([writer.socket], [], [], 0)[0]}
        texts = sorted(error_of(payload) if payload[:1] == b"\xff" else "ok" for payload in told.values())
        check(f"after `advance` ({answer}) two wait and the others are refused", texts, [BUFFER_FULL] * 38)
        slowest = 0
        for row in others[:50]:
            start = time.monotonic()
            found = rows_of(client.query(f"SELECT c FROM t WHERE id = {row}".encode()))
            slowest = max(slowest, time.monotonic() - start)
            if found != [[str(row).encode()]]:
                check("a row of another shard", found, row)
        check(f"reads of another shard go on, the slowest {slowest * 1000:.1f} ms", slowest < 0.5)
        router.admin("resume")
        waited = [writer for writer in writers if writer not in told]
        check("those that waited are answered", [writer.read()[:1] for writer in waited], [b"\0"] * 2)


@case
def a_thousand_logins_at_once(program):
    with Router(program, workers=8, descriptors=3000) as router:
        start = time.monotonic()
        clients = [Client(router.address, 60) for _ in range(1000)]
        for client in clients:
            client.greeting()
            client.respond(USER.encode(), b"")
        check("each is let in", all(client.read()[:1] == b"\0" for client in clients))
        seconds = time.monotonic() - start
        print(f"  a thousand logins at once: {seconds:.2f} s", flush=True)
        check(f"within five seconds by this client, {seconds:.2f}", seconds < 5)


@case
def it_ends_after_the_last_one(program):
    with Router(program, workers=2, connections=50) as router:
        clients = [log_in(router) for _ in range(50)]
        check("before they go it runs", router.process.poll(), None)
        for client in clients:
            check("one of the last", answers(client))
            client.command(1)
            client.socket.close()
        check("after the last it ends", router.process.wait(10), 0)


def main():
    _, hard = resource.getrlimit(resource.RLIMIT_NOFILE)
    resource.setrlimit(resource.RLIMIT_NOFILE, (hard, hard))
    run_cases(sys.argv[1], sys.argv[2:], tells=True)
    sys.exit(ended("many"))


if __name__ == "__main__":
    main()

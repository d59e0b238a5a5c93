"""A served router with rows, and a client that times how long statements take. Called by tables.py."""

import json
import pathlib
import select
import socket
import statistics
import struct
import subprocess
import sys
import tempfile
import threading
import time

TOP = pathlib.Path(__file__).resolve().parents[1]
sys.path.insert(0, str(TOP / "tests" / "clients"))

import measured  # noqa: E402
import packets  # noqa: E402
from router import free_ports  # noqa: E402

# How many statements are sent before their replies are read, and of how many bytes in all: a longer one is sent alone. The system holds that much and
# the replies, so that neither side waits for the other to read.
AT_ONCE, BYTES_AT_ONCE = 200, 1 << 16
PATIENCE = 120


def packet(text):
    payload = bytes([packets.QUERY]) + text.encode()
    return len(payload).to_bytes(3, "little") + b"\0" + payload


def runs(texts):
    """The statements in runs that are each sent at once."""
    run, size = [], 0
    for text in texts:
        if run and (len(run) == AT_ONCE or size + len(text) > BYTES_AT_ONCE):
            yield run
            run, size = [], 0
        run.append(text)
        size += len(text)
    if run:
        yield run


def first_error(replies):
    """The line of the first ERR packet, if there is one."""
    at = 0
    while at < len(replies):
        end = at + 4 + int.from_bytes(replies[at : at + 3], "little")
        if replies[at + 4] == 0xFF:
            return packets.error_of(bytes(replies[at + 4 : end]))
        at = end
    return "no error"


class Client(packets.Client):
    """A client of the router. It asks once for what it measures, and knows from then on how many bytes are the replies."""

    def __init__(self, port):
        super().__init__(("127.0.0.1", port))
        self.login(b"bench", b"", capabilities=packets.PLAIN | packets.DEPRECATE_EOF, database=b"shop")
        # the system's own patience: with Python's a read ends before all has come
        self.socket.settimeout(None)
        self.socket.setsockopt(socket.SOL_SOCKET, socket.SO_RCVTIMEO, struct.pack("ll", PATIENCE, 0))
        self.socket.setsockopt(socket.IPPROTO_TCP, socket.TCP_NODELAY, 1)
        self.room = bytearray()

    def reply_size(self, text, refused=False):
        """Asks, and gives how many bytes the reply has."""
        payloads = self.query(text.encode())
        if (payloads[0][0] == 0xFF) != refused:
            sys.exit(f"{text[:60]}: {packets.error_of(payloads[0])}")
        return sum(4 + len(it) for it in payloads)

    def reply_sizes(self, texts, refused=False):
        """How many bytes the replies to each run of the statements have."""
        return [sum(self.reply_size(text, refused) for text in run) for run in runs(texts)]

    def ask(self, asked, sizes):
        """Sends each of the runs, and reads its replies."""
        for run, size in zip(asked, sizes):
            self.socket.sendall(run)
            count = self.socket.recv_into(self.room, size, socket.MSG_WAITALL)
            if count != size or select.select([self.socket], [], [], 0)[0]:
                first = run[5 : 4 + int.from_bytes(run[:3], "little")].decode()
                raise RuntimeError(f"another reply than at first to {first[:60]}: {first_error(self.room[:count])}")

    def prepared(self, texts, sizes):
        """The bytes of each run, once there is room for the replies."""
        if len(self.room) < max(sizes, default=0):
            self.room = bytearray(max(sizes))
        return [b"".join(packet(text) for text in run) for run in runs(texts)]


class Router:
    """A router of so many shards, each with so many rows, until the `with` ends, and one client."""

    def __init__(self, program, shards, rows=0):
        self.program, self.shards, self.rows = program, shards, rows

    def __enter__(self):
        self.port, admin = free_ports(2)
        call = ["serve", measured.names_of(self.shards), f"127.0.0.1:{self.port}", f"127.0.0.1:{admin}", "8", "8", "0", "bench", "-", "a nonce of the bench"]
        with tempfile.TemporaryFile("w+") as schema:
            json.dump(measured.SCHEMA, schema)
            schema.seek(0)
            self.process = subprocess.Popen([self.program, *call], stdin=schema, stdout=subprocess.PIPE)
        if self.process.stdout.readline() != b"listening\n":
            sys.exit("the router doesn't listen")
        self.client = Client(self.port)
        for text in measured.load(self.shards, self.rows):
            self.client.reply_size(text)
        return self

    def __exit__(self, *_):
        self.process.kill()
        self.process.wait()

    def cell(self, kind, refused=False):
        """What measures a kind of statement by one client."""
        return cell([self.client], [kind], refused)


def seconds(clients, asked, sizes):
    """How long all clients take that ask at once, each in a thread of its own, but for one alone."""
    if len(clients) == 1:
        begin = time.perf_counter()
        clients[0].ask(asked[0], sizes[0])
        return time.perf_counter() - begin
    start, spans = threading.Barrier(len(clients)), []

    def work(client, runs, its):
        start.wait()
        begin = time.perf_counter()
        client.ask(runs, its)
        spans.append((begin, time.perf_counter()))

    threads = [threading.Thread(target=work, args=it) for it in zip(clients, asked, sizes)]
    for it in threads:
        it.start()
    for it in threads:
        it.join()
    if len(spans) < len(clients):
        sys.exit("a client failed")
    return max(end for _, end in spans) - min(begin for begin, _ in spans)


def cell(clients, kinds, refused=False):
    """What measures kinds of statements, each of a client: a function from the number of a round to the seconds of a statement."""
    sizes = [client.reply_sizes(kind.texts(0), refused) for client, kind in zip(clients, kinds)]
    undone = [client.reply_sizes(kind.undo) for client, kind in zip(clients, kinds)]

    def measure(number):
        texts = [kind.texts(number + 1) for kind in kinds]
        asked = [client.prepared(*it) for client, *it in zip(clients, texts, sizes)]
        took = seconds(clients, asked, sizes)
        for client, kind, its in zip(clients, kinds, undone):
            client.ask(client.prepared(kind.undo, its), its)
        return took / sum(map(len, texts))

    return measure


def compared(rounds, cells):
    """The middle seconds of each cell, and the middle ratio to the first one's. In each round the cells take turns and a ratio is taken: the machine's
    speed changes within a run."""
    times = [[] for _ in cells]
    for number in range(rounds):
        places = range(len(cells))
        for place in places if number % 2 == 0 else reversed(places):
            times[place].append(cells[place](number))
    return [(statistics.median(its), statistics.median(one / first for one, first in zip(its, times[0]))) for its in times]

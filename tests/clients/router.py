"""The router as a process of its own, on ports of its own."""

import hashlib
import os
import pathlib
import resource
import select
import socket
import subprocess

TOP = pathlib.Path(__file__).resolve().parents[2]
SCHEMA = TOP / "examples" / "shop.json"
SHARDS = "-40,40-80,80-c0,c0-"
USER = "app"


def free_ports(count):
    """Ports that nobody uses now."""
    sockets = [socket.socket() for _ in range(count)]
    for each in sockets:
        each.bind(("127.0.0.1", 0))
    ports = [each.getsockname()[1] for each in sockets]
    for each in sockets:
        each.close()
    return ports


def stage2(password):
    """The password as the program's word has it."""
    if not password:
        return "-"
    return hashlib.sha1(hashlib.sha1(password.encode()).digest()).hexdigest()


class Router:
    """`vtgate serve` over the tables of examples/shop.json, or of another VSchema, until the `with` ends."""

    def __init__(self, program, password="", workers=4, buffer=8, connections=0, descriptors=1024, host="127.0.0.1", schema=SCHEMA):
        self.port, self.admin_port = free_ports(2)
        words = ["serve", SHARDS, f"{host}:{self.port}", f"127.0.0.1:{self.admin_port}", str(workers), str(buffer), str(connections)]
        self.process = subprocess.Popen(
            [program, *words, USER, stage2(password), "a nonce of the tests"],
            stdin=schema.open(),
            stdout=subprocess.PIPE,
            stderr=subprocess.PIPE,
            preexec_fn=lambda: resource.setrlimit(resource.RLIMIT_NOFILE, (descriptors, descriptors)),
        )
        told = select.select([self.process.stdout], [], [], 60)[0] and self.process.stdout.readline()
        if told != b"listening\n":
            self.stop()
            raise RuntimeError(f"the router said {told} and {self.process.stderr.read()}")

    def __enter__(self):
        return self

    def __exit__(self, *_):
        self.stop()

    @property
    def address(self):
        return ("127.0.0.1", self.port)

    def stop(self):
        if self.process.poll() is None:
            self.process.kill()
        self.process.wait()

    def descriptors(self):
        """How many files and sockets the process has open."""
        return len(os.listdir(f"/proc/{self.process.pid}/fd"))

    def processor_seconds(self):
        """What the process has used so far."""
        with open(f"/proc/{self.process.pid}/stat") as stat:
            fields = stat.read().rpartition(")")[2].split()
        return (int(fields[11]) + int(fields[12])) / os.sysconf("SC_CLK_TCK")

    def admin(self, *lines):
        """The answers to lines of one connection to the admin port."""
        with socket.create_connection(("127.0.0.1", self.admin_port), 10) as connection:
            connection.sendall("".join(line + "\n" for line in lines).encode())
            connection.shutdown(socket.SHUT_WR)
            answer = b""
            while piece := connection.recv(4096):
                answer += piece
        return answer.decode().splitlines()

"""The client side of MySQL's protocol, packet by packet: for what the clients' own libraries don't let one choose or break."""

import hashlib
import socket

LONG_PASSWORD = 0x1
CONNECT_WITH_DB = 0x8
PROTOCOL_41 = 0x200
SECURE_CONNECTION = 0x8000
PLUGIN_AUTH = 0x80000
DEPRECATE_EOF = 0x1000000

PLAIN = LONG_PASSWORD | PROTOCOL_41 | SECURE_CONNECTION

QUIT, INIT_DB, QUERY, STATISTICS, PING, SET_OPTION, RESET_CONNECTION = 1, 2, 3, 9, 14, 27, 31


def sha1(data):
    return hashlib.sha1(data).digest()


def native(password, salt):
    """The answer of mysql_native_password."""
    if not password:
        return b""
    once = sha1(password)
    mask = sha1(salt + sha1(once))
    return bytes(a ^ b for a, b in zip(once, mask))


def number_at(data, at):
    """A length-encoded number and the position after it, None for NULL."""
    first = data[at]
    if first < 251:
        return first, at + 1
    if first == 251:
        return None, at + 1
    size = {252: 2, 253: 3, 254: 8}[first]
    return int.from_bytes(data[at + 1 : at + 1 + size], "little"), at + 1 + size


def texts_of(data):
    """The length-encoded strings that a payload is."""
    at, texts = 0, []
    while at < len(data):
        length, at = number_at(data, at)
        texts.append(None if length is None else data[at : at + length])
        at += length or 0
    return texts


class Closed(Exception):
    """The server closed the connection."""


class Client:
    def __init__(self, address, timeout=60):
        self.socket = socket.create_connection(address, timeout)
        self.number = 0
        self.capabilities = 0

    def __enter__(self):
        return self

    def __exit__(self, *_):
        self.socket.close()

    def read_exactly(self, count):
        data = b""
        while len(data) < count:
            try:
                piece = self.socket.recv(count - len(data))
            except ConnectionResetError:
                raise Closed("reset")
            if not piece:
                raise Closed("end")
            data += piece
        return data

    def read(self):
        """The next payload."""
        header = self.read_exactly(4)
        self.number = header[3]
        return self.read_exactly(int.from_bytes(header[:3], "little"))

    def send(self, payload, number):
        self.socket.sendall(len(payload).to_bytes(3, "little") + bytes([number]) + payload)

    def greeting(self):
        """Reads the greeting, and gives its id, capabilities and salt."""
        data = self.read()
        end = data.index(0, 1)
        version, rest = data[1:end], data[end + 1 :]
        lower = int.from_bytes(rest[13:15], "little")
        upper = int.from_bytes(rest[18:20], "little")
        self.salt = rest[4:12] + rest[31:43]
        return version, int.from_bytes(rest[:4], "little"), lower | upper << 16

    def respond(self, user, answer, capabilities=PLAIN, database=None, plugin=None):
        """Answers the greeting."""
        if database is not None:
            capabilities |= CONNECT_WITH_DB
        if plugin is not None:
            capabilities |= PLUGIN_AUTH
        self.capabilities = capabilities
        data = capabilities.to_bytes(4, "little") + bytes(4) + b"\x3f" + bytes(23)
        data += user + b"\0" + bytes([len(answer)]) + answer
        for text in (database, plugin):
            data += b"" if text is None else text + b"\0"
        self.send(data, 1)

    def login(self, user, password, **choices):
        """Greeting, response and the server's payload for it."""
        self.greeting()
        self.respond(user, native(password, self.salt), **choices)
        return self.read()

    def command(self, code, data=b""):
        self.send(bytes([code]) + data, 0)

    def query(self, text):
        """Sends a query, and gives the payloads of its reply."""
        self.command(QUERY, text)
        return self.read_reply()

    def read_reply(self):
        """The payloads of the reply to a query."""
        payloads = [self.read()]
        if payloads[0][0] in (0x00, 0xFF):
            return payloads
        ends = 1 if self.capabilities & DEPRECATE_EOF else 2
        while ends:
            payloads.append(self.read())
            if payloads[-1][0] == 0xFE and len(payloads[-1]) < 9:
                ends -= 1
        return payloads


def error_of(payload):
    """The line of an ERR packet."""
    if payload[:1] != b"\xff":
        return "no error: " + payload.hex(" ")
    code = int.from_bytes(payload[1:3], "little")
    return f"ERROR {code} ({payload[4:9].decode()}): {payload[9:].decode()}"

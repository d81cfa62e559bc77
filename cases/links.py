"""A client of a server: a WebSocket (RFC 6455) over a socket, of which every read has a deadline.

A greeting, a frame and a mask can each be sent by themselves, so that peers that break the rules
are made of the same parts.
"""
import base64
import hashlib
import os
import socket
import struct
import time

SECONDS = 10.0
CHUNK = 65536
AT_A_TIME = 64
TEXT, BINARY, CLOSE, PING, PONG = 1, 2, 8, 9, 10
NORMAL_CLOSE = struct.pack(">H", 1000)
SHORT, TWO_BYTES, EIGHT_BYTES = 126, 126, 127
KEY_SUFFIX = "258EAFA5-E914-47DA-95CA-C5AB0DC85B11"


class Gone(Exception):
    """The link has ended, or was never greeted."""


def masked(payload, mask):
    """A payload under a mask of four bytes; a second time gives the payload again."""
    size = len(payload)
    wide = (mask * (size // 4 + 1))[:size]
    return (int.from_bytes(payload, "big") ^ int.from_bytes(wide, "big")).to_bytes(size, "big")


def head(kind, size, final=True, is_masked=True):
    """The front of a frame that announces a payload of so many bytes."""
    first, flag = kind | (0x80 if final else 0), 0x80 if is_masked else 0
    if size < SHORT:
        return bytes([first, flag | size])
    if size < 1 << 16:
        return bytes([first, flag | TWO_BYTES]) + struct.pack(">H", size)
    return bytes([first, flag | EIGHT_BYTES]) + struct.pack(">Q", size)


def frame(kind, payload, final=True):
    """A frame as a client sends it."""
    mask = os.urandom(4)
    return head(kind, len(payload), final) + mask + masked(payload, mask)


def new_key():
    """A key for a greeting."""
    return base64.b64encode(os.urandom(16)).decode()


def greeting(key, host="localhost", path="/", **changed):
    """The request of a handshake; a field that is changed to None is left out."""
    fields = {
        "Host": host, "Upgrade": "websocket", "Connection": "Upgrade",
        "Sec-WebSocket-Key": key, "Sec-WebSocket-Version": "13",
    }
    fields |= {name.replace("_", "-"): value for name, value in changed.items()}
    lines = [f"{name}: {value}" for name, value in fields.items() if value is not None]
    return "\r\n".join([f"GET {path} HTTP/1.1", *lines, "", ""]).encode()


def accepted(key):
    """What a server answers to a key."""
    return base64.b64encode(hashlib.sha1((key + KEY_SUFFIX).encode()).digest()).decode()


def connected(address, seconds=SECONDS):
    """A socket to an address, over which nothing was sent yet."""
    stream = socket.create_connection(address, timeout=seconds)
    stream.setsockopt(socket.IPPROTO_TCP, socket.TCP_NODELAY, 1)
    return stream


class Link:
    """A link on which a greeting was sent. It answers pings by itself."""

    def __init__(self, stream, host="localhost", path="/"):
        self.stream, self.waiting, self.parts, self.is_open = stream, bytearray(), b"", True
        self.key = new_key()
        self.send_bytes(greeting(self.key, host, path))

    def greeted(self, seconds=SECONDS):
        """The link, once the answer to the greeting has come."""
        deadline = time.monotonic() + seconds
        while b"\r\n\r\n" not in self.waiting:
            if not self.fill(deadline):
                self.end()
                raise Gone("no answer to the greeting in time")
        front, _, rest = bytes(self.waiting).partition(b"\r\n\r\n")
        self.waiting = bytearray(rest)
        lines = front.decode("latin-1").split("\r\n")
        fields = dict(line.lower().split(":", 1) for line in lines[1:] if ":" in line)
        answer = fields.get("sec-websocket-accept", "").strip()
        if lines[0].split(" ")[1:2] != ["101"] or answer != accepted(self.key).lower():
            self.end()
            raise Gone(f"the greeting was answered {lines[0]!r}")
        return self

    def end(self):
        """Ends the connection, whatever the other side says."""
        self.is_open = False
        self.stream.close()

    def send_bytes(self, data):
        """Sends bytes that need be no frame."""
        try:
            self.stream.sendall(data)
        except OSError as error:
            self.end()
            raise Gone(f"a send failed: {error}") from error

    def send(self, message):
        """Sends a message."""
        self.send_bytes(frame(TEXT, message.encode()))

    def fill(self, deadline):
        """Whether more bytes came before the deadline."""
        left = deadline - time.monotonic()
        if left <= 0:
            return False
        try:
            self.stream.settimeout(left)
            more = self.stream.recv(CHUNK)
            self.stream.settimeout(SECONDS)
        except TimeoutError:
            return False
        except OSError as error:
            self.end()
            raise Gone(f"a read failed: {error}") from error
        if not more:
            self.end()
            raise Gone("the connection was ended")
        self.waiting += more
        return True

    def taken(self):
        """The next whole frame of what came: whether it is the last of its message, its kind and
        its payload. None if there is no whole one yet."""
        data = self.waiting
        if len(data) < 2:
            return None
        size, at = data[1] & 0x7F, 2
        if size >= SHORT:
            at = 4 if size == TWO_BYTES else 10
            if len(data) < at:
                return None
            size = int.from_bytes(data[2:at], "big")
        if len(data) < at + size:
            return None
        payload = bytes(data[at:at + size])
        found = data[0] & 0x80, data[0] & 0x0F, payload
        del data[:at + size]
        return found

    def line(self, seconds=SECONDS):
        """The next line that the server sends, or None if there is none in time."""
        deadline = time.monotonic() + seconds
        while True:
            found = self.taken()
            if found is None:
                if not self.fill(deadline):
                    return None
                continue
            is_last, kind, payload = found
            if kind == CLOSE:
                self.end()
                raise Gone(f"the server closed: {int.from_bytes(payload[:2], 'big') or 'no code'}")
            if kind == PING:
                self.send_bytes(frame(PONG, payload))
            if kind >= CLOSE:
                continue
            self.parts += payload
            if is_last:
                text, self.parts = self.parts, b""
                return text.decode().rstrip("\n")

    def is_gone(self, seconds=SECONDS):
        """Whether the server ends the link in time; lines that come before are dropped."""
        deadline = time.monotonic() + seconds
        try:
            while self.line(deadline - time.monotonic()) is not None:
                pass
        except Gone:
            return True
        return False

    def close(self, seconds=SECONDS):
        """Ends the link as the rules have it: says so, and waits for the other side."""
        if self.is_open:
            try:
                self.send_bytes(frame(CLOSE, NORMAL_CLOSE))
                self.is_gone(seconds)
            except Gone:
                pass
            self.end()


def begun(address, seconds=SECONDS):
    """A link to an address on which a greeting was sent."""
    return Link(connected(address, seconds), f"{address[0]}:{address[1]}")


def link_to(address, seconds=SECONDS):
    """A greeted link to a server at an address."""
    return begun(address, seconds).greeted(seconds)


def links_to(address, count, seconds=SECONDS):
    """So many greeted links. Many greet at a time, since a door may look for clients now and then
    only; but not more than may wait at a door."""
    made = []
    while len(made) < count:
        together = range(min(AT_A_TIME, count - len(made)))
        made += [it.greeted(seconds) for it in [begun(address, seconds) for _ in together]]
    return made

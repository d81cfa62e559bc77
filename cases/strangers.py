"""Peers who break the rules of a WebSocket or of manners, and what a server owes them.

Each stranger is a function over the address of a server. It answers what became of it, and what
the server did otherwise than it should is raised as Wrong. A crowd of them lives in a process of
its own, so that it does not slow those who are watched meanwhile.
"""
import multiprocessing
import multiprocessing.pool
import queue
import select
import socket
import struct
import time

import links
from members import answer_before_hello, message
from servers import Wrong, demand

SECONDS = 20.0
LONGEST_MESSAGE = 65536
LONGEST_REQUEST = 16384
ANNOUNCED = 100 * 1024 * 1024
LONGEST_PING = 125
SILENT_LINKS = 200
HALF_OPEN = 5
BYTES_OF_A_FLOOD = 16 * 1024 * 1024
NOT_GREETED = 'denied {"code":5}'
TOO_LONG = 'bad {"code":5}'
NO_WORD = 'bad {"code":1}'
RESERVED_KIND = 3
INVALID = b'look {"room":\xff\xfe}'


def is_dropped(stream, seconds=SECONDS):
    """Whether the server ends a bare connection in time, whatever it sends before."""
    deadline = time.monotonic() + seconds
    try:
        while deadline > time.monotonic():
            stream.settimeout(deadline - time.monotonic())
            if not stream.recv(links.CHUNK):
                return True
    except TimeoutError:
        return False
    except OSError:
        return True
    return False


def turned_away(address, *pieces):
    """A connection that sends these bytes, and that is owed an end without a greeting."""
    with links.connected(address) as stream:
        for piece in pieces:
            try:
                stream.sendall(piece)
            except OSError:
                return "dropped"
        front = first_bytes(stream)
        demand(b" 101 " not in front, f"greeted: {front[:60]!r}")
        demand(not front or is_dropped(stream), "not dropped")
    return "dropped"


def first_bytes(stream):
    """The first bytes that come, none if the connection is ended before."""
    stream.settimeout(SECONDS)
    try:
        return stream.recv(links.CHUNK)
    except TimeoutError as error:
        raise Wrong("neither answered nor dropped") from error
    except OSError:
        return b""


def closed(address, *pieces):
    """A greeted link that sends these bytes, and that is owed its end."""
    link = links.link_to(address, SECONDS)
    try:
        for piece in pieces:
            link.send_bytes(piece)
        demand(link.is_gone(SECONDS), "the link was not closed")
    except links.Gone:
        pass
    link.end()
    return "closed"


def answered(address, data, owed):
    """A greeted link that sends these bytes and is owed a line, after which it goes on."""
    link = links.link_to(address, SECONDS)
    link.send_bytes(data)
    line = link.line(SECONDS)
    demand(line == owed, f"answered {line}, owed {owed}")
    line = answer_before_hello(link, SECONDS)
    demand(line == NOT_GREETED, f"afterwards answered {line}")
    link.close()
    return "answered"


# Greetings


def half_open(address):
    """Says nothing at all."""
    return turned_away(address)


def half_a_greeting(address):
    """Says the front of a greeting, and no more."""
    return turned_away(address, links.greeting(links.new_key())[:40])


def other_protocol(address):
    """Speaks TLS to a server that does not."""
    return turned_away(address, b"\x16\x03\x01\x02\x00\x01\x00\x01\xfc\x03\x03" + bytes(500))


def no_upgrade(address):
    """Asks for a page."""
    return turned_away(address, links.greeting(links.new_key(), Upgrade=None, Connection=None))


def no_key(address):
    """Greets without a key."""
    return turned_away(address, links.greeting(links.new_key(), Sec_WebSocket_Key=None))


def other_version(address):
    """Greets by another version of the protocol."""
    return turned_away(address, links.greeting(links.new_key(), Sec_WebSocket_Version="8"))


def posted(address):
    """Greets by another method."""
    return turned_away(address, links.greeting(links.new_key()).replace(b"GET", b"POST", 1))


def endless_greeting(address):
    """Greets with fields that do not end."""
    field = b"X-Field: " + b"x" * 1000 + b"\r\n"
    return turned_away(address, links.greeting(links.new_key())[:-2], *[field] * 2000)


def slow_greeting(address):
    """Greets one byte at a time, longer than a server waits."""
    data = links.greeting(links.new_key())
    with links.connected(address) as stream:
        for at in range(0, len(data)):
            try:
                stream.sendall(data[at:at + 1])
            except OSError:
                return "dropped"
            time.sleep(0.05)
        demand(b" 101 " not in first_bytes(stream), "greeted")
    return "dropped"


# Frames


def announced_giant(address):
    """Announces 100 MiB in one frame, and begins to send it."""
    return closed(address, links.head(links.TEXT, ANNOUNCED) + bytes(4), bytes(100_000))


def announced_beyond(address):
    """Announces more bytes than there are numbers for."""
    return closed(address, b"\x81\xff" + b"\xff" * 8 + bytes(4))


def too_long(address):
    """Sends a message of one byte more than a link takes."""
    return closed(address, links.frame(links.TEXT, b"x" * (LONGEST_MESSAGE + 1)))


def too_long_in_pieces(address):
    """Sends such a message in fragments."""
    front = links.frame(links.TEXT, b"x" * LONGEST_MESSAGE, final=False)
    return closed(address, front, links.frame(0, b"x"))


def longest(address):
    """Sends the longest message that a link takes, which is no request."""
    return answered(address, links.frame(links.TEXT, b"x" * LONGEST_MESSAGE), TOO_LONG)


def longer_than_a_request(address):
    """Sends a message of one byte more than a request may have."""
    return answered(address, links.frame(links.TEXT, b"x" * (LONGEST_REQUEST + 1)), TOO_LONG)


def in_pieces(address):
    """Sends a whole message in fragments, with a ping between them."""
    text = message("look", room=1).encode()
    pieces = [links.frame(links.TEXT, text[:3], final=False), links.frame(links.PING, b"here"),
              links.frame(0, text[3:9], final=False), links.frame(0, text[9:])]
    return answered(address, b"".join(pieces), NOT_GREETED)


def invalid_text(address):
    """Sends a text that is not UTF-8."""
    return closed(address, links.frame(links.TEXT, INVALID))


def binary(address):
    """Sends bytes and not a text, which counts as an empty message."""
    return answered(address, links.frame(links.BINARY, message("look", room=1).encode()), NO_WORD)


def unmasked(address):
    """Sends a frame without a mask."""
    text = message("look", room=1).encode()
    return closed(address, links.head(links.TEXT, len(text), is_masked=False) + text)


def reserved_kind(address):
    """Sends a frame of a kind that is not used."""
    return closed(address, links.frame(RESERVED_KIND, b"x"))


def reserved_bits(address):
    """Sends a frame as if an extension had been agreed."""
    data = bytearray(links.frame(links.TEXT, b"x"))
    data[0] |= 0x40
    return closed(address, bytes(data))


def lone_continuation(address):
    """Goes on with a message that it has not begun."""
    return closed(address, links.frame(0, b"x"))


def long_ping(address):
    """Sends a control frame that is too long."""
    return closed(address, links.frame(links.PING, b"x" * (LONGEST_PING + 1)))


def half_a_frame(address):
    """Sends the half of a frame, and goes."""
    link = links.link_to(address, SECONDS)
    link.send_bytes(links.frame(links.TEXT, message("look", room=1).encode())[:9])
    link.end()
    return "gone"


def reset(address):
    """Breaks the connection off behind a message."""
    link = links.link_to(address, SECONDS)
    link.send(message("look", room=1))
    link.stream.setsockopt(socket.SOL_SOCKET, socket.SO_LINGER, struct.pack("ii", 1, 0))
    link.end()
    return "gone"


def one_byte_a_second(address):
    """Sends a message one byte a second, and is answered at its end."""
    link = links.link_to(address, SECONDS)
    for byte in links.frame(links.TEXT, message("look", room=1).encode()):
        link.send_bytes(bytes([byte]))
        time.sleep(1.0)
    line = link.line(SECONDS)
    demand(line == NOT_GREETED, f"answered {line}")
    link.close()
    return "answered"


def reads_nothing(address):
    """Pings and never reads, until the link is closed or it has said enough."""
    link = links.link_to(address, SECONDS)
    data = links.frame(links.PING, b"x" * LONGEST_PING) * 100
    link.stream.setblocking(False)
    said, deadline = 0, time.monotonic() + SECONDS
    while said < BYTES_OF_A_FLOOD and time.monotonic() < deadline:
        select.select([], [link.stream], [], 1.0)
        try:
            said += link.stream.send(data)
        except BlockingIOError:
            pass
        except OSError:
            link.end()
            return "closed"
    link.end()
    return f"went after {said} bytes"


QUICK = [
    half_open, half_a_greeting, other_protocol, no_upgrade, no_key, other_version, posted,
    endless_greeting, slow_greeting, announced_giant, announced_beyond, too_long,
    too_long_in_pieces, longest, longer_than_a_request, in_pieces, invalid_text, binary, unmasked,
    reserved_kind, reserved_bits, lone_continuation, long_ping, half_a_frame, reset,
]
SLOW = [one_byte_a_second, reads_nothing]


def outcome(stranger, address):
    """What became of a stranger: its name, whether it was treated right, and what is told."""
    try:
        return stranger.__name__, True, stranger(address)
    except (Wrong, links.Gone, OSError) as error:
        return stranger.__name__, False, f"{type(error).__name__}: {error}"


def visit(address, ready, leave, told):
    """The crowd: links that say nothing are held, half-open ones are begun, the slow ones take
    their time and the quick ones come again and again, until the crowd is asked to leave."""
    silent = links.links_to(address, SILENT_LINKS, SECONDS)
    ready.set()
    with multiprocessing.pool.ThreadPool(len(SLOW)) as pool:
        slow = [pool.apply_async(outcome, (it, address)) for it in SLOW]
        rounds = 0
        while not leave.is_set():
            half = [links.connected(address) for _ in range(HALF_OPEN)]
            for stranger in QUICK:
                told.put(outcome(stranger, address))
            for stream in half:
                stream.close()
            rounds += 1
        for it in slow:
            told.put(it.get())
    told.put(("silent_links", *kept(silent)))
    told.put(("rounds", True, rounds))
    told.put(None)


def kept(silent):
    """Whether links that said nothing are still there, and answered."""
    lines = []
    for link in silent:
        try:
            lines.append(answer_before_hello(link, SECONDS))
            link.close()
        except links.Gone as error:
            lines.append(str(error))
    wrong = [it for it in lines if it != NOT_GREETED]
    return not wrong, wrong[0] if wrong else f"{len(silent)} answered"


class Crowd:
    """All strangers at once, in a process of their own."""

    def __init__(self, address):
        fork = multiprocessing.get_context("fork")
        self.ready, self.leave, self.told = fork.Event(), fork.Event(), fork.Queue()
        words = (address, self.ready, self.leave, self.told)
        self.process = fork.Process(target=visit, args=words, daemon=True)
        self.process.start()
        if not self.ready.wait(SECONDS * 2):
            self.process.kill()
            raise Wrong(f"{SILENT_LINKS} links were not greeted in time")

    def end(self):
        """Has the crowd leave: what became of each."""
        self.leave.set()
        outcomes = []
        try:
            for found in iter(lambda: self.told.get(timeout=4 * SECONDS), None):
                outcomes.append(found)
        except queue.Empty as error:
            self.process.kill()
            raise Wrong("the strangers do not come to an end") from error
        self.process.join(SECONDS)
        return outcomes

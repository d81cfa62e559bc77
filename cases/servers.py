"""A server that a script starts, what it takes of the machine, and how it is stopped."""
import os
import pathlib
import re
import socket
import subprocess
import sys
import threading
import time

import links

TOP = pathlib.Path(__file__).resolve().parent.parent
PROGRAM = TOP / "crates" / "hanabi" / "out" / "hanabi"
LOOPBACK = "127.0.0.1"
START_SECONDS = 20.0
STOP_SECONDS = 20.0
# How long a server is watched that is not to end.
INPUT_SECONDS = 0.5
PAUSE = 0.05
KIBIBYTES_IN_A_MEBIBYTE = 1024
LAST_LINE = re.compile(r"served (\d+) turned (\d+)")


class Wrong(Exception):
    """What a server did otherwise than it should."""


class Skipped(Exception):
    """What a part needs and is not there."""


def demand(holds, otherwise):
    """Says what is wrong unless something holds."""
    if not holds:
        raise Wrong(otherwise)


def program_of(words):
    """The program that the words of a script name, or this repository's as it was built last."""
    if len(words) > 1:
        sys.exit("at most one word: the program")
    program = pathlib.Path(words[0] if words else PROGRAM).resolve()
    if not os.access(program, os.X_OK):
        sys.exit(f"there is no program {program.name}: call bin/hanabi first")
    return program


def free_port():
    """A port of the loopback that nobody listens at."""
    with socket.create_server((LOOPBACK, 0)) as listener:
        return listener.getsockname()[1]


def wait_until(holds, seconds, pause=PAUSE):
    """Whether something comes to hold in time."""
    deadline = time.monotonic() + seconds
    while not holds():
        if time.monotonic() > deadline:
            return False
        time.sleep(pause)
    return True


class Process:
    """What the system tells of a running process."""

    def __init__(self, number):
        self.folder = pathlib.Path("/proc") / str(number)

    def field(self, name):
        """A number of the process's status."""
        for line in (self.folder / "status").read_text().splitlines():
            if line.startswith(name + ":"):
                return int(line.split()[1])
        raise Wrong(f"the system tells no {name}")

    def resident(self):
        """The mebibytes of memory that it holds."""
        return self.field("VmRSS") / KIBIBYTES_IN_A_MEBIBYTE

    def threads(self):
        """How many threads it has."""
        return self.field("Threads")

    def mappings(self):
        """How many pieces of memory it has mapped, of which the system allows it 65,530 mostly.
        Each stack takes two, also that of a thread that has ended and was not waited for."""
        return len((self.folder / "maps").read_text().splitlines())

    def sockets(self):
        """How many sockets it has open."""
        names = [os.readlink(it) for it in self.files()]
        return sum(name.startswith("socket:") for name in names)

    def files(self):
        """The files that it has open, as links that last while one looks."""
        return [it for it in (self.folder / "fd").iterdir() if os.path.lexists(it)]

    def processor_seconds(self):
        """The seconds of processor time that it took."""
        fields = (self.folder / "stat").read_text().rpartition(")")[2].split()
        return (int(fields[11]) + int(fields[12])) / os.sysconf("SC_CLK_TCK")


class Meter:
    """The most memory that a process held at any look, while the meter stands."""

    def __init__(self, process):
        self.process, self.most, self.stopped = process, 0.0, threading.Event()
        self.thread = threading.Thread(target=self.look, daemon=True)

    def look(self):
        """Looks until the meter is stopped or the process has ended."""
        try:
            while not self.stopped.wait(PAUSE):
                self.most = max(self.most, self.process.resident())
        except (OSError, Wrong):
            pass

    def __enter__(self):
        self.thread.start()
        return self

    def __exit__(self, *_):
        self.stopped.set()
        self.thread.join()


class Server:
    """A server of so many rooms over a store, at a port of the loopback."""

    def __init__(self, program, rooms, store, scratch):
        self.address = (LOOPBACK, free_port())
        self.told = pathlib.Path(scratch) / f"told-{self.address[1]}"
        words = ["serve", f"{LOOPBACK}:{self.address[1]}", str(rooms), str(store)]
        with open(self.told, "wb") as told:
            self.child = subprocess.Popen(
                [program, *words], stdin=subprocess.PIPE, stdout=told, stderr=told)
        self.process = Process(self.child.pid)
        self.wait_for_door()

    def wait_for_door(self):
        """Waits until a client is greeted."""
        deadline = time.monotonic() + START_SECONDS
        while True:
            if self.child.poll() is not None:
                raise Wrong(f"the program ended with {self.child.returncode}: {self.text()[:200]}")
            try:
                links.link_to(self.address, 1.0).close()
                return
            except (OSError, links.Gone) as error:
                if time.monotonic() > deadline:
                    self.kill()
                    raise Wrong(f"no client is greeted: {error}") from error
                time.sleep(PAUSE)

    def link(self, seconds=links.SECONDS):
        """A greeted link."""
        return links.link_to(self.address, seconds)

    def text(self):
        """What the server wrote to its outputs."""
        return self.told.read_text(encoding="utf-8", errors="replace")

    def is_running(self):
        """Whether the server has not ended."""
        return self.child.poll() is None

    def stop(self):
        """Stops the server by the line `stop`: how many links it served and turned away. Anything
        but a clean end is wrong."""
        demand(self.is_running(), f"the server ended by itself: {self.text()[-200:]}")
        self.child.stdin.write(b"stop\n")
        self.child.stdin.flush()
        try:
            status = self.child.wait(STOP_SECONDS)
        except subprocess.TimeoutExpired as error:
            self.kill()
            raise Wrong("the server did not end in time") from error
        found = LAST_LINE.fullmatch(self.text().strip())
        demand(status == 0 and found, f"the server ended with {status}: {self.text()[-200:]!r}")
        return int(found[1]), int(found[2])

    def end_input(self):
        """Ends the server's input, which asks for nothing: it runs on."""
        self.child.stdin.close()
        time.sleep(INPUT_SECONDS)
        demand(self.is_running(), f"the end of its input ended the server: {self.text()[-200:]}")

    def kill(self):
        """Ends the server's process, if it still runs."""
        if self.is_running():
            self.child.kill()
            self.child.wait()


class Parts:
    """The parts of a script: each is run, and told in one line; then how many held."""

    def __init__(self, name):
        self.name, self.held, self.failed, self.skipped = name, 0, 0, 0

    def run(self, name, part):
        """Runs a part, which answers what is to be told of it."""
        try:
            told, said = part(), "held"
            self.held += 1
        except Skipped as error:
            told, said = error, "skipped"
            self.skipped += 1
        except (Wrong, links.Gone, OSError, ValueError, LookupError, TypeError,
                subprocess.SubprocessError) as error:
            told, said = f"{type(error).__name__}: {error}", "FAILED"
            self.failed += 1
        print(f"{name}: {said}: {told}", flush=True)

    def end(self):
        """Tells the counts, and gives the status of the script."""
        print(f"{self.name}: {self.held} held, {self.failed} failed, {self.skipped} skipped")
        return 1 if self.failed else 0

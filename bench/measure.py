"""What the measuring scripts share: the built program, inputs of the largest size, and what one run costs."""
import json
import os
import pathlib
import statistics
import sys
import time

TOP = pathlib.Path(__file__).resolve().parent.parent
PROGRAM = TOP / "crates" / "hanabi" / "out" / "hanabi"
MOST_INPUT = 8 * 1024 * 1024
LISTS_OF_NOTES = 64
NOTES_IN_A_LIST = 128
MEBIBYTE = 1024


def built_program():
    """This repository's program, as it was built last."""
    if not os.access(PROGRAM, os.X_OK):
        sys.exit("the program is not built: call bin/hanabi first")
    return PROGRAM


def replay(notes=None, **others):
    """A replay of one act, with the sixty cards of six suits in order, and with other keys in front."""
    ranks = (1, 1, 1, 2, 2, 3, 3, 4, 4, 5)
    value = {
        **others,
        "players": ["Ann", "Bob"],
        "deck": [{"suitIndex": suit, "rank": rank} for suit in range(6) for rank in ranks],
        "actions": [{"type": 0, "target": 0}],
        "options": {"variant": "6 Suits"},
    }
    if notes is not None:
        value["notes"] = [[notes] * NOTES_IN_A_LIST] * LISTS_OF_NOTES
    return json.dumps(value, separators=(",", ":")).encode()


def with_notes(piece):
    """As many notes as there may be, each of as many such pieces as fit."""
    room = (MOST_INPUT - len(replay(""))) // (LISTS_OF_NOTES * NOTES_IN_A_LIST)
    return replay(piece * (room // (len(json.dumps(piece)) - 2)))


def with_idle_keys():
    """A large value under a key that is ignored, and behind it a replay."""
    member = {"a": [1, -2.5, True, None, "text"], "b": {"c": "\u00e9"}}
    room = MOST_INPUT - len(replay(others=[]))
    return replay(others=[member] * (room // (len(json.dumps(member, separators=(",", ":"))) + 1)))


def write(path, make):
    """Has another process write a large input, so that this one stays small."""
    child = os.fork()
    if child == 0:
        path.write_bytes(make())
        os._exit(0)
    _, status = os.waitpid(child, 0)
    if status:
        sys.exit(f"measure: {path} could not be written")
    return path


class Run:
    """What one run took: seconds by the clock, seconds of processor time, and the peak of resident memory in MiB.

    The program is started with no copy of this script, whose memory costs no time then. But the system counts that memory as the
    least peak of the program.
    """

    def __init__(self, program, words, path):
        opened = [os.open(path, os.O_RDONLY), os.open(os.devnull, os.O_WRONLY)]
        actions = [(os.POSIX_SPAWN_DUP2, opened[to > 0], to) for to in range(3)]
        began = time.perf_counter()
        child = os.posix_spawn(program, [str(program), *words], os.environ, file_actions=actions)
        _, status, used = os.wait4(child, 0)
        self.wall = time.perf_counter() - began
        self.cpu = used.ru_utime + used.ru_stime
        self.peak = used.ru_maxrss / MEBIBYTE
        self.status = os.WEXITSTATUS(status) if os.WIFEXITED(status) else -1
        for it in opened:
            os.close(it)


def median(runs, of):
    return statistics.median(getattr(run, of) for run in runs)

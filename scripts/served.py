"""Runs of the program for the scripts that try it: many a second, each with bounds of time, and with calls of the
system that fail.

The program is kept at the door of its `main` by served.c, which is compiled into a folder that goes with the process.
What runs is the file that was named, as it is: a run by one thread in which nothing fails is carried out in the process
that is kept there, from the same begin each time, any other one in a child of it.
"""

import os
import signal
import socket
import struct
import subprocess
import tempfile
from typing import NamedTuple

HERE = os.path.dirname(os.path.realpath(__file__))
ROOT = os.path.dirname(HERE)
LENGTH, ANSWER = struct.Struct("<I"), struct.Struct("<iiiII")

# Bytes of an answer that are taken at once.
MOST_AT_ONCE = 1 << 17

# Seconds of processor time, and seconds that pass, after which a run is ended by a signal.
PROCESSOR, PASSED = 20, 300


class Failing(NamedTuple):
    """Which call is to fail: of memory `m`, threads `t`, reads `r` or writes `w`, counted from 1; with a capital
    letter all from it on. With `s` threads are slowed in the schedule of that number."""

    kind: str = "-"
    call: int = 0


class Step(NamedTuple):
    """A run: the program's words, and the file of the folder into which its output goes, if one is to. Nothing is read
    back from a device, whose path is whole."""

    words: list
    out: str = ""
    failing: Failing = Failing()


class Left(NamedTuple):
    """What a run left. Its status is that of `exit`, or the number of the signal that ended it, negative."""

    status: int
    out: bytes
    told: bytes
    seconds: float
    calls: int


class Served:
    """A program that is kept at its door, and the folder in which its runs find and leave files."""

    def __init__(self, program, processor=PROCESSOR, passed=PASSED):
        room = "/dev/shm" if os.path.isdir("/dev/shm") else None
        self.kept = tempfile.TemporaryDirectory(prefix="prop-", dir=room)
        self.folder = self.kept.name
        self.path_of_program = os.path.realpath(program)
        self.bounds = f"{processor}\0{passed}"
        library = os.path.join(self.folder, "served.so")
        source = os.path.join(HERE, "served.c")
        subprocess.run(["cc", "-O2", "-shared", "-fPIC", "-Wl,-z,now", "-o", library, source, "-ldl"], check=True)
        ours, theirs = socket.socketpair()
        self.socket, self.items, self.begun = ours, [], memoryview(bytearray(MOST_AT_ONCE))
        self.program = subprocess.Popen(
            [self.path_of_program],
            cwd=self.folder,
            env={"LD_PRELOAD": library, "SERVED": str(theirs.fileno())},
            pass_fds=[theirs.fileno()],
            stdin=subprocess.DEVNULL,
        )
        theirs.close()

    def __enter__(self):
        return self

    def __exit__(self, *_):
        self.socket.close()
        self.program.wait()
        self.kept.cleanup()

    def path(self, name):
        return os.path.join(self.folder, name)

    def put(self, name, content):
        with open(self.path(name), "wb") as file:
            file.write(content)

    def get(self, name):
        with open(self.path(name), "rb") as file:
            return file.read()

    def put_later(self, name, content):
        """Puts a file before the next run."""
        self.items.append(b"put\0%s\0%d\0%s" % (name.encode(), len(content), content))

    def run(self, steps):
        """Makes the runs one after the other, and gives what each left; the output of one may be a file of the next."""
        for words, out, (kind, call) in steps:
            fields = ["run", out, self.bounds, kind, str(call), str(len(words)), *words, ""]
            self.items.append("\0".join(fields).encode("utf-8", "surrogateescape"))
        request = b"".join(self.items)
        self.items = []
        self.socket.sendall(LENGTH.pack(len(request)) + request)
        return list(parted(self.answer()))

    def answer(self):
        """The answers to a request, which come behind their length."""
        answer = self.received()
        if not is_whole(answer):
            answer = bytearray(answer)
            while not is_whole(answer):
                answer += self.received()
        return bytes(answer)

    def received(self):
        size = self.socket.recv_into(self.begun)
        if size == 0:
            raise RuntimeError("the program that is kept at its door has gone")
        return bytes(self.begun[:size])


def is_whole(answer):
    return len(answer) >= LENGTH.size and len(answer) == LENGTH.size + LENGTH.unpack_from(answer)[0]


def parted(answers):
    """What each run left, by the answers behind their length."""
    at = LENGTH.size
    while at < len(answers):
        ended, microseconds, calls, output, told = ANSWER.unpack_from(answers, at)
        begin = at + ANSWER.size
        middle = begin + output
        at = middle + told
        status = -os.WTERMSIG(ended) if os.WIFSIGNALED(ended) else os.WEXITSTATUS(ended)
        yield Left(status, answers[begin:middle], answers[middle:at], microseconds / 1e6, calls)


def status_text(status):
    return f"signal {signal.Signals(-status).name}" if status < 0 else f"status {status}"

"""Calls of the program, and what is wrong with an answer."""

import dataclasses
import os
import re
import resource
import signal

# The statuses that a command may end with, and the form of the one line of each.
USAGE = rb"usage: [^\n]*"
FORMS = {
    1: rb"out of memory",
    2: USAGE,
    3: rb".*: cannot be read",
    4: rb"cannot write",
    5: rb".*: line [1-9][0-9]*: not MDL text",
    6: rb".*: line [1-9][0-9]*: (plan line|too many rows|field count|not a whole number|dash at a hit|number off a hit|out of range)",
    7: rb"rule ([1-9]|1[0-4]) \((structure|library|parameter|wiring|enable|dimension|type|rate|loop|plan|latency|budget|size|stream)\): (model|\".*\").*",
    8: rb".*: (line [1-9][0-9]*: not in the Verilog subset|(undriven|doubly driven|combinational loop|too wide|no reset|no attribute): .*)",
    9: rb".*: [0-9]+ bytes, at most 16777216",
}
ANSWERS = {
    "check": {0, 1, 3, 5, 6, 7, 9},
    "simulate": {0, 1, 3, 5, 6, 7, 9},
    "generate": {0, 1, 3, 5, 6, 7, 9},
    "replay": {0, 1, 3, 6, 8, 9},
    "explore": {0, 1, 3, 5, 7, 9},
    "flatten": {0, 1, 3, 8, 9},
    "sample": {0, 1},
    "stream": {0, 1, 3, 5, 6, 7, 9},
}
# A call that hasn't ended by then is killed.
MOST_WALL_SECONDS = 600
STDOUT, STDERR = 1, 2


@dataclasses.dataclass
class Answer:
    status: int
    """Below 0 it is the number of the signal that ended the call."""
    out: bytes
    err: bytes
    seconds: float
    """Of processor time."""
    kilobytes: int
    """The most memory at a time, and no less than this script has."""


class Program:
    """The program, in a folder of its own to which words that name files are relative."""

    def __init__(self, path, folder):
        self.path = os.path.abspath(path)
        self.folder = folder
        os.makedirs(folder, exist_ok=True)

    def at(self, name):
        return os.path.join(self.folder, name)

    def put(self, name, text):
        with open(self.at(name), "wb") as file:
            file.write(text)

    def make(self, name, text_of):
        """Puts what `text_of` gives, made by another process: the memory that the system counts for a call
        is never below what this one has when it starts it."""
        child = os.fork()
        if child == 0:
            try:
                self.put(name, text_of())
                os._exit(0)
            finally:
                os._exit(1)
        if os.waitpid(child, 0)[1]:
            raise RuntimeError(f"{name} was not made")

    def got(self, name):
        with open(self.at(name), "rb") as file:
            return file.read()

    def begin(self, words, actions=(), environment=None, folder=None):
        """Starts a call, and gives the number of its process."""
        place = os.getcwd()
        os.chdir(folder or self.folder)
        try:
            return os.posix_spawn(self.path, [self.path, *words], environment or {}, file_actions=actions, setsigdef=[signal.SIGPIPE, signal.SIGXFSZ])
        finally:
            os.chdir(place)

    def end(self, child, out=b"", err=b""):
        """The answer of a call, once it ends or is killed."""
        status, used = ended(child)
        return Answer(os.waitstatus_to_exitcode(status), out, err, used.ru_utime + used.ru_stime, used.ru_maxrss)

    def run(self, *words, environment=None, actions=()):
        """The answer of a call whose outputs go to files."""
        flags = os.O_WRONLY | os.O_CREAT | os.O_TRUNC
        files = [(os.POSIX_SPAWN_OPEN, STDOUT, self.at("out"), flags, 0o600), (os.POSIX_SPAWN_OPEN, STDERR, self.at("err"), flags, 0o600)]
        answer = self.end(self.begin(words, files + list(actions), environment))
        answer.out, answer.err = self.got("out"), self.got("err")
        return answer


def ended(child):
    """How a process ended, and what it used. One that stands for too long is killed."""
    kept = signal.signal(signal.SIGALRM, lambda number, frame: os.kill(child, signal.SIGKILL))
    signal.setitimer(signal.ITIMER_REAL, MOST_WALL_SECONDS)
    try:
        return os.wait4(child, 0)[1:]
    finally:
        signal.setitimer(signal.ITIMER_REAL, 0)
        signal.signal(signal.SIGALRM, kept)


def limited(limits, start):
    """What `start` gives, its processes under limits of this one, which are taken back."""
    kept = {kind: resource.getrlimit(kind) for kind in limits}
    try:
        for kind, limit in limits.items():
            resource.setrlimit(kind, (limit, kept[kind][1]))
        return start()
    finally:
        for kind, limit in kept.items():
            resource.setrlimit(kind, limit)


def fault_of(command, answer, statuses=None):
    """What is wrong with the form of an answer, or None."""
    if answer.status < 0:
        return f"ended by signal {-answer.status}"
    if answer.status not in (ANSWERS[command] if statuses is None else statuses):
        return f"status {answer.status}"
    if answer.out and answer.status not in (0, 4):
        return f"status {answer.status} with {len(answer.out)} bytes of output"
    if answer.status == 0:
        return "status 0 with a line on standard error" if answer.err else None
    if not re.fullmatch(FORMS[answer.status] + rb"\n", answer.err, re.DOTALL):
        return f"status {answer.status} with {answer.err[:200]!r} on standard error"
    if answer.err.count(b"\n") > 1:
        return f"status {answer.status} with more than one line: {answer.err[:200]!r}"
    return None

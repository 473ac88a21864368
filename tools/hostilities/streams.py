"""Outputs that end before all is written: what was written is a beginning."""

import fcntl
import os
import resource
import signal
import subprocess
import time

from .calls import STDERR, STDOUT, fault_of, limited
from .texts import TOP, held

ROWS = 200000
CLOSE, DUP = os.POSIX_SPAWN_CLOSE, os.POSIX_SPAWN_DUP2
KILLS = 25


class Tried:
    def __init__(self, program, say):
        self.program, self.say = program, say
        self.wrong = self.count = 0

    def judge(self, what, command, answer, whole, statuses, says=True):
        """A status of these, and a beginning that is proper but with status 0 or where the call was killed."""
        self.count += 1
        fault = None
        if answer.status not in statuses:
            fault = f"status {answer.status}"
        elif says and answer.status >= 0:
            fault = fault_of(command, answer, statuses)
        if fault is None and not whole.startswith(answer.out):
            fault = "the output is no beginning"
        if fault is None and answer.status != -signal.SIGKILL and (answer.status == 0) != (answer.out == whole):
            fault = f"status {answer.status} with {len(answer.out)} of {len(whole)} bytes"
        if fault is not None:
            self.wrong += 1
            self.say(f"  {what}, {command}: {fault}")


def calls_of(program):
    """The words of calls with long outputs, and these outputs."""
    program.put("m", held(os.path.join(TOP, "examples", "unit_delay.mdl")))
    program.put("v", held(os.path.join(TOP, "examples", "unit_delay.v")))
    program.put("s", b"".join(b"%d\n" % (row % 128) for row in range(ROWS)))
    program.put("wide", wide_model(2000))
    program.put("text", program.run("generate", "wide", "-").out)
    for words in (("simulate", "m", "s"), ("replay", "v", "s"), ("generate", "wide", "-"), ("check", "wide", "-"), ("explore", "m", "1..1024,0..3"), ("flatten", "text"), ("stream", "wide", "-")):
        yield words, program.run(*words).out


def wide_model(count):
    """So many delays from one input."""
    blocks = ['Block {\nBlockType Inport\nName "u"\nOutDataTypeStr "int8"\n}\n'] + [f'Block {{\nBlockType UnitDelay\nName "D{one}"\n}}\nBlock {{\nBlockType Outport\nName "y{one}"\nPort "{one + 1}"\n}}\n' for one in range(count)]
    lines = [f'Line {{\nSrcBlock "u"\nDstBlock "D{one}"\n}}\nLine {{\nSrcBlock "D{one}"\nDstBlock "y{one}"\n}}\n' for one in range(count)]
    return ("Model {\nSystem {\n" + "".join(blocks + lines) + "}\n}\n").encode()


def to_pipe(program, words, use, flags=0):
    """The answer of a call whose output goes to a pipe: `use` reads of it, and ends the call if it wants to."""
    reader, writer = os.pipe()
    fcntl.fcntl(writer, fcntl.F_SETFL, fcntl.fcntl(writer, fcntl.F_GETFL) | flags)
    child = program.begin(words, [(DUP, writer, STDOUT), (os.POSIX_SPAWN_OPEN, STDERR, program.at("err"), os.O_WRONLY | os.O_CREAT | os.O_TRUNC, 0o600)])
    os.close(writer)
    try:
        out = use(reader, child)
    finally:
        os.close(reader)
    answer = program.end(child, out)
    answer.err = program.got("err")
    return answer


def read_all(reader, most=None):
    """What a pipe gives, to its end or to so many bytes."""
    parts, left = [], most
    while left is None or left > 0:
        part = os.read(reader, 65536 if left is None else min(left, 65536))
        if not part:
            break
        parts.append(part)
        left = None if left is None else left - len(part)
    return b"".join(parts)


def kills(tried, words, whole):
    """Kills in mid-write, to a pipe and to a file."""
    program = tried.program
    for number in range(KILLS):
        most = len(whole) * number // KILLS

        def killed(reader, child, most=most):
            out = read_all(reader, most)
            os.kill(child, signal.SIGKILL)
            return out + read_all(reader)

        tried.judge("killed at a pipe", words[0], to_pipe(program, words, killed), whole, {-signal.SIGKILL, 0})
        program.put("out", b"")
        child = program.begin(words, [(os.POSIX_SPAWN_OPEN, STDOUT, program.at("out"), os.O_WRONLY, 0o600), (os.POSIX_SPAWN_OPEN, STDERR, "/dev/null", os.O_WRONLY, 0)])
        deadline = time.monotonic() + 5
        while os.path.getsize(program.at("out")) < most and time.monotonic() < deadline:
            time.sleep(0.0001)
        os.kill(child, signal.SIGKILL)
        answer = program.end(child)
        answer.out = program.got("out")
        tried.judge("killed at a file", words[0], answer, whole, {-signal.SIGKILL, 0})


def readers(tried, words, whole):
    """Readers that stop, that are slow, and that are never ready."""
    program = tried.program
    for most in (0, 1, 4096, 65536, len(whole) - 1):
        answer = to_pipe(program, words, lambda reader, _child, most=most: read_all(reader, most))
        # what was on its way when the reader left was taken
        statuses = {4, 0} if len(whole) - most <= 65536 else {4}
        if answer.status == 0:
            answer.out = whole
        tried.judge(f"a reader that stops after {most} bytes", words[0], answer, whole, statuses)

    def slow(reader, _child):
        parts = []
        while True:
            part = os.read(reader, 70000)
            if not part:
                return b"".join(parts)
            parts.append(part)
            time.sleep(0.01)

    tried.judge("a slow reader", words[0], to_pipe(program, words, slow), whole, {0})

    def late(reader, _child):
        time.sleep(1)
        return read_all(reader)

    statuses = {0, 4} if len(whole) <= 65536 else {4}
    tried.judge("a reader that is never waited for", words[0], to_pipe(program, words, late, os.O_NONBLOCK), whole, statuses)


def opened(path, flags=os.O_WRONLY | os.O_CREAT | os.O_TRUNC):
    return lambda number: (os.POSIX_SPAWN_OPEN, number, path, flags, 0o600)


def full(tried, words, whole):
    """Full disks."""
    program = tried.program
    out, err, null, none = opened(program.at("out")), opened(program.at("err")), opened("/dev/null", os.O_WRONLY), opened("/dev/full", os.O_WRONLY)

    def call(what, actions, statuses, limits, written=True, says=True):
        program.put("out", b"")
        program.put("err", b"")
        answer = limited(limits, lambda: program.end(program.begin(words, actions)))
        answer.out, answer.err = program.got("out") if written else b"", program.got("err")
        tried.judge(what, words[0], answer, whole, statuses, says)

    call("/dev/full", [none(STDOUT), err(STDERR)], {4}, {}, False)
    call("/dev/full twice", [none(STDOUT), none(STDERR)], {4}, {}, False, False)
    call("standard error is full", [out(STDOUT), none(STDERR)], {0}, {})
    call("no standard output", [(CLOSE, STDOUT), err(STDERR)], {4}, {}, False)
    call("no standard error", [out(STDOUT), (CLOSE, STDERR)], {0}, {}, True, False)
    call("no standard input", [(CLOSE, 0), out(STDOUT), err(STDERR)], {0}, {})
    call("no streams", [(CLOSE, 0), (CLOSE, STDOUT), (CLOSE, STDERR)], {4}, {}, False, False)
    call("an output for reading", [opened("/dev/null", os.O_RDONLY)(STDOUT), err(STDERR)], {4}, {}, False)
    for size in (0, 1, 4095, 4096, len(whole) // 2, len(whole) - 1):
        call(f"a limit of {size} bytes", [out(STDOUT), null(STDERR)], {-signal.SIGXFSZ}, {resource.RLIMIT_FSIZE: size}, True, False)
        ignored(tried, words, whole, size)
    tiny(tried, words, whole)
    for name, text in (("m", tried.files["m"]), ("s", tried.files["s"]), ("v", tried.files["v"])):
        if program.got(name) != text:
            tried.wrong += 1
            tried.say(f"  {words[0]}: the file {name} has changed")


def ignored(tried, words, whole, size):
    """A limit on files whose signal is ignored."""
    program = tried.program
    script = 'trap "" XFSZ; ulimit -f "$0"; exec "$@"'
    blocks = -(-size // 1024)
    with open(program.at("out"), "wb") as out:
        found = subprocess.run(["/bin/bash", "-c", script, str(blocks), program.path, *words], cwd=program.folder, stdout=out, stderr=subprocess.PIPE)
    answer = Ended(found.returncode, program.got("out"), found.stderr)
    tried.judge(f"a limit of {blocks} blocks", words[0], answer, whole, {4} if blocks * 1024 < len(whole) else {0})


class Ended:
    def __init__(self, status, out, err):
        self.status, self.out, self.err = status, out, err


def tiny(tried, words, whole):
    """A disk of 16 kB, where one may be had."""
    program = tried.program
    place = program.at("tiny")
    os.makedirs(place, exist_ok=True)
    if subprocess.run(["mount", "-t", "tmpfs", "-o", "size=16k", "tmpfs", place], capture_output=True).returncode:
        if not tried.has_said:
            tried.say("  no small disk to be had")
        tried.has_said = True
        return
    try:
        child = program.begin(words, [opened(os.path.join(place, "out"))(STDOUT), opened(program.at("err"))(STDERR)])
        answer = program.end(child)
        answer.out, answer.err = held(os.path.join(place, "out")), program.got("err")
        tried.judge("a disk of 16 kB", words[0], answer, whole, {4} if len(whole) > 16384 else {0})
    finally:
        subprocess.run(["umount", place], check=True)


def run(program, _options, say):
    say("streams: outputs that end")
    tried = Tried(program, say)
    tried.has_said = False
    for words, whole in calls_of(program):
        tried.files = {name: program.got(name) for name in ("m", "s", "v")}
        kills(tried, words, whole)
        readers(tried, words, whole)
        full(tried, words, whole)
        say(f"  {' '.join(words)}: {len(whole)} bytes of output")
    say(f"  {tried.count} calls, {tried.wrong} with a fault")
    return tried.wrong

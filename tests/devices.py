#!/usr/bin/env python3
"""Tries a built program on real devices that are slow, that fail in mid-stream, and that are gone.

    tests/devices.py PROGRAM

Each command is tried: `check`, `fold`, `history`, `run`, `gen` and `selftest`, a text with a syntax fault and one
that is unlawful, with a short answer and, where there is one, with a long one. Whatever the device, the answer is
whole, or it is the status of the fault: 4 with nothing written, or 5 with a front of the answer, and no signal.
The last line is 'N passed, N failed'.
"""
import argparse
import fcntl
import os
import resource
import signal
import socket
import struct
import subprocess
import tempfile
import termios
import threading
import time
from dataclasses import dataclass

from judging import Answer, Judge, ask

HERE = os.path.dirname(os.path.abspath(__file__))
# The least that a pipe of Linux holds.
PIPE = 4096
SECONDS = 120


@dataclass(frozen=True)
class Command:
    """A command with what it reads, and the answer that it has where no device fails."""

    name: str
    words: list
    data: bytes
    whole: Answer

    @property
    def reads(self):
        return self.words[0] not in ("gen", "selftest")


def example(name):
    with open(os.path.join(HERE, "..", "examples", name), "rb") as file:
        return file.read()


def long_unlawful():
    """Logs of two stores that state a long write differently, so that the fault is a long text."""
    text = b"raftreplay 1\n"
    for store in [1, 2]:
        text += b"store %d\nregion 1 - -\nlog 1\n6 1 1 write%s\n" % (store, b" put 6d 3%d" % store * 1000)
    return text + b"end\n"


def commands(program):
    """The commands, each with the answer that it has on devices that don't fail."""
    two, many = example("two-stores.log"), ask(program, ["gen", "49"]).out
    small = "run --raft-pollers 1 --apply-pollers 1 --batch 1 --chunk 1"
    for words, data, status in [
        ("check", two, 0),
        ("fold", two, 0),
        ("history 6131", two, 0),
        ("run", two, 0),
        (small, two, 0),
        ("gen 0", b"", 0),
        ("selftest 0", b"", 0),
        ("fold", example("carry-gap.log"), 2),
        ("fold", example("waits.log"), 3),
        ("check", many, 0),
        ("fold", many, 0),
        ("history 00", many, 0),
        ("run", many, 0),
        ("gen 49", b"", 0),
        ("run", long_unlawful(), 3),
    ]:
        whole = ask(program, words.split(), data)
        if whole.status != status:
            raise SystemExit("%s: wanted status %d, got %s" % (words, status, whole))
        name = "%s, status %d, %d bytes read, %d written" % (words, status, len(data), len(whole.out))
        yield Command(name, words.split(), data, whole)


def start(program, command, **devices):
    """Starts the program on these devices. What the system does at a write that fails is left as it is."""
    return subprocess.Popen([program, *command.words], **{"stderr": subprocess.PIPE, **devices})


def end(process, out=b""):
    """Waits for the program's end, and gives its answer."""
    try:
        error = process.communicate(timeout=SECONDS)[1]
    except subprocess.TimeoutExpired:
        process.kill()
        error = b"no end\n" + (process.communicate()[1] or b"")
    return Answer(process.returncode, out, error or b"")


def input_file(data):
    """A file that holds these bytes, at its begin."""
    file = tempfile.TemporaryFile()
    file.write(data)
    file.seek(0)
    return file


def small_pipe(flags=0):
    read, write = os.pipe2(os.O_CLOEXEC | flags)
    fcntl.fcntl(write, fcntl.F_SETPIPE_SZ, PIPE)
    return read, write


def waiting(read):
    """How many bytes wait in a pipe."""
    return struct.unpack("i", fcntl.ioctl(read, termios.FIONREAD, b"\0" * 4))[0]


def is_stopped(process):
    with open("/proc/%d/stat" % process.pid) as file:
        text = file.read()
    return text[text.rindex(")") + 2] == "T"


def stop_in_write(process, read):
    """Waits until the pipe is full, and stops the program and lets it go on: so its write comes back short."""
    until = time.monotonic() + SECONDS
    while waiting(read) < PIPE:
        if process.poll() is not None or time.monotonic() > until:
            return
        time.sleep(0.0005)
    # Its write has filled the pipe, and waits for room by now.
    time.sleep(0.002)
    process.send_signal(signal.SIGSTOP)
    while not is_stopped(process) and time.monotonic() < until:
        time.sleep(0.0005)
    process.send_signal(signal.SIGCONT)


def read_slowly(program, command, most, stops):
    """The answer read through a small pipe, at most so many bytes at a time."""
    read, write = small_pipe()
    process = start(program, command, stdin=input_file(command.data), stdout=write)
    os.close(write)
    parts = []
    while True:
        if stops:
            stop_in_write(process, read)
        part = os.read(read, most)
        if not part:
            break
        parts.append(part)
    os.close(read)
    return end(process, b"".join(parts))


def read_in_part(program, command, count):
    """A reader that goes away after this many bytes."""
    read, write = small_pipe()
    process = start(program, command, stdin=input_file(command.data), stdout=write)
    os.close(write)
    got = b""
    while len(got) < count:
        part = os.read(read, count - len(got))
        if not part:
            break
        got += part
    os.close(read)
    return end(process, got)


def no_reader(program, command, **devices):
    """A pipe whose reader has gone before the program begins."""
    read, write = os.pipe()
    os.close(read)
    process = start(program, command, **{"stdin": input_file(command.data), "stdout": write, **devices})
    os.close(write)
    return end(process)


def not_waited_for(program, command):
    """A pipe that takes 4 KiB, which the program may not wait for."""
    read, write = small_pipe()
    os.set_blocking(write, False)
    process = start(program, command, stdin=input_file(command.data), stdout=write)
    os.close(write)
    answer = end(process)
    with open(read, "rb") as file:
        return Answer(answer.status, file.read(), answer.error)


def short_file(program, command, most):
    """A file that may have at most so many bytes."""
    with tempfile.TemporaryFile() as file:
        limit = lambda: resource.setrlimit(resource.RLIMIT_FSIZE, (most, most))
        # Signals are left as Python has them, so that the system tells of the limit by an error and no signal.
        how = {"preexec_fn": limit, "restore_signals": False}
        answer = end(start(program, command, stdin=input_file(command.data), stdout=file, **how))
        file.seek(0)
        return Answer(answer.status, file.read(), answer.error)


def full_device(program, command):
    with open("/dev/full", "wb") as file:
        return end(start(program, command, stdin=input_file(command.data), stdout=file))


def fed(program, command, most):
    """The input through a pipe that gives at most so many bytes a read: each write is a packet of its own."""
    read, write = os.pipe2(os.O_CLOEXEC | os.O_DIRECT)
    process = start(program, command, stdin=read, stdout=subprocess.PIPE)
    os.close(read)
    feeder = threading.Thread(target=feed, args=(write, command.data, most))
    feeder.start()
    out = process.stdout.read()
    feeder.join()
    return end(process, out)


def feed(write, data, most):
    try:
        for at in range(0, len(data), most):
            os.write(write, data[at : at + most])
    except BrokenPipeError:
        pass
    os.close(write)


def broken_input(data):
    """A socket that gives these bytes, and then fails: its other end went away with a byte unread."""
    ours, theirs = socket.socketpair()
    theirs.send(b"x")
    ours.sendall(data)
    ours.close()
    return theirs


def read_broken(program, command, count):
    with broken_input(command.data[:count]) as device:
        process = start(program, command, stdin=device, stdout=subprocess.PIPE)
        out = process.stdout.read()
        return end(process, out)


def places(length):
    """Some places in so many bytes: the first ones, the middle, the last ones, and between."""
    steps = [0, 1, 2, 7, 64, length // 3, length // 2, length - 2, length - 1]
    return sorted({at for at in steps if 0 <= at < length})


def try_whole(judge, program, command):
    """Devices that are slow, and never fail."""
    for most in [1, PIPE]:
        judge.compare("%s: read by %d bytes" % (command.name, most), read_slowly(program, command, most, False), command.whole)
    if len(command.whole.out) > PIPE:
        got = read_slowly(program, command, PIPE, True)
        judge.compare("%s: read by %d bytes, with stops" % (command.name, PIPE), got, command.whole)
    if command.reads:
        for most in [1, 7, 64, PIPE]:
            # As many packets as make the case worth its time.
            if len(command.data) // most < 10_000:
                judge.compare("%s: input by %d bytes" % (command.name, most), fed(program, command, most), command.whole)


def try_output(judge, program, command):
    """Standard output that fails, at once or in mid-stream: the front that was written is told by the device."""
    out = command.whole.out
    judge.compare("%s: the reader is gone" % command.name, no_reader(program, command), Answer.of(5))
    judge.compare("%s: the device is full" % command.name, full_device(program, command), Answer.of(5))
    for count in places(len(out)):
        got = short_file(program, command, count)
        judge.compare("%s: a file of at most %d bytes" % (command.name, count), got, Answer.of(5, out[:count]))
    got = short_file(program, command, len(out))
    judge.compare("%s: a file of as many bytes as there are" % command.name, got, command.whole)
    if len(out) <= 2 * PIPE:
        return
    judge.compare("%s: not waited for" % command.name, not_waited_for(program, command), Answer.of(5, out[:PIPE]))
    # The pipe holds one piece that nobody reads.
    for count in places(len(out) - 2 * PIPE):
        got = read_in_part(program, command, count)
        judge.compare("%s: the reader goes after %d bytes" % (command.name, count), got, Answer.of(5, out[:count]))


def try_input(judge, program, command):
    """Standard input that fails, at once or in mid-stream, and nothing is written."""
    if not command.reads:
        judge.compare("%s: input that fails, and isn't read" % command.name, read_broken(program, command, 0), command.whole)
        return
    for count in [*places(len(command.data)), len(command.data)]:
        got = read_broken(program, command, count)
        judge.compare("%s: input that fails after %d bytes" % (command.name, count), got, Answer.of(4))
    with broken_input(command.data[:9]) as device:
        got = no_reader(program, command, stdin=device)
    judge.compare("%s: input that fails, and no reader" % command.name, got, Answer.of(4))


def try_usage(judge, program):
    """Words that are no command are told before any device is touched, also where nobody hears of it."""
    usage = Command("fold x", ["fold", "x"], b"", Answer.of(1))
    with broken_input(b"") as device:
        judge.compare("usage: input that fails, and no reader", no_reader(program, usage, stdin=device), usage.whole)
    for command in [usage, Command("gen 0", ["gen", "0"], b"", Answer.of(5))]:
        read, write = os.pipe()
        os.close(read)
        got = no_reader(program, command, stderr=write)
        os.close(write)
        judge.hold("%s: no reader of standard error" % command.name, got.status == command.whole.status, "got %s" % got)


def main():
    parser = argparse.ArgumentParser(description="Tries a built program on devices that are slow, fail or are gone.")
    parser.add_argument("program")
    program, judge = os.path.abspath(parser.parse_args().program), Judge()
    for command in commands(program):
        try_whole(judge, program, command)
        try_output(judge, program, command)
        try_input(judge, program, command)
    try_usage(judge, program)
    judge.end()


main()

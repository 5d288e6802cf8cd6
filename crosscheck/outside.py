#!/usr/bin/env python3
"""Runs the program where the outside fails, without workers and with two: its disk, its pipe, its files, its calls.

usage: outside.py PROGRAM
A third way is without workers, by a pcapng file of the same frames.
It needs a C compiler, and for a full disk the rights to mount a file system. The files are those of exchange.py, so
large that they are read and written in pieces. A run must end with status 4, and what it said and wrote must be a front
of a right report and output, with no packet whose frame wasn't said; or it must end as if nothing had failed. By kind:

- the output, or the report, on a small file system of memory that fills up, and on /dev/full;
- a report whose reader closes the pipe after some octets;
- settings, a capture or an output in no folder, or that are a folder: nothing is said or written;
- a capture that comes through a pipe, in small pieces and large ones;
- a capture that is removed while it is read, or cut: then a run may also end as for a capture that was cut there, or
  where a piece of 65,536 octets ends that was read before;
- each read, write or opening of a file ends with an error once, or each read or write moves a hundred octets at most.

It prints a line a kind, with how many runs ended with which status, and ends with status 1 where one is wrong.
"""
import collections
import errno
import fcntl
import itertools
import os
import random
import struct
import subprocess
import sys
import tempfile
import termios
import threading
import time

import makers_ng
from captures import frames_of
from captures_ng import reader_of
from commands import Format
from exchange import SETTINGS, capture
from fronts import Lawful
from wire import existing

HERE = os.path.dirname(os.path.abspath(__file__))
PAGE, PIECE = 4096, 65536
HOST = 4
# Words, and by what these ends are judged: workers, the frames of a round, and how the capture is read.
WAYS = {"no workers": ((), 0, 256), "2 workers": (("--workers", "2", "--round", "16"), 2, 16),
        "pcapng": (("--format", "ng"), 0, 256, reader_of(Format.NG))}


def written(path, octets):
    with open(path, "wb") as file:
        file.write(octets)
    return path


# Runs.


class Wrong(Exception):
    """A run ended as none may."""


class Kind:
    """Runs of one kind, counted by their statuses."""

    def __init__(self, name):
        self.name, self.counts = name, collections.Counter()

    def judge(self, is_right, status, what):
        if not is_right:
            raise Wrong(f"{self.name}, {what}: wrong behind status {status}")
        self.counts[status] += 1

    def line(self):
        counts = ", ".join(f"{count} with status {status}" for status, count in sorted(self.counts.items()))
        return f"{self.name}: {counts}"


class Outside:
    """The program with its files, and the ends that it may have, one way."""

    def __init__(self, program, folder, way, shim):
        self.program, self.folder, self.way, self.shim = program, folder, way, shim
        self.more, *how = WAYS[way]
        self.how = how
        self.settings = written(self.path("settings"), SETTINGS.encode())
        self.capture, self.output = written(self.path("in"), capture()), self.path("out")
        if way == "pcapng":
            written(self.capture, makers_ng.written(random.Random(1), list(frames_of(self.capture))).octets())
        self.whole = existing(self.capture)
        self.lawful = Lawful(self.settings, self.capture, *how)

    def path(self, name):
        return os.path.join(self.folder, name)

    def words(self, settings=None, capture=None, output=None):
        if os.path.lexists(self.output):
            os.remove(self.output)
        return [self.program, "replay", "--settings", settings or self.settings, "--in", capture or self.capture,
                "--out", output or self.output, *self.more]

    def run(self, environment=None, **files):
        """What a run ends with, and what it says on standard error; of an output that is a device no octets."""
        done = subprocess.run(self.words(**files), capture_output=True, env={**os.environ, **(environment or {})})
        path = files.get("output", self.output)
        output = existing(path) if os.path.isfile(path) else None
        return done.returncode, done.stdout.decode(errors="replace"), output, done.stderr

    def is_right(self, status, report, output):
        """Whether a run may end so of which something failed."""
        if status == HOST:
            return self.lawful.has_front(report, output) and self.lawful.has_reported(report, output)
        return self.lawful.has_end((status, report, output))

    def kind(self, name):
        return Kind(f"{self.way}, {name}")


# A full disk.


class Mounted:
    """A file system of memory, of so many pages."""

    def __init__(self, folder, pages):
        self.folder, self.size = os.path.join(folder, "disk"), pages * PAGE
        os.makedirs(self.folder, exist_ok=True)

    def __enter__(self):
        subprocess.run(["mount", "-t", "tmpfs", "-o", f"size={self.size}", "tmpfs", self.folder], check=True)
        return self.folder

    def __exit__(self, *_):
        subprocess.run(["umount", self.folder], check=True)


def full_output(outside):
    kind = outside.kind("an output on a full disk")
    for pages in 1, 2, 15, 16, 17, 50, 100, 1000:
        with Mounted(outside.folder, pages) as disk:
            status, report, output, _ = outside.run(output=os.path.join(disk, "out"))
        kind.judge(outside.is_right(status, report, output), status, f"{pages} pages")
    status, report, _, _ = outside.run(output="/dev/full")
    kind.judge(status == HOST and report == "", status, "/dev/full")
    return kind


def full_report(outside):
    kind = outside.kind("a report on a full disk")
    for pages in 1, 2, 4, 7, 1000:
        with Mounted(outside.folder, pages) as disk:
            path = os.path.join(disk, "report")
            with open(path, "wb") as file:
                status = subprocess.run(outside.words(), stdout=file, stderr=subprocess.DEVNULL).returncode
            report = existing(path).decode(errors="replace")
        kind.judge(outside.is_right(status, report, existing(outside.output)), status, f"{pages} pages")
    with open("/dev/full", "wb") as file:
        status = subprocess.run(outside.words(), stdout=file, stderr=subprocess.DEVNULL).returncode
    kind.judge(status == HOST and outside.is_right(status, "", existing(outside.output)), status, "/dev/full")
    return kind


# A pipe that is closed, and one that brings the capture.


def piped(words):
    """A run, and its report through a pipe that takes few octets."""
    reader, writer = os.pipe()
    fcntl.fcntl(writer, fcntl.F_SETPIPE_SZ, PAGE)
    process = subprocess.Popen(words, stdout=writer, stderr=subprocess.DEVNULL)
    os.close(writer)
    return process, open(reader, "rb")


def closed_pipe(outside):
    """What was said behind what was read is lost with the pipe, so that status 0 tells of its front alone."""
    kind = outside.kind("a report whose reader goes")
    for most in 0, 1, 70, 1000, 4096, 10000, 20000:
        process, pipe = piped(outside.words())
        with pipe:
            report = pipe.read(most).decode(errors="replace")
        status = process.wait()
        is_front = outside.lawful.has_front(report, existing(outside.output))
        kind.judge(status in (0, HOST) and is_front, status, f"{most} octets")
    return kind


def fed(path, octets, size):
    with open(path, "wb", buffering=0) as pipe:
        for at in range(0, len(octets), size):
            pipe.write(octets[at:at + size])


def piped_capture(outside):
    kind = outside.kind("a capture through a pipe")
    path = outside.path("pipe")
    os.mkfifo(path)
    for size in 7, 1000, PIECE + 1:
        octets = outside.whole
        feeder = threading.Thread(target=fed, args=(path, octets, size))
        feeder.start()
        status, report, output, _ = outside.run(capture=path)
        feeder.join()
        kind.judge(status == 0 and outside.is_right(status, report, output), status, f"pieces of {size}")
    os.remove(path)
    return kind


# Files that aren't there, and one that goes.


def missing_files(outside):
    kind = outside.kind("a file that isn't there, or is a folder")
    missing = outside.path("missing/file")
    for name in "settings", "capture", "output":
        for path in missing, outside.folder:
            status, report, _, _ = outside.run(**{name: path})
            output = existing(outside.output)
            # A folder opens as a file does, and of pcapng no octet is read before the output is made.
            is_late = (outside.way, name, path) == ("pcapng", "capture", outside.folder)
            is_right = outside.is_right(status, report, output) if is_late else output is None
            is_right = is_right and status == HOST and report == "" and not os.path.exists(missing)
            kind.judge(is_right, status, f"{name} {path}")
    return kind


def wait_until_stuck(process, pipe):
    """Waits until its report, which nobody reads, has stood still for a while, or it has ended."""
    before, same = -1, 0
    while process.poll() is None and same < 10:
        waiting, = struct.unpack("i", fcntl.ioctl(pipe, termios.FIONREAD, bytes(4)))
        same = same + 1 if waiting == before and waiting > 1000 else 0
        before = waiting
        time.sleep(0.02)


def changed_capture(outside):
    kind = outside.kind("a capture that goes, or is cut, while it is read")
    for name, change in (("removed", os.remove), *(
            (f"cut at {size}", lambda path, size=size: os.truncate(path, size)) for size in (0, 100, 200_000, 400_000))):
        path = written(outside.path("changing"), outside.whole)
        process, pipe = piped(outside.words(capture=path))
        wait_until_stuck(process, pipe)
        change(path)
        with pipe:
            report = pipe.read().decode(errors="replace")
        end = process.wait(), report, existing(outside.output)
        size = os.path.getsize(path) if os.path.exists(path) else len(outside.whole)
        kind.judge(may_end(outside, size, end), end[0], name)
    return kind


def may_end(outside, size, end):
    """Whether it is an end for the capture as it was, or as it was cut there or behind a piece that was read before."""
    places = [size, *(at for at in range(0, len(outside.whole), PIECE) if at > size), len(outside.whole)]
    for place in places:
        path = written(outside.path("cut"), outside.whole[:place])
        if Lawful(outside.settings, path, *outside.how).has_end(end):
            return True
    return False


# Calls that fail.


def spoiled(outside, call, error):
    """Each such call ends with the error once; or, where that is 0, moves few octets each time."""
    name = errno.errorcode[error] if error else "a hundred octets"
    kind = outside.kind(f"{call} with {name}")
    for number in itertools.count(1) if error else [0]:
        environment = {"LD_PRELOAD": outside.shim, "SPOIL": call, "NUMBER": str(number), "ERROR": str(error)}
        status, report, output, said = outside.run(environment)
        if not said:
            break
        is_right = outside.is_right(status, report, output) and (error or status == 0)
        kind.judge(is_right, status, f"call {number}")
    return kind


def all_spoiled(outside):
    for error in errno.EIO, errno.EINTR, errno.EAGAIN, 0:
        for call in "read", "write":
            yield lambda call=call, error=error: spoiled(outside, call, error)
    for error in errno.EMFILE, errno.EINTR:
        yield lambda error=error: spoiled(outside, "open", error)
    yield lambda: spoiled(outside, "write", errno.ENOSPC)


def kinds(outside):
    for make in full_output, full_report, closed_pipe, piped_capture, missing_files, changed_capture:
        yield lambda make=make: make(outside)
    yield from all_spoiled(outside)


def main():
    program, failed = os.path.abspath(sys.argv[1]), False
    with tempfile.TemporaryDirectory() as folder:
        shim = os.path.join(folder, "spoil.so")
        subprocess.run(["cc", "-shared", "-fPIC", "-o", shim, os.path.join(HERE, "spoil.c"), "-ldl"], check=True)
        for way in WAYS:
            for make in kinds(Outside(program, folder, way, shim)):
                try:
                    print(make().line(), flush=True)
                except Wrong as found:
                    failed = True
                    print(f"DIFFERS: {found}", flush=True)
    sys.exit(failed)


if __name__ == "__main__":
    main()

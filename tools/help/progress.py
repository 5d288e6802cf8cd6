"""How far a run is, on one line of a terminal, which goes at the end."""
import os
import re
import stat
import struct
import time

from pairs import value_of
from text import say, shown

REPORT, TERMINAL, TAIL = 1, 2, 65_536
FRAME = re.compile(rb"^(\d+) (\d+)\.\d+ .*\n", re.MULTILINE)
# The header of a record of the output: seconds, nanoseconds, octets, and these once more. Packets are IP.
RECORD = struct.Struct("<IIII")
LONGEST, BILLION = 2048, 10**9


def is_same(path, wanted):
    try:
        found = os.stat(path)
    except OSError:
        return False
    return (found.st_dev, found.st_ino) == (wanted.st_dev, wanted.st_ino)


def place(pid, number):
    """Where a process stands in one of its open files."""
    with open(f"/proc/{pid}/fdinfo/{number}") as file:
        return int(file.readline().split()[1])


def part_read(pid, name):
    """The part of a file that a process has read, in hundredths; None where it doesn't read it, or it has no size."""
    wanted = os.stat(name)
    if not stat.S_ISREG(wanted.st_mode) or wanted.st_size == 0:
        return None
    numbers = [number for number in os.listdir(f"/proc/{pid}/fd") if is_same(f"/proc/{pid}/fd/{number}", wanted)]
    places = [place(pid, number) for number in numbers]
    return min(100, 100 * max(places) // wanted.st_size) if places else None


def said(start):
    """The last frame of the report and its second, where that is a file that can be read."""
    if not stat.S_ISREG(os.fstat(REPORT).st_mode):
        return None
    end = os.lseek(REPORT, 0, os.SEEK_CUR)
    with open(f"/proc/self/fd/{REPORT}", "rb") as file:
        file.seek(max(start, end - TAIL))
        found = FRAME.findall(file.read(TAIL))
    return tuple(map(int, found[-1])) if found else None


def is_packet(octets):
    """Whether octets are a whole IP packet, by the length in its header."""
    if octets[0] >> 4 == 4:
        return int.from_bytes(octets[2:4], "big") == len(octets)
    return octets[0] >> 4 == 6 and int.from_bytes(octets[4:6], "big") + 40 == len(octets)


def second_sent(name):
    """The second of the last packet of the output, where that is a file with a short one at its end.

    A record can't be found from behind but by its form: its length stands in it three times.
    """
    if not stat.S_ISREG(os.stat(name).st_mode):
        return None
    with open(name, "rb") as file:
        file.seek(max(0, os.fstat(file.fileno()).st_size - LONGEST))
        tail = file.read()
    for size in range(20, len(tail) - RECORD.size + 1):
        second, fraction, kept, whole = RECORD.unpack_from(tail, len(tail) - size - RECORD.size)
        if kept == whole == size and fraction < BILLION and is_packet(tail[-size:]):
            return second
    return None


def or_none(ask, *given):
    """What a call answers, or None where the system refuses it."""
    try:
        return ask(*given)
    except (OSError, ValueError, IndexError):
        return None


def is_watched():
    """Whether a person sees the line: at a terminal that this run has, and where the report isn't said there."""
    if not os.isatty(TERMINAL) or os.isatty(REPORT):
        return False
    owner = or_none(os.tcgetpgrp, TERMINAL)
    return owner is None or owner == os.getpgrp()


def moment_text(second):
    """A second of the capture, up to which it is worked."""
    return f"worked to {second} ({time.strftime('%H:%M:%S', time.gmtime(second))} UTC)"


def part_texts(part, path, has_moment):
    """How much of the capture is read. At its end there may be seconds of it to work, as before its last frame."""
    if part is None:
        return []
    name = shown(os.path.basename(path))
    if part < 100:
        return [f"{part} % of {name} read"]
    return [f"{name} read" if has_moment else f"{name} read, but not all worked"]


class Progress:
    """The line of one run."""

    def __init__(self, pid, words, begun, start):
        self.pid, self.name, self.output = pid, value_of("--in", words), value_of("--out", words)
        self.begun, self.start, self.width, self.frame = begun, start, 0, None

    def text(self):
        seconds = time.monotonic() - self.begun
        part = or_none(part_read, self.pid, self.name) if self.name else None
        frame, second = or_none(said, self.start) or (None, 0)
        second = max(second, self.output and or_none(second_sent, self.output) or 0)
        rate = [f"{frame / seconds:,.0f} frames a second"] if frame is not None else []
        moment = [moment_text(second)] if second else []
        # What tells more comes first: where all is read, and between frames, the second.
        more = moment + rate if part == 100 or frame == self.frame else rate + moment
        self.frame = frame
        return ", ".join([f"lispr: {seconds:.0f} s", *part_texts(part, self.name, bool(moment)), *more])

    def tell(self):
        try:
            if is_watched():
                size = or_none(os.get_terminal_size, TERMINAL)
                text = self.text()[:size.columns - 1 if size and size.columns else 79]
                say("\r" + text.ljust(self.width))
                self.width = len(text)
        except Exception:
            # The run goes on, whatever can't be told of it.
            pass

    def clear(self):
        if self.width:
            say("\r" + " " * self.width + "\r")
            self.width = 0

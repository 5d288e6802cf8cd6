"""The proved program's own lines for a capture."""
import os
import re
import subprocess
import sys
from typing import NamedTuple

from explaining.texts import Fault

TOP = os.path.dirname(os.path.dirname(os.path.dirname(os.path.realpath(__file__))))
SCRIPT, HELP = os.path.join(TOP, "lispr"), os.path.join(TOP, "tools", "help", "main.py")
END = re.compile(r"end frames=(\d+) written=(\d+) entries=(\d+)")


class Line(NamedTuple):
    """A line of a frame: the journal's length by which it was decided, its verdict, and the whole."""
    known: int
    verdict: str
    text: str


class End(NamedTuple):
    """The last line; how many packets were written and entries made where the capture was read to its end."""
    text: str
    written: int = None
    entries: int = None

    @property
    def known(self):
        return self.entries


def command_of(program):
    """How the program is called: as the script does it, with help on standard error."""
    if program is None or os.path.exists(program) and os.path.samefile(program, SCRIPT):
        return [SCRIPT]
    if not os.path.isfile(program) or not os.access(program, os.X_OK):
        raise Fault(f"--program {program} is no file that can be run")
    return [sys.executable, "-I", "-S", "-B", "-X", "utf8", HELP, os.path.abspath(program)]


def parsed(text):
    text = text.rstrip("\n")
    if text[:1].isdigit():
        _, _, known, verdict = text.split(" ", 3)
        return Line(int(known[2:]), verdict, text)
    end = END.fullmatch(text)
    return End(text, int(end[2]), int(end[3])) if end else End(text)


class Report:
    """A run of the program, whose lines are read while it runs."""

    def __init__(self, program, settings, capture, way):
        words = ["replay", "--settings", settings, "--in", capture, "--out", os.devnull, *way.words()]
        self.run = subprocess.Popen([*command_of(program), *words], stdin=subprocess.DEVNULL, stdout=subprocess.PIPE,
                                    text=True, bufsize=1 << 16)

    def __enter__(self):
        return self

    def __exit__(self, fault, *_):
        """Lets the program end, with what it tells of that on standard error; behind a fault it is ended."""
        if fault:
            self.run.terminate()
        else:
            for _ in self.run.stdout:
                pass
        self.run.stdout.close()
        self.run.wait()

    def lines(self):
        """The lines of frames, and then the last one."""
        last = None
        for last in map(parsed, self.run.stdout):
            yield last
        if not isinstance(last, End):
            raise Fault(f"the program ended with status {self.run.wait()}, without a last line")

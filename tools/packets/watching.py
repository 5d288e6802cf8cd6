"""A file that is read from its front, with a line at a terminal once a second that says how far."""
import os
import sys
import time

EACH = 1 << 16


class Watched:
    """A file, opened for reading; the name is that of the program that says the line."""

    def __init__(self, path, name):
        self.file, self.name, self.path = open(path, "rb", 1 << 16), name, path
        self.size = os.fstat(self.file.fileno()).st_size
        self.is_seen, self.begun, self.next, self.width = sys.stderr.isatty(), time.monotonic(), EACH, 0
        self.at, self.told = 0, self.begun

    def __enter__(self):
        return self

    def __exit__(self, *fault):
        self.clear()
        self.file.close()

    def read(self, size):
        octets = self.file.read(size)
        self.at += len(octets)
        if self.is_seen and self.at >= self.next:
            self.next = self.at + EACH
            self.tell()
        return octets

    def tell(self):
        now = time.monotonic()
        if now - self.told >= 1:
            self.told = now
            part = f"{100 * self.at // self.size} %" if self.size else f"{self.at:,} octets"
            text = f"{self.name}: {now - self.begun:.0f} s, {part} of {os.path.basename(self.path)} read"
            print("\r" + text.ljust(self.width), end="", file=sys.stderr, flush=True)
            self.width = len(text)

    def clear(self):
        if self.width:
            print("\r" + " " * self.width + "\r", end="", file=sys.stderr, flush=True)
            self.width = 0

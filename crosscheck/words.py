#!/usr/bin/env python3
"""Holds a reader of words against a table of word lists, and a program against the reader.

usage: words.py [PROGRAM [LISTS [SEED]]]
The program runs with the lists of the table, with so many lists made from a number, and with words that are no UTF-8.
Where the reader finds no command it must say `usage` alone and end with status 1, else answer the command; words that
are no UTF-8 may also be refused before the program has a say. It prints one line a part, behind the word lists that
differ, and ends with status 1 where one does.
"""
import os
import random
import shutil
import subprocess
import sys
import tempfile

from auditing import audit
from captures import output_header
from commands import Audit, Format, Replay, Show, Trial, command_of
from plain import ended
from word_lists import AUDIT, FILES, MOST_TRIED, made, no_texts, table
from wire import contents

FIRST = os.path.join(os.path.dirname(os.path.dirname(os.path.abspath(__file__))), "examples", "first")
USAGE, SECONDS, MOST_SHOWN = b"usage\n", 60, 10
# The statuses of the program, and those of them with which it answers a command.
STATUSES, ANSWERS = range(7), (0, 2, 3, 4)


def octets(word):
    return word if isinstance(word, bytes) else word.encode()


def is_short(command):
    return type(command) is not Trial or command.count <= MOST_TRIED


class Program:
    """A program in a folder of its own, which holds nothing but a settings file and a capture as it begins."""

    def __init__(self, path, folder):
        self.path, self.folder = path, os.path.join(folder, "files")
        # The answers to a replay of the files that are there. One that takes the capture for pcapng has made the
        # output before it finds that it is none.
        self.right = 0, contents(os.path.join(FIRST, "expected.txt")), contents(os.path.join(FIRST, "expected.pcap"))
        self.refused = 3, b"capture bad-magic\n", output_header()
        # That to an audit of these: what came is held against what was due, which is in a tunnel.
        files = [os.path.join(FIRST, name) for name in ("settings.toml", "capture.pcap", "capture.pcap")]
        status, report = ended(audit, *files, False)
        self.audited = status, report.encode(), b""

    def run(self, words):
        """Its status, its report, and the file `o`; the status is None where it doesn't end."""
        shutil.rmtree(self.folder, ignore_errors=True)
        os.mkdir(self.folder)
        for name, copy in zip(("settings.toml", "capture.pcap"), FILES):
            shutil.copy(os.path.join(FIRST, name), os.path.join(self.folder, copy))
        try:
            done = subprocess.run([self.path, *map(octets, words)], cwd=self.folder, stdin=subprocess.DEVNULL,
                                  capture_output=True, timeout=SECONDS)
        except subprocess.TimeoutExpired:
            return None, b"", b""
        return done.returncode, done.stdout, contents(os.path.join(self.folder, "o"))

    def is_answer(self, command, status, report, output):
        """Whether that answers the command: exactly where its files are there, else in some way but `usage`."""
        if command is None:
            return (status, report, output) == (1, USAGE, b"")
        if type(command) is Trial:
            line = f"trial {command.count} frames={command.count + 1} written={command.count} "
            return status == 0 and report.startswith(line.encode()) and report.count(b"\n") == 1
        if type(command) is Replay and command[:3] == FILES:
            answer = self.right if command.format is Format.CLASSIC else self.refused
            return (status, report, output) == answer
        if type(command) is Audit and command[:3] == AUDIT[:3]:
            return (status, report, output) == self.audited
        if command == Show("i"):
            return status == 0 and report.endswith(b"\nend frames=1\n")
        return status in ANSWERS and report != USAGE

    def fault(self, words):
        """What it says to the words, where that is no answer to what the reader finds in them, else None."""
        command, answer = command_of(words), self.run(words)
        return None if self.is_answer(command, *answer) else f"{command} {answer[:2]}"

    def untold(self, words):
        """The same for words that aren't all text: to these it says `usage`, or the host ends it."""
        status, report, _ = self.run(words)
        is_right = report == USAGE if status == 1 else status not in (None, *STATUSES)
        return None if is_right else f"{status} {report}"


def misread(words, command):
    """What the reader finds in the words, where that isn't the command, else None."""
    found = command_of(words)
    return None if found == command else f"{found}"


def told(name, faults):
    """Tells what differs in a part, and whether nothing does; faults are pairs of words and what came, or None."""
    wrong = [(words, fault) for words, fault in faults if fault is not None]
    for words, fault in wrong[:MOST_SHOWN]:
        print(f"{words}: {fault}")
    print(f"{'DIFFERS' if wrong else 'ok     '} {name}" + f", {len(wrong)} differ" * bool(wrong), flush=True)
    return not wrong


def counted(lists):
    forms = sum(command_of(words) is not None for words in lists)
    return f"{len(lists)} word lists, {forms} of them of a form"


def held(program, count, seed):
    """Whether the program answers as it must, told part by part."""
    r = random.Random(seed)
    lists = [words for words, _ in table() if is_short(command_of(words))]
    random_lists = [words for words in (made(r) for _ in range(count)) if is_short(command_of(words))]
    texts = list(no_texts())
    return all([
        told(f"the program, by the table: {counted(lists)}", ((words, program.fault(words)) for words in lists)),
        told(f"the program, from seed {seed}: {counted(random_lists)}",
             ((words, program.fault(words)) for words in random_lists)),
        told(f"the program, words that are no UTF-8: {len(texts)} word lists",
             ((words, program.untold(words)) for words in texts))])


def main():
    rows = list(table())
    is_right = told(f"the reader, by the table: {counted([words for words, _ in rows])}",
                    ((words, misread(words, command)) for words, command in rows))
    if len(sys.argv) > 1:
        count = int(sys.argv[2]) if len(sys.argv) > 2 else 2000
        seed = int(sys.argv[3]) if len(sys.argv) > 3 else 1
        with tempfile.TemporaryDirectory() as folder:
            is_right = held(Program(os.path.abspath(sys.argv[1]), folder), count, seed) and is_right
    sys.exit(not is_right)


if __name__ == "__main__":
    main()

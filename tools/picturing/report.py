"""What is kept of a report, which is read in pieces. What is kept doesn't grow with it."""
from collections import Counter
from itertools import compress, repeat
from operator import add, eq, le
from typing import NamedTuple

from picturing.lines import END, FRAME, MISSES, SUMS, cut_sentence, kind_of, last_sentence, values_of
from picturing.sums import Behind, Kinds, Misses, Parts

SENT, PIECE, MOST_OCTETS, MOST_LOCATORS, MOST_KEPT = "encapsulated", 1 << 16, 1 << 20, 10_000, 1 << 16


class Malformed(Exception):
    """Why this isn't the report of a replay."""


class Block(NamedTuple):
    """Lines of frames that follow one another, as columns."""
    lines: list
    numbers: list
    moments: list
    knowns: list
    verdicts: list
    kinds: list

    def front(self, count):
        return Block(*(column[:count] for column in self))


class KindsOf(dict):
    """The kinds of verdicts, each found once as long as they aren't too many."""

    def __missing__(self, verdict):
        if len(self) >= MOST_KEPT:
            self.clear()
        self[verdict] = kind_of(verdict)
        return self[verdict]


class Report:
    """What is kept of a report."""

    def __init__(self):
        self.frames, self.first, self.last = 0, None, None
        self.parts, self.kinds, self.misses, self.behind = Parts(), Kinds(), Misses(), Behind()
        self.sums = dict.fromkeys(("learned", "passed", "asked", "answered"), 0)
        self.locators, self.others, self.sentence, self.last_line = {}, 0, None, None
        self.latest, self.kinds_of = 0, KindsOf()

    # Blocks.

    def take(self, text):
        """Takes whole lines."""
        lines = text.split("\n")
        lines.pop()
        block = self.block_of(text, lines)
        if block.lines:
            self.take_frames(block)
        for line in lines[len(block.lines):]:
            self.take_last(line)

    def block_of(self, text, lines):
        """The lines of frames with which a text begins; none behind a last line."""
        found = FRAME.findall(text) if self.last_line is None else []
        if len(found) < len(lines):
            count = next((i for i, line in enumerate(lines) if not FRAME.fullmatch(line + "\n")), len(lines))
            found = found[:count]
        if not found:
            return Block([], [], [], [], [], [])
        numbers, seconds, fractions, knowns, verdicts = zip(*found)
        kinds = list(map(self.kinds_of.__getitem__, verdicts))
        block = Block(lines[:len(found)], list(map(int, numbers)), list(map(int, map(add, seconds, fractions))),
                      list(map(int, knowns)), verdicts, kinds)
        return block.front(kinds.index(None)) if None in kinds else block

    def take_frames(self, block):
        self.check(block)
        self.first = self.first or block.lines[0].split(" ")[1]
        self.last, self.latest, self.frames = block.lines[-1].split(" ")[1], block.moments[-1], block.numbers[-1]
        self.misses.take(block, MISSES)
        self.kinds.take(block, self.behind.take(block))
        for first, end, sums in self.parts.spans(block.moments):
            self.take_part(block, first, end, sums)
        self.send(block)

    def check(self, block):
        """Whether numbers go on by one, and moments don't fall."""
        due, before = range(self.frames + 1, self.frames + 1 + len(block.lines)), [self.latest, *block.moments]
        if block.numbers == list(due) and all(map(le, before, block.moments)):
            return
        for number, wanted, earlier, moment in zip(block.numbers, due, before, block.moments):
            if number != wanted:
                raise self.malformed(wanted, f"frame {number} follows frame {wanted - 1}")
            if moment < earlier:
                raise self.malformed(wanted, "its moment is earlier than that of the frame before")

    def take_part(self, block, first, end, sums):
        """Takes frames of one part of the time."""
        verdicts, kinds = block.verdicts[first:end], block.kinds[first:end]
        sums.update(kinds)
        for verdict, kind in [found for found in zip(verdicts, kinds) if found[1] in SUMS]:
            for name, value in zip(SUMS[kind], map(int, values_of(kind, verdict))):
                self.sums[name] += value
                sums[name] += value

    def send(self, block):
        """Counts packets from own locators to others, each pair by its verdict."""
        counts = Counter(compress(block.verdicts, map(eq, block.kinds, repeat(SENT))))
        if not counts:
            return
        last, first = dict(zip(block.verdicts, block.numbers)), {}
        if not counts.keys() <= self.locators.keys():
            first = dict(zip(reversed(block.verdicts), reversed(block.numbers)))
        for verdict, count in counts.items():
            if verdict not in self.locators and len(self.locators) == MOST_LOCATORS:
                self.others += count
                continue
            sent = self.locators.setdefault(verdict, [0, first.get(verdict), 0])
            sent[0] += count
            sent[2] = last[verdict]

    # The last line.

    def take_last(self, line):
        if self.last_line is not None:
            raise self.malformed(self.frames + 2, "a line stands behind the last one")
        self.sentence, match = last_sentence(line), END.fullmatch(line)
        if self.sentence is None:
            raise self.malformed(self.frames + 1, "it is neither the line of a frame nor a last line")
        if match and int(match[1]) != self.frames:
            raise self.malformed(self.frames + 1, f"it says frames={match[1]}, and {self.frames} are before it")
        if self.frames and line.startswith(("usage", "settings")):
            raise self.malformed(self.frames + 1, "no frame comes before such a line")
        self.last_line = line
        self.misses.settle(self.latest, int(match[3]) if match else None)

    def malformed(self, number, why):
        return Malformed(f"line {number} is no line of a report: {why}")

    def lines(self):
        """How many whole lines were taken."""
        return self.frames + (self.last_line is not None)

    # Octets.

    def take_octets(self, octets):
        """Takes whole lines as octets."""
        try:
            self.take(octets.decode())
        except UnicodeDecodeError as fault:
            text = octets[:fault.start].rpartition(b"\n")
            self.take((text[0] + text[1]).decode())
            raise Malformed(f"line {self.lines() + 1} isn't text") from None

    def end(self, octets):
        """Takes what stands behind the last whole line."""
        if octets:
            self.sentence = cut_sentence(octets)
        self.misses.settle(0, None)


def taken(file):
    """The report that a file holds."""
    report, rest = Report(), b""
    for piece in iter(lambda: file.read(PIECE), b""):
        whole, newline, rest = (rest + piece).rpartition(b"\n")
        if newline:
            report.take_octets(whole + newline)
        if len(rest) >= MOST_OCTETS:
            raise Malformed(f"line {report.lines() + 1} is too long")
    report.end(rest)
    return report

#!/usr/bin/env python3
"""What a replay may leave that is cut short: a front of a lawful report, and no file or a front of the output to it.

usage: fronts.py
With workers the numbers of the whole lines are read first; a line that is cut may have any number that its frame may
have, and what is behind it any. As a program it has each front of the worked reports of worked_rounds.py judged, and
each with another last octet, and sees that just those are taken that one of these reports begins with; and likewise
outputs. It ends with status 1 where one isn't.
"""
import functools
import os
import struct
import sys
import tempfile

import plain
import rounds
import worked_rounds
from captures import CaptureFault, frames_of
from sites import Site
from splitting import split_all
from wire import contents, existing

SECOND = 10**9


def is_front(report, output, right):
    """Whether a report and an output, or None, are fronts of those of a right end."""
    return right[1].startswith(report) and (output is None or (right[2] or b"").startswith(output))


def moments_of(settings, capture, read, split):
    """The moments of a capture's frames, those before its fault, or of their halves."""
    moments = []
    try:
        frames = read(capture)
        moments += (moment for moment, _, _ in (split_all(Site(contents(settings)), frames) if split else frames))
    except CaptureFault:
        pass
    return moments


def written_at(output):
    """The moments of the packets that an output has or begins with, as far as they are there."""
    at = 24
    while at + 8 <= len(output):
        second, nanosecond = struct.unpack("<II", output[at:at + 8])
        yield second * SECOND + nanosecond
        at += 16 + int.from_bytes(output[at + 8:at + 12], "little")


class Lawful:
    """The ends that a replay of these files may have, with so many workers and frames a round; the capture is read so,
    and split or not."""

    def __init__(self, settings, capture, workers=0, size=256, read=frames_of, split=False):
        self.settings, self.capture, self.size, self.how = settings, capture, size, {"read": read, "split": split}
        self.moments = moments_of(settings, capture, read, split)
        self.one = None if workers else self.ended(plain.replay)

    def ended(self, replay, *how):
        with tempfile.TemporaryDirectory() as folder:
            path = os.path.join(folder, "out")
            call = functools.partial(replay, **self.how)
            return *plain.ended(call, self.settings, self.capture, path, *how), existing(path)

    def has_end(self, end):
        """Whether a replay may end so where nothing is refused and nothing fails."""
        if self.one:
            return end == self.one
        return not rounds.fault(self.settings, self.capture, self.size, end, **self.how)

    def has_front(self, report, output):
        """Whether a replay that is cut short may have said and written so much."""
        return any(is_front(report, output, right) for right in ([self.one] if self.one else self.continued(report)))

    def has_reported(self, report, output):
        """Whether no packet that was written is of a frame without a whole line; of seconds some may be behind that."""
        said = min(report.count("\n"), len(self.moments))
        seconds = [moment // SECOND * SECOND for moment in self.moments[said:said + 1]]
        last = max(self.moments[said - 1:said] + seconds) if said else -1
        return all(moment <= last for moment in written_at(output or b""))

    def continued(self, report):
        """The ends by the report's numbers, one for each number that the line may have that is cut."""
        whole = report[:report.rfind("\n") + 1]
        said, cut, choices, choice = rounds.reported(whole), whole.count("\n") + 1, {}, None

        def choose(number, ends):
            if number < cut:
                return said(number, ends)
            if number == cut:
                choices.update(dict.fromkeys(ends))
            return choice if number == cut and choice in ends else ends[0]
        try:
            yield self.ended(rounds.replay, self.size, choose)
            for choice in list(choices):
                yield self.ended(rounds.replay, self.size, choose)
        except rounds.Unlawful:
            return


# As a program.


def spoiled(octets):
    """The same with the last octet changed."""
    return octets[:-1] + bytes([octets[-1] ^ 1]) if octets else octets


def fronts_of(ends):
    """Each front of a report, and the same spoiled; and behind whole reports fronts of the outputs, and spoiled ones."""
    texts = {end[1][:size] for end in ends for size in range(len(end[1]) + 1)}
    for text in sorted(texts):
        yield text, None
        yield spoiled(text.encode()).decode(), None
    for _, report, output in ends:
        for size in range(0, len(output) + 1, 7):
            yield report, output[:size]
            yield report, spoiled(output[:size])


def main():
    ends, count = worked_rounds.ends(), 0
    with tempfile.TemporaryDirectory() as folder:
        settings, capture = (os.path.join(folder, name) for name in ("settings", "in"))
        with open(settings, "w") as file:
            file.write(worked_rounds.SETTINGS)
        with open(capture, "wb") as file:
            file.write(worked_rounds.CAPTURE)
        lawful = Lawful(settings, capture, worked_rounds.WORKERS, worked_rounds.SIZE)
        for report, output in fronts_of(ends):
            count += 1
            if lawful.has_front(report, output) != any(is_front(report, output, end) for end in ends):
                sys.exit(f"judged wrongly: {report!r} {output!r}")
    print(f"{count} fronts judged")


if __name__ == "__main__":
    main()

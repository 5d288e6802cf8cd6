"""The packets that were due and those that were sent, as pairs within a window of time.

A packet is held against what waits of the other side as it comes: by its octets, then by what names it. Whatever has no
partner then waits for two windows, and is held against the others that wait by less and less. So the memory that is
needed is that of the packets of two windows.
"""
from collections import defaultdict, deque
from dataclasses import dataclass, field
from typing import Optional

from reading import NONCES, Reading, keys_of, reading_of

AT_ONCE, MOST_TRIED = 1, 64


@dataclass(eq=False)
class Sent:
    """A packet of one side: its number in its capture, its moment, its octets, and how it is read."""
    number: int
    moment: int
    octets: bytes
    reading: Optional[Reading] = None
    keys: list = field(default_factory=list)

    def read(self):
        if self.reading is None:
            self.reading = reading_of(self.octets)
        return self.reading


class Waiting:
    """Packets of one side that wait for a partner."""

    def __init__(self):
        self.packets, self.found = {}, defaultdict(deque)

    def add(self, packet):
        packet.keys = keys_of(packet.read(), packet.octets)
        self.packets[packet.number] = packet
        for key in packet.keys:
            self.found[key].append(packet)

    def remove(self, packet):
        del self.packets[packet.number]
        for key in packet.keys:
            same = self.found[key]
            same.remove(packet)
            if not same:
                del self.found[key]

    def oldest(self):
        return next(iter(self.packets.values()), None)

    def partner(self, packet, key, window):
        """Of those within the window that have a key the one of the very moment, else of messages the nearest, and of
        other packets the oldest: of a flow of packets that are alike each then comes to its own, however late."""
        same = [other for other, _ in zip(self.found.get(key, ()), range(MOST_TRIED))
                if abs(other.moment - packet.moment) <= window]
        is_message = packet.read().kind in NONCES

        def distance(other):
            return abs(other.moment - packet.moment) if is_message else other.moment != packet.moment
        return min(same, key=distance, default=None)


class Partners:
    """Two sides, due and sent, within a window of nanoseconds."""

    def __init__(self, window):
        self.window = window
        self.sides = Waiting(), Waiting()

    def pair(self, side, packet, other):
        """A pair as due and sent."""
        return (packet, other) if side == 0 else (other, packet)

    def come(self, side, packet):
        """The pair that a packet makes as it comes, or none: it waits."""
        others = self.sides[1 - side]
        keys = keys_of(packet.read(), packet.octets) if others.packets else []
        for key in keys:
            other = others.partner(packet, key, self.window) if key[0] <= AT_ONCE else None
            if other:
                others.remove(other)
                return [self.pair(side, packet, other)]
        self.sides[side].add(packet)
        return []

    def leave(self, side):
        """The oldest packet of a side, with the partner that it has by any key, or with none."""
        packet, others = self.sides[side].oldest(), self.sides[1 - side]
        self.sides[side].remove(packet)
        for key in packet.keys:
            other = others.partner(packet, key, self.window)
            if other:
                others.remove(other)
                return self.pair(side, packet, other)
        return self.pair(side, packet, None)

    def left_before(self, moment):
        """The pairs of what waited since before a moment, from the oldest on; None is the end of time."""
        while True:
            first = [(packet.moment, side) for side, waiting in enumerate(self.sides) if (packet := waiting.oldest())]
            if not first or moment is not None and min(first)[0] >= moment:
                return
            yield self.leave(min(first)[1])

    def pairs(self, due, sent):
        """All pairs of two streams of packets in order of time; None stands for a partner that there isn't."""
        ours, theirs = next(due, None), next(sent, None)
        while ours or theirs:
            side = 0 if theirs is None or ours and ours.moment <= theirs.moment else 1
            packet = theirs if side else ours
            yield from self.left_before(packet.moment - 2 * self.window)
            if ours and theirs and self.is_plain(ours, theirs):
                yield ours, theirs
                ours, theirs = next(due, None), next(sent, None)
                continue
            yield from self.come(side, packet)
            ours, theirs = (ours, next(sent, None)) if side else (next(due, None), theirs)
        yield from self.left_before(None)

    def is_plain(self, ours, theirs):
        """Whether the next packets of both sides are one and the same, and no such packet waits."""
        return (ours.octets == theirs.octets and abs(ours.moment - theirs.moment) <= self.window
                and not any((0, ours.octets) in waiting.found for waiting in self.sides))

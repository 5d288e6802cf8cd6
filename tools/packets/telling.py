"""What a comparison found: counts of fields and of packets without a partner, each with its first places."""
import bisect
import heapq
from collections import defaultdict
from datetime import datetime, timezone
from typing import NamedTuple, Optional

from comparing import differences, left_to_routers
from reading import described

MOST_PLACES = 3
MISSING, EXTRA, ORDER = "packet.missing", "packet.extra", "packet.order"


class Place(NamedTuple):
    """Where something differs: numbers and moments of both packets, what the packet is, and both values."""
    number: int
    moment: int
    due: Optional[int]
    sent: Optional[int]
    what: str
    values: tuple


class Tally:
    """Counts over a whole capture."""

    def __init__(self, ignored, is_other, window):
        self.ignored, self.is_other = ignored | ({ORDER} if is_other else set()), is_other
        self.due = self.sent = self.pairs = self.same = 0
        self.counts, self.places = defaultdict(int), defaultdict(list)
        self.order = Order(3 * window)

    def add(self, name, place):
        if name in self.ignored:
            return
        self.counts[name] += 1
        first = self.places[name]
        bisect.insort(first, place, key=lambda one: one.number)
        del first[MOST_PLACES:]

    def take(self, due, sent):
        """Counts a pair, or a packet without a partner."""
        self.due += due is not None
        self.sent += sent is not None
        if due and sent:
            self.pairs += 1
            self.same += due.octets == sent.octets or not self.differ(due, sent)
            self.take_turned(self.order.turned(due, sent))
        else:
            packet = due or sent
            self.add(MISSING if due else EXTRA, place_of(due, sent, described(packet.read()), ()))

    def take_turned(self, turned):
        for greatest, number, moment, sent in turned:
            values = f"before {greatest}", f"behind {greatest}"
            self.add(ORDER, Place(number, moment, number, sent, "", values))

    def end(self):
        self.take_turned(self.order.rest())

    def differ(self, due, sent):
        """Counts the fields in which a pair differs, but for those that don't matter; whether there is one."""
        ours, theirs, found = due.read(), sent.read(), {}
        passed = self.ignored | left_to_routers(ours, theirs) if self.is_other else self.ignored
        for name, *values in differences(ours, theirs):
            if name not in passed:
                found.setdefault(name, tuple(values))
        for name, values in found.items():
            self.add(name, place_of(due, sent, described(ours), values))
        return bool(found)


class Order:
    """The pairs in the order in which their packets were sent, though they are found within some time of it."""

    def __init__(self, within):
        self.within, self.greatest, self.waiting = within, 0, []

    def turned(self, due, sent):
        """Of the pairs whose turn it is those that were sent behind one that was due later, which is told."""
        heapq.heappush(self.waiting, (sent.number, sent.moment, due.number, due.moment))
        return list(self.until(sent.moment - self.within))

    def rest(self):
        return list(self.until(None))

    def until(self, moment):
        while self.waiting and (moment is None or self.waiting[0][1] < moment):
            sent, _, number, due_moment = heapq.heappop(self.waiting)
            if number < self.greatest:
                yield self.greatest, number, due_moment, sent
            self.greatest = max(self.greatest, number)


def place_of(due, sent, what, values):
    packet = due or sent
    return Place(packet.number, packet.moment, due and due.number, sent and sent.number, what, values)


def time_of(moment):
    """A moment in seconds, and in UTC."""
    seconds, rest = divmod(moment, 10**9)
    utc = datetime.fromtimestamp(seconds, timezone.utc)
    return f"{seconds}.{rest:09} {utc:%Y-%m-%dT%H:%M:%S}.{rest // 1000:06}Z"


# Lines.


def place_lines(place, frames):
    """Where something differs: the packets with their moment, and the values; what the packet is."""
    due, sent = place.due and f"due {place.due} ({frames})", place.sent and f"sent {place.sent}"
    values = place.values and ": due {}, sent {}".format(*place.values)
    yield f"  {', '.join(filter(None, (due, sent)))}, {time_of(place.moment)}{values or ''}"
    if place.what:
        yield f"    {place.what}"


def frames_text(place, frames):
    """Which frame a packet was due for, by its moment, or which second."""
    found = frames.get(place.moment)
    if not found:
        return f"second {place.moment // 10**9}"
    return f"frame {found[0]}" if len(found) == 1 else f"frames {found[0]} to {found[-1]}"


def lines_of(tally, names, frames):
    """All that was found, in the order of the names of fields."""
    yield f"due={tally.due} sent={tally.sent} pairs={tally.pairs} same={tally.same}"
    for name in names:
        if tally.counts.get(name):
            yield f"{name} {tally.counts[name]}"
            for place in tally.places[name]:
                yield from place_lines(place, frames_text(place, frames))

"""Sums over the frames of a report, taken block by block: over parts of its time, by kind, of misses, and of n."""
from bisect import bisect_left
from collections import Counter
from itertools import accumulate
from operator import sub

MOST_LISTED, MOST_PARTS, LEAST_PARTS = 10_000, 240, 24
SECOND, DAY = 10**9, 86_400 * 10**9
# How long a part of the time may be, in nanoseconds. Each is a multiple of the one before.
WIDTHS = [unit * 10**power for power in range(3, 9) for unit in (1, 2)] + [
    SECOND * count for count in (1, 2, 10, 20, 60, 120, 600, 1200, 3600, 7200, 21600, 43200)] + [
    DAY * count for count in (1, 2, 10, 20, 100, 200, 1000, 2000, 10_000)]


class Parts:
    """Sums by name in parts of the time from the first moment on; all have one width, which grows with the time."""

    def __init__(self):
        self.start, self.step, self.sums = None, 0, {}

    @property
    def width(self):
        return WIDTHS[self.step]

    def spans(self, moments):
        """Where the moments of each part begin and end, and the part's sums."""
        if self.start is None:
            self.start = moments[0]
        self.widen(moments[-1], MOST_PARTS)
        first = 0
        while first < len(moments):
            place = (moments[first] - self.start) // self.width
            end = bisect_left(moments, self.start + (place + 1) * self.width, first)
            yield first, end, self.sums.setdefault(place, Counter())
            first = end

    def widen(self, moment, most):
        """Takes the first width by which there are at most so many parts up to a moment."""
        before, span = self.width, moment - self.start
        while span // self.width >= most:
            self.step += 1
        if self.width == before:
            return
        wider = {}
        for place, sums in self.sums.items():
            wider.setdefault(place * before // self.width, Counter()).update(sums)
        self.sums = wider

    def count(self):
        return max(self.sums, default=-1) + 1

    def series(self):
        """The sums of each name, part by part."""
        count, series = self.count(), {}
        for place, sums in self.sums.items():
            for name, amount in sums.items():
                series.setdefault(name, [0] * count)[place] = amount
        return {"width": self.width, "count": count, "series": series}


class Listed:
    """The frames of a kind: how many, the first and the last, and the first lines, with how far n lay behind."""

    def __init__(self, first):
        self.count, self.first, self.last, self.lines, self.behind = 0, first, None, [], []

    def is_full(self):
        return len(self.lines) >= MOST_LISTED

    def add(self, line, behind):
        if not self.is_full():
            self.lines.append(line)
            self.behind.append(behind)


class Kinds(dict):
    """The frames by kind."""

    def take(self, block, behind):
        counts, last = Counter(block.kinds), dict(zip(block.kinds, block.numbers))
        for kind, count in counts.items():
            if kind not in self:
                self[kind] = Listed(block.numbers[block.kinds.index(kind)])
            self[kind].count += count
            self[kind].last = last[kind]
        wanted = {kind for kind in counts if not self[kind].is_full()}
        for place in [place for place, kind in enumerate(block.kinds) if kind in wanted]:
            self[block.kinds[place]].add(block.lines[place], behind[place] if behind else 0)


class Misses:
    """Which misses the next line tells of: whether the journal grew by the miss, where no second began between."""

    def __init__(self):
        self.open, self.asked, self.silent, self.untold = None, 0, 0, 0

    def take(self, block, kinds):
        """Takes a block, and the kinds whose frames may make the router ask."""
        self.settle(block.moments[0], block.knowns[0])
        moments, knowns, last = block.moments, block.knowns, len(block.kinds) - 1
        for place in [place for place, kind in enumerate(block.kinds) if kind in kinds]:
            self.open = moments[place], knowns[place]
            if place < last:
                self.settle(moments[place + 1], knowns[place + 1])

    def settle(self, moment, known):
        """Takes the moment and the number of what follows, None where nothing is known of it."""
        if self.open is None:
            return
        before, had = self.open
        self.open = None
        grown = known - had if known is not None and moment // SECOND == before // SECOND else None
        if grown == 1:
            self.asked += 1
        elif grown == 0:
            self.silent += 1
        else:
            self.untold += 1


class Behind:
    """How far the n of lines lay behind the greatest n before: counts by 0, 1, 2 to 3, 4 to 7 and so on."""

    def __init__(self):
        self.known, self.counts, self.greatest, self.frame = 0, Counter(), 0, None

    def take(self, block):
        """How far each n of a block lies behind; nothing where none does."""
        reached = list(accumulate(block.knowns, max, initial=self.known))[1:]
        self.known = reached[-1]
        behind = list(map(sub, reached, block.knowns)) if reached != block.knowns else []
        self.counts.update(map(int.bit_length, behind) if behind else {0: len(block.knowns)})
        if behind and max(behind) > self.greatest:
            self.greatest = max(behind)
            self.frame = block.numbers[behind.index(self.greatest)]
        return behind

    def listed(self):
        return [self.counts[place] for place in range(max(self.counts, default=-1) + 1)]

"""The plain router's journal, whole, with what its scans find kept beside it as entries come.

`Journal` answers each question by a scan of all entries, which takes too long where there are many of them. `Kept`
answers the same questions by sums that go on from the entry they came to. Its moments must not fall.
"""
import heapq
from bisect import bisect_left, bisect_right, insort
from collections import Counter, defaultdict

from journal import (AGAIN, OPEN, PROBE_AGAIN, PROBE_COUNTS, SECOND, WANTED, Answered, Asked, Bits, DataFrom, Echo,
                     EchoHeard, EchoStarted, EchoWanted, Journal, Learned, ProbeAnswered, Probed, Retried, Solicited, ends)
from messages import Eid


class Covering(dict):
    """Values by EIDs, of which those that cover another one are found length by length."""

    def __init__(self):
        super().__init__()
        self.counts, self.lengths = defaultdict(Counter), {}

    def __setitem__(self, eid, value):
        if eid not in self:
            self.count(eid, 1)
        super().__setitem__(eid, value)

    def __delitem__(self, eid):
        super().__delitem__(eid)
        self.count(eid, -1)

    def count(self, eid, more):
        """Keeps the lengths that EIDs of an instance and family have, from the longest on."""
        key = eid.iid, eid.width
        counts = self.counts[key]
        counts[eid.length] += more
        if not counts[eid.length]:
            del counts[eid.length]
        if len(counts) != len(self.lengths.get(key, ())):
            self.lengths[key] = sorted(counts, reverse=True)

    def covering(self, other):
        """The values of EIDs that cover another one, from the longest on."""
        iid, width, address, most = other
        for length in self.lengths.get((iid, width), ()):
            if length <= most:
                value = self.get((iid, width, address >> width - length << width - length, length))
                if value is not None:
                    yield value


class Names:
    """For each locator the EIDs whose mappings name it for packets, in order."""

    def __init__(self):
        self.eids = defaultdict(list)

    def replace(self, before, mapping):
        for locator in {one.address for one in before.locators if one.priority != 255} if before else ():
            eids = self.eids[locator]
            at = bisect_left(eids, before.eid)
            if at < len(eids) and eids[at] == before.eid:
                del eids[at]
        for locator in {one.address for one in mapping.locators if one.priority != 255}:
            insort(self.eids[locator], mapping.eid)

    def least(self, live):
        """For each locator the least EID whose mapping is live. A mapping that has ended stays so until it is learned
        again, and its EID goes."""
        found = {}
        for locator, eids in self.eids.items():
            while eids and eids[0] not in live:
                del eids[0]
            if eids:
                found[locator] = eids[0]
        return found


class Kept(Journal):
    """A journal of entries."""

    def __init__(self, entries):
        super().__init__(entries)
        self.seen, self.kinds, self.last, self.ups = 0, defaultdict(list), Covering(), {}
        self.waiting, self.sendings, self.asked_for, self.opened = {}, {}, Covering(), Counter()
        self.counts, self.learnings, self.ending = Counter(), Counter(), []
        self.probings, self.probed_by, self.echoings, self.wishes = [], {}, {}, {}
        self.names = Names()
        self.takers = {
            Learned: self.take_learned, Bits: self.take_bits, Asked: self.take_asked, Retried: self.take_retried,
            Answered: self.take_answered, Probed: self.take_probed, ProbeAnswered: self.take_probe_answered,
            EchoStarted: self.take_echo, EchoHeard: self.take_echo, DataFrom: self.take_echo, EchoWanted: self.take_wish}

    def take_all(self):
        """Takes the entries that came since it was asked last."""
        while self.seen < len(self):
            entry = self[self.seen]
            self.seen += 1
            self.kinds[type(entry)].append(entry)
            take = self.takers.get(type(entry))
            if take:
                take(entry)

    def now(self, moment):
        if self.seen < len(self):
            self.take_all()
        return max(moment, self[-1].moment) if self else moment

    # What each entry adds.

    def take_learned(self, entry):
        eid = entry.mapping.eid
        before = self.last.get(eid)
        if before is not None and not before.fixed and id(before) in self.counts:
            self.end(before)
        self.names.replace(before.mapping if before else None, entry.mapping)
        self.last[eid] = entry
        self.ups[eid] = [locator.reachable for locator in entry.mapping.locators]
        if not entry.fixed and entry.mapping.ttl:
            self.counts[id(entry)] = 1
            self.learnings[eid.iid] += 1
            heapq.heappush(self.ending, (ends(entry), self.seen, entry))

    def end(self, entry):
        del self.counts[id(entry)]
        self.learnings[entry.mapping.eid.iid] -= 1

    def take_bits(self, entry):
        up = self.ups.get(entry.eid, [])
        told = min(entry.width, len(up))
        self.ups[entry.eid] = [entry.bits >> i & 1 == 1 for i in range(told)] + up[told:]

    def take_asked(self, entry):
        self.close(entry.nonce)
        self.waiting[entry.nonce], self.sendings[entry.nonce] = entry, 0
        self.asked_for[entry.eid] = self.asked_for.get(entry.eid, 0) + 1
        self.opened[entry.eid.iid] += 1

    def close(self, nonce):
        entry = self.waiting.pop(nonce, None)
        if entry is not None:
            self.opened[entry.eid.iid] -= 1
            self.asked_for[entry.eid] -= 1
            if not self.asked_for[entry.eid]:
                del self.asked_for[entry.eid]

    def take_retried(self, entry):
        self.sendings[entry.nonce] += 1

    def take_answered(self, entry):
        self.close(entry.nonce)

    def take_probed(self, entry):
        self.probed_by[entry.nonce] = len(self.probings)
        self.probings.append((entry, False))

    def take_probe_answered(self, entry):
        at = self.probed_by[entry.nonce]
        self.probings[at] = self.probings[at][0], True

    def take_echo(self, entry):
        if type(entry) is EchoStarted:
            self.echoings[entry.address] = Echo(entry, False, False)
        else:
            fact = {"heard": True} if type(entry) is EchoHeard else {"data": True}
            self.echoings[entry.address] = self.echoings[entry.address]._replace(**fact)

    def take_wish(self, entry):
        self.wishes[entry.address] = entry

    # The questions, by the names that `Journal` has for them.

    def of(self, kind):
        self.take_all()
        return self.kinds[kind]

    def learned(self):
        self.take_all()
        return self.last

    def live(self, moment):
        return Live(self.learned(), self.now(moment))

    def in_force(self, moment, eid):
        now = self.now(moment)
        return next((entry for entry in self.last.covering(eid) if entry.fixed or now < ends(entry)), None)

    def named(self, moment):
        return self.names.least(self.live(moment))

    def next_second(self, second):
        moments = []
        for kind, ages in ((Asked, AGAIN), (Probed, (PROBE_AGAIN, PROBE_COUNTS))):
            entries = self.of(kind)
            for age in ages:
                at = bisect_right(entries, second * SECOND - age, key=lambda entry: entry.moment)
                moments += [entry.moment + age for entry in entries[at:at + 1]]
        return -(-min(moments) // SECOND) if moments else None

    def status(self, eid):
        self.take_all()
        return self.ups.get(eid, [])

    def open_requests(self, moment):
        now = self.now(moment)
        while self.waiting and now - next(iter(self.waiting.values())).moment >= OPEN:
            self.close(next(iter(self.waiting)))
        return self.waiting

    def times(self):
        self.take_all()
        return self.sendings

    def open_in(self, moment, iid):
        self.open_requests(moment)
        return self.opened[iid]

    def may_ask(self, moment, eid, limit):
        return (self.open_in(moment, eid.iid) < limit.requests
                and next(self.asked_for.covering(eid), None) is None)

    def learned_in(self, moment, iid):
        now = self.now(moment)
        while self.ending and self.ending[0][0] <= now:
            entry = heapq.heappop(self.ending)[2]
            if id(entry) in self.counts:
                self.end(entry)
        return self.learnings[iid]

    def drawn(self):
        self.take_all()
        return sum(len(self.kinds[kind]) for kind in (Asked, Probed, EchoStarted, Solicited))

    def younger(self, kind, age, moment):
        now, entries = self.now(moment), self.of(kind)
        return entries[bisect_right(entries, now - age, key=lambda entry: entry.moment):]

    def probes(self):
        self.take_all()
        return self.probings

    def echoes(self):
        self.take_all()
        return self.echoings

    def wanted(self, moment, address):
        now, entry = self.now(moment), self.wishes.get(address)
        return entry.nonce if entry and now - entry.moment < WANTED else None


class Live:
    """The last thing learned of each EID, where it is in force."""

    def __init__(self, entries, now):
        self.entries, self.now = entries, now

    def has(self, entry):
        return entry.fixed or self.now < ends(entry)

    def get(self, eid):
        entry = self.entries.get(eid)
        return entry if entry is not None and self.has(entry) else None

    def __contains__(self, eid):
        return self.get(eid) is not None

    def items(self):
        return [(eid, entry) for eid, entry in self.entries.items() if self.has(entry)]

    def values(self):
        return [entry for entry in self.entries.values() if self.has(entry)]

"""The journal of a plain router: a list of entries, and each question a scan of that list."""
import functools
from typing import NamedTuple, Optional

from messages import Eid, Record

SECOND = 10**9
# How long a request is open, and how old it is where it is sent again; how long a probe is open, how old it is where
# its locator is probed again, and how long it counts.
OPEN, AGAIN = 7 * SECOND, (SECOND, 3 * SECOND)
PROBE_OPEN, PROBE_AGAIN, PROBE_COUNTS = 3 * SECOND, 60 * SECOND, 600 * SECOND
# How long an echo is asked for, and how long that counts; how long one that a peer wants is given; how long a
# solicitation isn't made again.
ECHO_ON, ECHO_COUNTS, WANTED, SOLICITED = 10 * SECOND, 60 * SECOND, 2 * SECOND, 10 * SECOND
# Echoes asked for, echoes wanted, and solicitations, each.
MOST_ECHOES = 4096


class Learned(NamedTuple):
    moment: int
    mapping: Record
    fixed: bool


class Asked(NamedTuple):
    moment: int
    eid: Eid
    source: Optional[bytes]
    invoked: bool
    nonce: int


class Retried(NamedTuple):
    moment: int
    nonce: int


class Answered(NamedTuple):
    moment: int
    nonce: int


class Probed(NamedTuple):
    moment: int
    address: bytes
    nonce: int


class ProbeAnswered(NamedTuple):
    moment: int
    nonce: int


class Bits(NamedTuple):
    moment: int
    eid: Eid
    bits: int
    width: int


class EchoStarted(NamedTuple):
    moment: int
    address: bytes
    nonce: int


class EchoHeard(NamedTuple):
    moment: int
    address: bytes


class DataFrom(NamedTuple):
    moment: int
    address: bytes


class EchoWanted(NamedTuple):
    moment: int
    address: bytes
    nonce: int


class Solicited(NamedTuple):
    moment: int
    address: bytes
    eid: Eid
    nonce: int


class Changed(NamedTuple):
    """An own locator goes down or comes up."""
    moment: int
    address: bytes
    up: bool


class Echo(NamedTuple):
    """An echo request, and what came from its locator since."""
    start: EchoStarted
    heard: bool
    data: bool


def ends(entry):
    """The moment at which what was learned ends; a fixed mapping has none."""
    minutes = 1440 if entry.mapping.ttl == 0xFFFFFFFF else entry.mapping.ttl
    return entry.moment + minutes * 60 * SECOND


def by_entries(scan):
    """A scan that asks for no moment: what it finds stands until an entry is added, so it is found once till then."""
    @functools.wraps(scan)
    def found(self, *parts):
        if self.scanned != len(self):
            self.scanned, self.answers = len(self), {}
        key = scan, *parts
        if key not in self.answers:
            self.answers[key] = scan(self, *parts)
        return self.answers[key]
    return found


class Journal(list):
    """Entries, to which others are added at the end alone."""
    scanned = None

    def now(self, moment):
        return max(moment, self[-1].moment) if self else moment

    @by_entries
    def of(self, kind):
        """The entries of a kind."""
        return [entry for entry in self if type(entry) is kind]

    @by_entries
    def learned(self):
        """The last thing learned of each EID."""
        return {entry.mapping.eid: entry for entry in self.of(Learned)}

    def live(self, moment):
        """The last thing learned of each EID, where it is fixed or its time isn't over."""
        now = self.now(moment)
        return {eid: entry for eid, entry in self.learned().items() if entry.fixed or now < ends(entry)}

    def in_force(self, moment, eid):
        """What was learned last of the longest live mapping that covers the EID, or None."""
        covering = [entry for entry in self.live(moment).values() if entry.mapping.eid.covers(eid)]
        return max(covering, key=lambda entry: entry.mapping.eid.length, default=None)

    @by_entries
    def status(self, eid):
        """Whether each locator of a live mapping is up: by its last status bit since it was learned, or its record."""
        up = []
        for entry in self:
            if type(entry) is Learned and entry.mapping.eid == eid:
                up = [locator.reachable for locator in entry.mapping.locators]
            elif type(entry) is Bits and entry.eid == eid:
                told = min(entry.width, len(up))
                up[:told] = [entry.bits >> i & 1 == 1 for i in range(told)]
        return up

    @by_entries
    def unanswered(self):
        """For each nonce its last request, where no answer follows."""
        last = {}
        for entry in self:
            if type(entry) is Asked:
                last.pop(entry.nonce, None)
                last[entry.nonce] = entry
            elif type(entry) is Answered:
                last.pop(entry.nonce, None)
        return last

    def open_requests(self, moment):
        """For each nonce its last request, where no answer follows and it is younger than 7 s."""
        now = self.now(moment)
        return {nonce: entry for nonce, entry in self.unanswered().items() if now - entry.moment < OPEN}

    @by_entries
    def times(self):
        """How often the last request with each nonce was sent again."""
        times = {}
        for entry in self:
            if type(entry) is Asked:
                times[entry.nonce] = 0
            elif type(entry) is Retried:
                times[entry.nonce] += 1
        return times

    def due(self, moment):
        """The open requests that are to be sent again, in the order in which they were asked."""
        now, times = self.now(moment), self.times()
        return [entry for nonce, entry in self.open_requests(moment).items()
                if times[nonce] < len(AGAIN) and now - entry.moment >= AGAIN[times[nonce]]]

    def drawn(self):
        kinds = list(map(type, self))
        return sum(map(kinds.count, (Asked, Probed, EchoStarted, Solicited)))

    def changes(self):
        return self.of(Changed)

    def younger(self, kind, age, moment):
        """The entries of a kind that are younger than an age."""
        now = self.now(moment)
        return [entry for entry in self.of(kind) if now - entry.moment < age]

    def open_in(self, moment, iid):
        """How many requests for EIDs of an instance are open."""
        return sum(entry.eid.iid == iid for entry in self.open_requests(moment).values())

    def learned_in(self, moment, iid):
        """How many mappings of an instance are live, but for those that are fixed."""
        return sum(eid.iid == iid and not entry.fixed for eid, entry in self.live(moment).items())

    def may_ask(self, moment, eid, limit):
        """Whether no open request covers the EID, and fewer of its instance are open than the limit of that allows."""
        requests = self.open_requests(moment).values()
        return self.open_in(moment, eid.iid) < limit.requests and not any(entry.eid.covers(eid) for entry in requests)

    def may_learn(self, moment, mapping, limit):
        """Whether a mapping that isn't fixed takes one away, replaces one, or finds fewer of its instance than its limit."""
        if mapping.ttl == 0 or mapping.eid in self.live(moment):
            return True
        return self.learned_in(moment, mapping.eid.iid) < limit.mappings

    @by_entries
    def probes(self):
        """Each probe, and whether it is answered: of those with one nonce an answer is that of the last."""
        found, last = [], {}
        for entry in self:
            if type(entry) is Probed:
                last[entry.nonce] = len(found)
                found.append((entry, False))
            elif type(entry) is ProbeAnswered:
                found[last[entry.nonce]] = found[last[entry.nonce]][0], True
        return found

    def open_probe(self, moment, nonce):
        """The last probe with the nonce, where it isn't answered and is younger than 3 s, or None."""
        now, last = self.now(moment), None
        for entry, answered in self.probes():
            if entry.nonce == nonce:
                last = entry if not answered and now - entry.moment < PROBE_OPEN else None
        return last

    def down(self, moment):
        """The locators whose last probe that is answered, or 3 s old, isn't answered and still counts."""
        now, judged = self.now(moment), {}
        for entry, answered in self.probes():
            if answered or now - entry.moment >= PROBE_OPEN:
                judged[entry.address] = entry.moment, answered
        return {address for address, (start, answered) in judged.items()
                if not answered and now - start < PROBE_COUNTS}

    def last_probes(self, moment):
        """When each locator was last probed, where that still counts."""
        now = self.now(moment)
        last = {entry.address: entry.moment for entry in self.of(Probed)}
        return {address: start for address, start in last.items() if now - start < PROBE_COUNTS}

    @by_entries
    def echoes(self):
        """The last echo request of each locator."""
        last = {}
        for entry in self:
            if type(entry) is EchoStarted:
                last[entry.address] = Echo(entry, False, False)
            elif type(entry) is EchoHeard:
                last[entry.address] = last[entry.address]._replace(heard=True)
            elif type(entry) is DataFrom:
                last[entry.address] = last[entry.address]._replace(data=True)
        return last

    def echo_on(self, moment, address):
        """The locator's echo request where it is on, or None."""
        echo = self.echoes().get(address)
        is_on = echo and not echo.heard and self.now(moment) - echo.start.moment < ECHO_ON
        return echo if is_on else None

    def deaf(self, moment):
        """The locators that sent data and no echo while one was asked for, as long as that counts."""
        now = self.now(moment)
        return {address for address, echo in self.echoes().items()
                if echo.data and not echo.heard and ECHO_ON <= now - echo.start.moment < ECHO_COUNTS}

    def wanted(self, moment, address):
        """The nonce that a locator wants to see, or None."""
        last = [entry for entry in self.of(EchoWanted) if entry.address == address][-1:]
        return next((entry.nonce for entry in last if self.now(moment) - entry.moment < WANTED), None)

    def may_start(self, moment, address):
        starts = self.younger(EchoStarted, ECHO_COUNTS, moment)
        return (len(starts) < MOST_ECHOES and all(entry.address != address for entry in starts)
                and self.wanted(moment, address) is None)

    def may_want(self, moment, address, nonce):
        return (len(self.younger(EchoWanted, WANTED, moment)) < MOST_ECHOES
                and self.wanted(moment, address) != nonce)

    def may_solicit(self, moment, pairs):
        """Those of some pairs of a locator and a prefix that may be solicited one after another."""
        made = self.younger(Solicited, SOLICITED, moment)
        told = {(entry.address, entry.eid) for entry in made}
        return [pair for pair in pairs if pair not in told][:MOST_ECHOES - len(made)]

    def next_second(self, second):
        """Behind a second in which nothing was to be done: the first one in which something may be, or None.

        As long as no frame comes, something new can only be to be done where a request or a probe gets older
        than one of the ages that make it so. All else that time does is to end what is open, live or counts.
        """
        ages = [(Asked, AGAIN), (Probed, (PROBE_AGAIN, PROBE_COUNTS))]
        moments = [entry.moment + age for kind, some in ages for entry in self.of(kind) for age in some]
        least = min((moment for moment in moments if moment > second * SECOND), default=None)
        return None if least is None else -(-least // SECOND)

"""A capture made from a number beside a plain router, so that its frames fit what the router asked and learned."""
import collections
import struct

from arrivals import Arrivals
from fitting import away, longer, plain_ip, randomly, record, shorter, summed
from journal import (AGAIN, ECHO_COUNTS, ECHO_ON, OPEN, PROBE_AGAIN, PROBE_COUNTS, PROBE_OPEN, SECOND, SOLICITED, WANTED,
                     Asked, Bits, EchoStarted, EchoWanted, Learned, Solicited, ends)
from makers import AWAY, HOMES, IIDS, OTHERS, between, framed, host, inside, packet, raw, spoiled, udp
from messages import Eid
from rounds import Stepwise

MILLI, DAY = 10**6, 86_400 * SECOND
# Behind so many entries, all of which the plain router scans, no pause is longer than a second.
SCANNED = 2000
# Long pauses between frames, in seconds: of requests, probes and echoes, of those that come again, of those that count.
LONG = [(3, 10)] * 10 + [(55, 65)] * 5 + [(590, 610), (0, 700)]


class Talk:
    """Frames one after another; some are at the very end of something that the router keeps, or just before.

    They fit what a router with rounds of that size asks for.
    """

    def __init__(self, r, site, link, unit, hurried, size=1):
        self.r, self.site, self.link, self.unit, self.hurried = r, site, link, unit, hurried
        self.router = Stepwise(site, size)
        self.arrivals = Arrivals(r, site, self.router.journal)
        self.now = 1_700_000_000 * SECOND + self.rounded(r.choice([0, r.randrange(SECOND)]))
        self.replies, self.iid, self.filled = [], None, False
        self.slow, self.answering = r.choice([0.01, 0.04, 0.12]), r.choice([0.1, 0.5, 0.8])
        self.echoing = r.choice([0.1, 0.3, 0.6])

    # Moments.

    def rounded(self, moment):
        return moment - moment % self.unit

    def whole(self):
        """A whole second that is to come, one unit before or behind it, or so many seconds from now."""
        r = self.r
        if r.random() < 0.25:
            return self.now + r.choice([1] * 9 + [2, 3, 3, 7, 7, 60, 60, 600]) * SECOND
        second = self.now // SECOND + r.choice([1, 1, 1, 2, 3])
        return second * SECOND + r.choice([-1, 0, 0, 1]) * self.unit

    def quiet(self):
        """Behind minutes to a day without a frame: the more locators are probed in it, the shorter it is."""
        probed = {probe.address for probe, _ in self.router.journal.probes()}
        longest = min(DAY, 60 * SECOND * SCANNED // max(1, len(probed)))
        return self.now + self.r.randrange(60 * SECOND, longest)

    def much_later(self):
        """Some seconds or minutes from now, now and then hours, or where a locator was probed again."""
        r, recent = self.r, self.router.journal.probes()[-40:]
        if r.random() < 0.1:
            return self.quiet()
        if recent and r.random() < 0.7:
            return r.choice(recent)[0].moment + PROBE_AGAIN + r.randrange(SECOND)
        least, most = r.choice(LONG)
        return self.now + r.randrange(least * SECOND, most * SECOND)

    def later(self):
        """A moment that isn't before now, mostly soon."""
        r, kind = self.r, self.r.random()
        if self.hurried and kind < 0.998:
            return self.rounded(self.now + r.randrange(2 * MILLI))
        if kind < 0.12:
            return self.whole()
        if kind < 0.12 + self.slow:
            return self.rounded(max(self.now, self.much_later()))
        longest = r.choice([0, 1000, MILLI, SECOND // 10, SECOND // 2, SECOND])
        return self.rounded(self.now + r.randrange(longest + 1))

    def request(self):
        """A request to reply to, mostly an open one, or None."""
        waiting = list(self.router.journal.open_requests(self.now).values())
        if waiting and self.r.random() < 0.9:
            return self.r.choice(waiting[-40:])
        asked = [entry for entry in self.router.journal if type(entry) is Asked]
        return self.r.choice(asked[-40:]) if asked and self.r.random() < 0.05 else None

    # Replies.

    def covering(self, asked):
        """An EID that covers the asked one, and mostly a static one too where there is one."""
        near = [eid for eid in self.site.static if (eid.iid, eid.width) == (asked.eid.iid, asked.eid.width)]
        if not near or self.r.random() < 0.5:
            return shorter(self.r, asked.eid)
        eid = self.r.choice(near)
        while not eid.covers(asked.eid):
            eid = Eid.of(eid.iid, eid.octets(), eid.length - 1)
        return eid

    def records(self, asked):
        r, covering = self.r, self.covering(asked)
        eids = [covering] if r.random() < 0.93 else []
        for _ in range(r.choice([0, 0, 0, 1, 2, 4])):
            eids.append(r.choice([
                longer(r, covering), longer(r, covering), shorter(r, asked.eid), covering, asked.eid,
                away(r, asked.eid.iid), longer(r, covering)._replace(iid=r.choice(IIDS))]))
        static = [eid for eid in self.site.static if covering.covers(eid)]
        if static and r.random() < 0.5:
            eids.append(r.choice(static))
        r.shuffle(eids)
        return [record(r, eid) for eid in eids]

    def message(self, flags, nonce, records):
        r = self.r
        count = len(records) if r.random() < 0.97 else r.randrange(4)
        nonce = nonce if r.random() < 0.95 else nonce ^ 1 << r.randrange(64)
        front = bytes([0x20 | flags]) + r.randbytes(2) + bytes([count]) + struct.pack(">Q", nonce)
        return spoiled(r, front + b"".join(records), 0.06)

    def sent_here(self, pick_source, message):
        """A message from outside, now and then encapsulated; it may come again."""
        r, own = self.r, [own.address for own in self.site.locators]
        source, dest = between(r, pick_source, lambda: r.choice(own))
        if r.random() < 0.04:
            inner = plain_ip(r, source, source, udp(r, source, source, message, (4342, 4342)))
            message = bytes([0x80]) + r.randbytes(3) + inner
        ports = r.choice([(4342, 4342)] * 8 + [(4342, 5000), (5000, 4342), (4342, 4341)])
        octets = plain_ip(r, source, dest, summed(r, source, dest, message, ports))
        self.replies.append(spoiled(r, octets, 0.03))
        return self.replies[-1]

    def other(self):
        return raw(self.r.choice(OTHERS))

    def reply(self, asked):
        flags = self.r.choice([0] * 20 + [4, 1, 5, 8, 8, 2])
        return self.sent_here(self.other, self.message(flags, asked.nonce, self.records(asked)))

    # Replies to probes.

    def probe(self):
        """A probe to reply to, mostly an open one, or None."""
        r, recent = self.r, self.router.journal.probes()[-40:]
        waiting = [probe for probe, answered in recent if not answered and self.now - probe.moment < PROBE_OPEN]
        if waiting and r.random() < 0.9:
            return r.choice(waiting)
        return r.choice(recent)[0] if recent and r.random() < 0.1 else None

    def probe_reply(self, probe):
        """A reply to a probe, mostly from its locator, with records that don't count."""
        r = self.r
        records = [record(r, away(r, r.choice(IIDS))) for _ in range(r.choice([0, 1, 1, 2]))]
        message = self.message(r.choice([8] * 20 + [12, 9, 13, 10, 0]), probe.nonce, records)
        reached = any(len(own.address) == len(probe.address) for own in self.site.locators)
        return self.sent_here((lambda: probe.address) if reached and r.random() < 0.88 else self.other, message)

    # Packets of the site.

    def leaving(self, eid):
        r, self.iid = self.r, eid.iid
        homes = [own for own in self.site.databases if (own.iid, own.width) == (eid.iid, eid.width)]
        source = randomly(r, r.choice(homes)) if homes else host(r, HOMES)
        dest = randomly(r, eid)
        if len(source) != len(dest):
            return inside(r, False)
        ports = r.randrange(65536), r.randrange(65536)
        datagram = udp(r, source, dest, bytes(r.choice([0, 4, 40])), ports)
        return plain_ip(r, source, dest, datagram)

    def homes(self):
        """The site's EIDs in the instances from which frames can come."""
        vlans = [0] if self.link == 101 else list(self.site.attachments)
        attached = {self.site.attachments[vlan] for vlan in vlans if vlan in self.site.attachments}
        return [own for own in self.site.databases if own.iid in attached] or [Eid.host(7, raw("10.1.0.0"))]

    def destination(self):
        """Something that was asked for or learned, or something new."""
        r = self.r
        mapped = [] if self.hurried else self.mapped()
        if mapped and r.random() < 0.3:
            return r.choice(mapped).eid
        known = [entry.mapping.eid if type(entry) is Learned else entry.eid for entry in self.router.journal[-60:]
                 if type(entry) in (Asked, Learned, Bits)]
        if known and r.random() < (0.1 if self.hurried else 0.4):
            return r.choice(known)
        home = r.choice(self.homes()[:1] if self.hurried and r.random() < 0.9 else self.homes())
        if r.random() < 0.2:
            return Eid.host(home.iid, host(r, AWAY))
        return Eid.host(home.iid, raw("10.0.0.0")[:1] + r.randbytes(3) if home.width == 32
                        else raw("2001:db8::")[:4] + r.randbytes(12))

    # Frames at the end of something.

    def regarding(self, mapping):
        """A packet to a mapping's EID, one from it, or a solicitation for it."""
        make = self.r.choice([self.leaving, self.leaving, self.arrivals.solicitation, None])
        return make(mapping.eid) if make else self.arrivals.arriving(mapping)

    def renewed(self):
        """Where a mapping is asked for again because of its version, a moment later once more; or not any more."""
        fresh = self.arrivals.headers.fresh
        for mapping in self.mapped()[-20:]:
            if mapping.version and mapping.eid not in self.site.static:
                yield from ((self.now + age, lambda one: self.arrivals.arriving(one, fresh), mapping)
                            for age in (0, MILLI, OPEN))

    def to_locator(self, address):
        """A packet whose mapping names the locator, where there is one."""
        named = [entry.mapping.eid for entry in self.router.journal.live(self.now).values()
                 if any(locator.address == address for locator in entry.mapping.locators)]
        return self.leaving(self.r.choice(named) if named else self.destination())

    def request_ends(self):
        """Where a request is sent again or ends, with a reply to it or a packet that is for its EID."""
        for entry in list(self.router.journal.open_requests(self.now).values())[-40:]:
            make = self.r.choice([self.reply, lambda asked: self.leaving(asked.eid)])
            yield from ((entry.moment + age, make, entry) for age in (*AGAIN, OPEN, OPEN))

    def mapping_ends(self):
        """Where a mapping ends soon, or, where no probes fill the time, one of a day."""
        longest = DAY if not self.site.probe and self.r.random() < 0.01 else 100 * SECOND
        for entry in self.router.journal.live(self.now).values():
            if not entry.fixed and ends(entry) - self.now < longest:
                yield ends(entry), self.regarding, entry.mapping

    def probe_ends(self):
        """Where a probe ends, comes again, or counts no more, with a reply to it or a packet to its locator."""
        for entry, _ in self.router.journal.probes()[-40:]:
            make = self.r.choice([self.probe_reply, lambda probe: self.to_locator(probe.address)])
            yield from ((entry.moment + age, make, entry) for age in [PROBE_OPEN] * 9 + [PROBE_AGAIN, PROBE_COUNTS])

    def from_locator(self, address, *ways, home=None):
        """A packet from the locator, with a header in one of the ways; or one to it."""
        octets = self.arrivals.arriving_from(self.now, address, self.r.choice(ways), home)
        return octets or self.to_locator(address)

    def with_peer(self):
        """With a locator of which an echo is asked, or that wants one: a packet from it or to it; or None."""
        r, headers = self.r, self.arrivals.headers
        asked = [entry.address for entry in self.recent(EchoStarted) if self.now - entry.moment < ECHO_ON]
        wanting = [entry.address for entry in self.recent(EchoWanted) if self.now - entry.moment < WANTED]
        pool = r.choice([asked, wanting])
        if not pool:
            return None
        address = r.choice(pool)
        if r.random() < 0.5:
            return self.to_locator(address)
        return self.from_locator(address, headers.way(address), headers.echo, headers.nothing, headers.wanted)

    def recent(self, kind):
        return [entry for entry in self.router.journal[-400:] if type(entry) is kind][-40:]

    def echo_ends(self):
        """Where an echo request ends or counts no more, where an echo isn't wanted any more, or a peer is old again."""
        headers, to_it = self.arrivals.headers, lambda entry: self.to_locator(entry.address)
        heard = lambda entry: self.from_locator(entry.address, headers.echo, headers.nothing)
        again = lambda entry: self.from_locator(entry.address, headers.wanted)
        old = lambda entry: self.from_locator(entry.address, headers.old, home=entry.eid)
        started, wanted, solicited = map(self.recent, (EchoStarted, EchoWanted, Solicited))
        deaf = [echo.start for echo in self.router.journal.echoes().values() if echo.data and not echo.heard]
        entries, age, make = self.r.choice([
            (started, ECHO_ON, heard), (started, ECHO_ON, to_it), (started, ECHO_COUNTS, to_it),
            (wanted, WANTED, again), (wanted, WANTED, to_it), *[(solicited, SOLICITED, old)] * 2,
            (deaf, ECHO_ON, to_it), (deaf, ECHO_COUNTS, to_it)])
        yield from ((entry.moment + age, make, entry) for entry in entries)

    def changes(self):
        """Where an own locator goes down or comes up soon."""
        for change in self.router.waiting()[:4]:
            if change.at * SECOND - self.now < 700 * SECOND:
                yield change.at * SECOND, lambda change: self.any(), change

    def aimed(self):
        """The end of something, or one unit before, and what makes a frame then; or None."""
        r, early = self.r, self.r.choice([0, self.unit])
        finds = [self.request_ends, self.mapping_ends, self.probe_ends, self.echo_ends, self.renewed, self.changes]
        for find in r.sample(finds, len(finds)):
            found = [one for one in find() if one[0] - early >= self.now]
            if found:
                moment, make, regarded = r.choice(found)
                return moment - early, lambda: make(regarded)
        return None

    # All frames.

    def is_full(self):
        """Whether an instance has as many open requests as it may, if it may have any."""
        waiting = collections.Counter(entry.eid.iid for entry in self.router.journal.open_requests(self.now).values())
        return any(waiting[iid] >= self.site.limit(iid).requests for iid in waiting)

    def shares(self):
        """How often a frame is at an end; else a reply; else comes from outside in another way; else is any."""
        if not self.hurried:
            return 0.15, 0.3, 0.35, 0.1
        self.filled = self.filled or self.is_full()
        return (0.001, 0.15, 0.4, 0.1) if self.filled else (0, 0.005, 0.01, 0.01)

    def mapped(self):
        return [entry.mapping for entry in self.arrivals.mapped(self.now) if entry.mapping.locators]

    def arrived(self):
        """A Map-Request, or a packet in a tunnel."""
        mapped = self.mapped()
        if not mapped or self.r.random() < 0.5:
            return self.arrivals.inquiry(self.now)
        return self.arrivals.arriving(self.r.choice(mapped))

    def any(self):
        r = self.r
        _, reply, outside, other = self.shares()
        if not self.hurried and r.random() < self.answering and (probe := self.probe()):
            return self.probe_reply(probe)
        if not self.hurried and r.random() < self.echoing and (octets := self.with_peer()):
            return octets
        if r.random() < reply and (asked := self.request()):
            return self.reply(asked)
        if self.replies and r.random() < other / 3:
            return r.choice(self.replies[-20:])
        if r.random() < outside:
            return self.arrived()
        if r.random() < other:
            return packet(r)
        return self.leaving(self.destination())

    def tagged(self, octets):
        """A frame in the VLAN of the instance that was chosen last, mostly."""
        r, iid = self.r, self.iid
        vlans = [vlan for vlan, own in self.site.attachments.items() if own == iid]
        if self.link == 101 or not vlans or r.random() < 0.1:
            return framed(r, self.link, octets)
        vlan = r.choice(vlans)
        tag = struct.pack(">HH", 0x8100, vlan) if vlan or r.random() < 0.5 else b""
        return bytes(12) + tag + struct.pack(">H", 0x0800) + octets

    def take(self, frame):
        self.router.take(self.now, self.link, frame)

    def frames(self, count):
        """Moments as the capture has them, some behind the greatest before, and frames."""
        for i in range(count):
            late = i > 0 and self.r.random() < 0.03
            moment, make = self.now, self.any
            if i > 0 and not late:
                aim = self.aimed() if self.r.random() < self.shares()[0] else None
                moment, make = aim or (self.later(), self.any)
            if len(self.router.journal) > SCANNED and not self.hurried:
                moment = min(moment, self.now + SECOND)
            self.now = max(self.now, moment)
            self.router.until(self.now)
            frame = self.tagged(make())
            self.take(frame)
            yield self.now - (self.rounded(self.r.randrange(2 * SECOND)) if late else 0), frame

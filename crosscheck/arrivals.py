"""Frames from outside that regard what a router has: Map-Requests, and packets in tunnels."""
from fitting import away, longer, named, plain_ip, randomly, record, shorter, summed
from headers import Headers
from makers import IIDS, OTHERS, OWN, between, raw, spoiled, udp
from messages import Eid
from sending import located

REPLIES_TO = [OTHERS[:3], OTHERS[3:], OTHERS, OTHERS + OWN]
PROBE, SOLICIT, ANY_FLAGS = 2, 1, [0] * 6 + [8, 4, 12]


class Arrivals:
    def __init__(self, r, site, journal):
        self.r, self.site, self.journal, self.headers = r, site, journal, Headers(r, site, journal)

    def mapped(self, now):
        return list(self.journal.live(now).values())[-60:]

    # Map-Requests.

    def pools(self, now):
        """The site's EIDs, those that are mapped, and those that are asked for."""
        asked = [entry.eid for entry in list(self.journal.open_requests(now).values())[-20:]]
        return [self.site.databases, [entry.mapping.eid for entry in self.mapped(now)], asked]

    def regarded(self, pools):
        """An EID, mostly one of the pools, or one in it or around it."""
        r = self.r
        pool = r.choice([*pools, []])
        if not pool:
            return away(r, r.choice(IIDS))
        eid = r.choice(pool)
        host, other = Eid.host(eid.iid, randomly(r, eid)), eid._replace(iid=r.choice(IIDS))
        return r.choice([eid, eid, longer(r, eid), longer(r, eid), host, shorter(r, eid), other])

    def eids(self, pools):
        r = self.r
        found = [self.regarded(pools) for _ in range(r.choice([0, 1, 1, 1, 1, 2, 3, 8]))]
        found += found[:2] if r.random() < 0.2 else []
        return [r.choice(found) for _ in range(255)] if found and r.random() < 0.03 else found

    def map_request(self, eids, source, flags):
        """A Map-Request with reply addresses of one family or of both, some of them own locators."""
        r, pool = self.r, self.r.choice(REPLIES_TO)
        replies_to = [located(raw(r.choice(pool))) for _ in range(r.choice([1, 1, 1, 2, 3, 32]))]
        first = 0x10 | r.choice(ANY_FLAGS) | flags
        count = len(eids) if r.random() < 0.97 else r.randrange(4)
        octets = bytes([first, r.choice([0, 0x40, 255]), 0xE0 * r.randrange(2) | len(replies_to) - 1, count])
        octets += r.randbytes(8) + (bytes(2) if source is None else named(r, source)) + b"".join(replies_to)
        octets += b"".join(bytes([r.randrange(256), eid.length]) + named(r, eid) for eid in eids)
        return spoiled(r, octets + (record(r, away(r, 0)) if first & 4 else b""), 0.06)

    def encapsulated(self, message):
        r = self.r
        source, dest = between(r, lambda: raw(r.choice(OTHERS + OWN)), lambda: away(r, 0).octets())
        ports = r.choice([4342, 5000, r.randrange(65536)]), r.choice([4342] * 19 + [4341])
        datagram = udp(r, source, dest, message, ports, 0.7)
        return bytes([0x80 | r.choice([0, 0, 7])]) + r.randbytes(3) + plain_ip(r, source, dest, datagram)

    def sent_here(self, message, ports):
        r, own = self.r, [own.address for own in self.site.locators]
        source, dest = between(r, lambda: raw(r.choice(OTHERS)), lambda: r.choice(own))
        return spoiled(r, plain_ip(r, source, dest, summed(r, source, dest, message, ports)), 0.03)

    def asking(self, eids, source, flags):
        r = self.r
        message = self.map_request(eids, source, flags)
        if r.random() < 0.3:
            return self.sent_here(self.encapsulated(message), (4342, 4342))
        ports = r.choice([(4342, 4342), (r.randrange(65536), 4342), (r.randrange(65536), 4342), (4342, 5000)])
        return self.sent_here(message, ports)

    def inquiry(self, now):
        r, pools = self.r, self.pools(now)
        source = None
        if r.random() < 0.7:
            eid = self.regarded(pools)
            source = Eid.host(eid.iid, randomly(r, eid))
        flags = r.choice([0, 0, 0, 0, PROBE, PROBE, SOLICIT, SOLICIT, SOLICIT, PROBE | SOLICIT])
        if flags == SOLICIT and pools[1] and r.random() < 0.5:
            covered = [eid for eid in pools[1] if any(asked.covers(eid) for asked in pools[2])]
            return self.solicitation(r.choice(r.choice([covered, pools[1]]) or pools[1]))
        return self.asking(self.eids(pools), source, flags)

    def solicitation(self, eid):
        """A solicitation for one EID, as its source or as what is asked for."""
        if self.r.random() < 0.5:
            return self.asking([eid], None, SOLICIT)
        return self.asking([], Eid.host(eid.iid, randomly(self.r, eid)), SOLICIT)

    # Packets in tunnels.

    def outside(self, mapping):
        """Addresses of a tunnel to the site, mostly from one of the mapping's locators."""
        r, own = self.r, [own.address for own in self.site.locators]
        tellers = [locator.address for locator in mapping.locators]
        pairs = [(source, dest) for source in tellers for dest in own if len(source) == len(dest)]
        if pairs and r.random() < 0.9:
            return r.choice(pairs)
        return between(r, lambda: raw(r.choice(OTHERS)), lambda: r.choice(own))

    def status(self, eid):
        """Status bits: as they stand, with one that differs, all alike, or any."""
        r, up = self.r, self.journal.status(eid)
        bits = sum(1 << i for i, is_up in enumerate(up) if is_up)
        differing = bits ^ 1 << r.randrange(max(1, len(up)))
        return r.choice([bits, bits | 0xFF << 24, differing, differing, 2**32 - 1, 2**32 - 1, 0, r.getrandbits(32)])

    def arriving(self, mapping, way=None, outer=None, homes=()):
        """A packet in a tunnel from a site that the router has a mapping of, with a header in some way."""
        r, eid = self.r, mapping.eid
        homes = homes or [own for own in self.site.databases if (own.iid, own.width) == (eid.iid, eid.width)]
        source = randomly(r, eid)
        dest = randomly(r, r.choice(homes)) if homes else away(r, 0).octets()
        if len(source) != len(dest):
            source = dest
        ports = r.randrange(65536), r.randrange(65536)
        inner = plain_ip(r, source, dest, udp(r, source, dest, bytes(r.choice([0, 4, 40])), ports))
        outer = outer or self.outside(mapping)
        way, home = way or self.headers.way(outer[0]), self.site.home(Eid.host(eid.iid, dest))
        header = self.headers.made(way, outer[0], mapping, home, self.status(eid))
        return spoiled(r, plain_ip(r, *outer, udp(r, *outer, header + inner, (50000, 4341))), 0.03)

    def arriving_from(self, now, peer, way, home=None):
        """A packet in a tunnel from a locator, mostly of a mapping that names it, to a prefix of the site; or None."""
        r = self.r
        dests = [own.address for own in self.site.locators if len(own.address) == len(peer)]
        mapped = [entry.mapping for entry in self.mapped(now)
                  if home is None or (entry.mapping.eid.iid, entry.mapping.eid.width) == (home.iid, home.width)]
        naming = [mapping for mapping in mapped if any(locator.address == peer for locator in mapping.locators)]
        if not dests or not mapped:
            return None
        return self.arriving(r.choice(naming or mapped), way, (peer, r.choice(dests)), home and [home])

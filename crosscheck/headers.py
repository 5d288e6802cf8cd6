"""LISP headers made from a number, so that they fit what a router asked of a peer, gives it, and knows of its site."""
import struct

from journal import EchoStarted, EchoWanted
from lisp import ECHO, INSTANCE, NONCE, STATUS, VERSIONS

STEPS = [0, 0, 0, 1, -1, 1, -1, 2047, -2047, 2048, -2048, 2049, -2049]


def near(r, version):
    """The version, one a few steps away or half the way round, or one of note."""
    return r.choice([(version + r.choice(STEPS)) % 4096] * 6 + [0, 1, 2048, 4095, r.randrange(4096)])


class Headers:
    def __init__(self, r, site, journal):
        self.r, self.site, self.journal, self.ways = r, site, journal, {}

    def way(self, peer):
        """What a peer is wont to send: echoes, no nonce at all, nonces to be echoed, versions, or anything."""
        r = self.r
        self.ways.setdefault(peer, r.choice([self.echo, self.nothing, self.nothing, self.wanted, self.versions, None]))
        return self.ways[peer] if self.ways[peer] and r.random() < 0.7 else r.choice([
            self.echo, self.nothing, self.wanted, self.versions, self.versions, self.fresh, self.anything])

    def last_nonce(self, kind, peer):
        return next((entry.nonce for entry in reversed(self.journal) if type(entry) is kind and entry.address == peer),
                    self.r.getrandbits(24))

    def nothing(self, peer, mapping, home):
        return self.r.choice([0, 0, 0, ECHO]), self.r.getrandbits(24)

    def echo(self, peer, mapping, home):
        """The nonce that the router asked for last, now and then another."""
        nonce = self.last_nonce(EchoStarted, peer)
        return NONCE, nonce if self.r.random() < 0.85 else nonce ^ 1 << self.r.randrange(24)

    def wanted(self, peer, mapping, home):
        """A nonce to be echoed, mostly that of the last time."""
        nonce = self.last_nonce(EchoWanted, peer)
        return NONCE | ECHO, nonce if self.r.random() < 0.6 else self.r.getrandbits(24)

    def known(self, home):
        """The version of a prefix of the site as it stands."""
        return self.site.standing(self.journal.changes()).versions.get(home, 0)

    def versions(self, peer, mapping, home):
        """Versions as the router knows them, or near; of a prefix without one they are any."""
        r, known = self.r, self.known(home)
        source = mapping.version if r.random() < 0.6 else near(r, mapping.version)
        dest = known if r.random() < 0.4 else near(r, known)
        return VERSIONS | r.choice([0, 0, 0, ECHO]), source << 12 | dest

    def old(self, peer, mapping, home):
        """A version of the site's prefix that is a step too old."""
        return VERSIONS, mapping.version << 12 | (self.known(home) - self.r.choice([1, 1, 2])) % 4096

    def fresh(self, peer, mapping, home):
        """A version of the mapping that is a step newer than the one that is known."""
        return VERSIONS, (mapping.version + self.r.choice([1, 1, 2])) % 4096 << 12 | self.known(home)

    def anything(self, peer, mapping, home):
        flags = self.r.choice([NONCE, NONCE | ECHO, NONCE | VERSIONS, NONCE | ECHO | VERSIONS, VERSIONS, 0x04, 0x01, 0])
        return flags, self.r.getrandbits(24)

    def made(self, way, peer, mapping, home, bits):
        """A header in the mapping's instance, mostly with status bits."""
        r, iid = self.r, mapping.eid.iid
        flags, field = way(peer, mapping, home)
        flags |= STATUS * (r.random() < 0.8)
        if r.random() < (0.3 if iid == 0 else 0.95):
            return struct.pack(">II", (flags | INSTANCE) << 24 | field, iid << 8 | bits & 0xFF)
        return struct.pack(">II", flags << 24 | field, bits)

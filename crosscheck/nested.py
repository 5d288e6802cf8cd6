#!/usr/bin/env python3
"""Compares the built program with the plain router where mappings nest deeply, and where many differ little.

usage: nested.py PROGRAM [ROUNDS [SEED [FIRST]]]
Each round makes up to 2,000 EIDs of a few addresses: of one address the prefixes of all lengths, mostly with gaps,
and those that differ from them in the last bit; all hosts and all prefixes of a small prefix; hosts that differ in one
bit; and the same in several instances. Some are mappings of the settings, with up to 32 locators. The frames are mostly
packets to addresses at the ends of these EIDs and beside them, and replies of many records, which learn, replace,
shorten and take away what nests around the asked address, some a minute or two behind the frame before; in a quarter of
the rounds instances have limits, some of which are reached; and then come such frames with workers, as compare.py has
them. It ends with status 1 at the first difference. FIRST is the number of the
first round, 0 if it is left out.
"""
import struct

from compare import Round, main, write
from fitting import longer, randomly, record, shorter
from journal import SECOND, Learned
from limiting import LAWFUL, limits
from makers import HOMES, MANY, OTHERS, OWN, changes, first_keys, mapping, raw, version
from messages import Eid
from sites import Site
from talk import Talk
from wire import text_of

MOST_EIDS, MOST_OCTETS = 2000, 50_000
# Frames of a round, and of one with probes, with which the plain router soon has much to scan.
FRAMES, PROBING = 200, 120
# The limits of an instance, where it has some.
FEW = [1, 3, 10, 30, 100]
INSTANCES = [0, 7, 300, 256, 2**16 + 7, 2**24 - 1]
# How many locators mappings have, and from which addresses: where these are few, many mappings name each.
COUNTS = [0, 0, 1, 1, 1, 1, 2, 2, 3, 4]
NUMBERED = [f"198.18.{i // 30}.{i}" for i in range(50)] + [f"2001:db8:d::{i:x}" for i in range(20)]
# The first and the last addresses that aren't groups, and where the first bit turns.
ENDS = ["0.0.0.0", "127.255.255.255", "128.0.0.0", "223.255.255.255", "::", "::ffff:ffff:ffff:ffff",
        "7fff:ffff:ffff:ffff:ffff:ffff:ffff:ffff", "8000::", "feff:ffff:ffff:ffff:ffff:ffff:ffff:ffff"]


# EIDs, all of instance 0.


def anywhere(r):
    """An address, mostly any one of its family."""
    if r.random() < 0.2:
        return raw(r.choice(ENDS))
    return bytes([r.randrange(1, 224)]) + r.randbytes(3) if r.random() < 0.5 else b"\x20" + r.randbytes(15)


def turned(eid):
    """The EID that differs in the last bit of its prefix; of length 0 there is one alone."""
    return eid._replace(address=eid.address ^ (1 << eid.width - eid.length if eid.length else 0))


def chain(r, address):
    """The prefixes of all lengths."""
    return [Eid.of(0, address, length) for length in range(8 * len(address) + 1)]


def sides(r, address):
    return [turned(eid) for eid in chain(r, address)[1:]]


def within(address, free, length):
    """All prefixes of a length within the one that has so many free bits."""
    first, step = Eid.of(0, address, 8 * len(address) - free), 1 << 8 * len(address) - length
    return [first._replace(address=first.address + i, length=length) for i in range(0, 1 << free, step)]


def hosts(r, address):
    return within(address, r.choice([1, 4, 8, 9]), 8 * len(address))


def tree(r, address):
    """All prefixes within a small one, with that itself."""
    width, free = 8 * len(address), r.choice([1, 3, 6, 7])
    return [eid for length in range(width - free, width + 1) for eid in within(address, free, length)]


def comb(r, address):
    """Hosts, or shorter ones, that differ from one in a bit each."""
    first = Eid.of(0, address, 8 * len(address) - r.choice([0, 0, 1, 8]))
    return [first._replace(address=first.address ^ 1 << i) for i in range(first.width - first.length, first.width)]


def strewn(r, address):
    """Prefixes of one length at any place."""
    length = r.randrange(1, 8 * len(address) + 1)
    return [Eid.of(0, anywhere_like(r, address), length) for _ in range(r.choice([10, 300]))]


def anywhere_like(r, address):
    """An address of the same family."""
    while True:
        found = anywhere(r)
        if len(found) == len(address):
            return found


SHAPES = [chain, chain, sides, hosts, tree, comb, strewn]


def made_eids(r, iids):
    """The EIDs of a round: some shapes around each of some addresses, with gaps, in some of the instances."""
    found = set()
    for _ in range(r.choice([2, 4, 8, 12])):
        address = anywhere(r)
        for shape in r.sample(SHAPES, r.choice([1, 2, 3, 4])):
            eids, kept = shape(r, address), r.choice([0.3, 0.8, 0.95, 1])
            for iid in r.sample(iids, r.randint(1, len(iids))):
                found.update(eid._replace(iid=iid) for eid in eids if r.random() < kept)
    found = sorted(found)
    return r.sample(found, min(len(found), MOST_EIDS))


# Settings.


def fixed_eids(r, eids):
    """Those of the settings: any, or only longer ones, so that something is missing around them."""
    share, least = r.choice([0.05, 0.2, 0.5, 0.8, 0.95]), r.choice([0, 0, 0.1, 0.25, 0.5, 0.75, 0.9])
    return [eid for eid in eids if r.random() < share and eid.length >= least * eid.width]


def settings(r, iids, fixed):
    """Settings with an instance in each VLAN, the same prefixes of the site in each, and the fixed mappings."""
    lines, up = [], []
    for address in OWN:
        word = "false" if r.random() < 0.1 else "true"
        up += [address] if word == "true" else []
        lines += ["[[locator]]", f'address = "{address}"', f"up = {word}"]
    lines = [line for line in first_keys(r, up) if line != "probe = true" or r.random() < 0.6] + lines
    for vlan, iid in enumerate(iids):
        lines += ["[[attachment]]", f"vlan = {vlan}", f"iid = {iid}"]
        for prefix in HOMES:
            lines += ["[[database]]", f"iid = {iid}", f'prefix = "{prefix}"', *version(r)]
    pool, counts = r.choice([OTHERS, MANY, NUMBERED]), r.choice([COUNTS, COUNTS, [0, *COUNTS, 9, 32]])
    for eid in fixed:
        lines += mapping(r, eid.iid, f"{text_of(randomly(r, eid))}/{eid.length}", pool, counts)
    lines += changes(r, OWN, len(HOMES) * len(iids))
    if r.random() < 0.25:
        lines += limits(r, iids, len(fixed), FEW, LAWFUL)
    return "\n".join(lines) + "\n"


# Frames.


class Nested(Talk):
    """Frames that regard the EIDs of a round."""

    def __init__(self, r, site, link, unit, eids, size):
        super().__init__(r, site, link, unit, False, size)
        attached = {own.iid for own in self.homes()}
        self.eids = eids
        self.reached = [eid for eid in eids if eid.iid in attached]
        self.slow = 0.02 if site.probe else r.choice([0.02, 0.05, 0.1])
        self.answering, self.echoing = r.choice([0.05, 0.2]), 0.02

    def shares(self):
        return 0.06 if self.site.probe else 0.15, 0.5, 0.12, 0.02

    def much_later(self):
        """Where what was learned for a minute ends, or a minute later."""
        return self.now + self.r.randrange(55 * SECOND, 130 * SECOND)

    def destination(self):
        """An address at an end of an EID, beside it, or anywhere in it or around it; or any."""
        r = self.r
        learned = [entry.mapping.eid for entry in self.router.journal[-60:] if type(entry) is Learned]
        pool = r.choice([self.reached, learned])
        if not pool or r.random() < 0.1:
            return super().destination()
        eid = r.choice(pool)
        last = eid.address | (1 << eid.width - eid.length) - 1
        near = randomly(r, r.choice([eid, turned(eid), shorter(r, eid)]))
        value = r.choice([eid.address, last, eid.address - 1, last + 1, turned(eid).address, eid.address ^ 1,
                          int.from_bytes(near, "big")])
        return eid._replace(address=value % 2**eid.width, length=eid.width)

    def records(self, asked):
        """What covers the asked EID, what nests within that, and something beside it, as far as there is room."""
        r, eid = self.r, asked.eid
        around = [one for one in self.eids if one.covers(eid) and one not in self.site.static] or [shorter(r, eid)]
        widest = r.choice(around)
        nested = [one for one in around if widest.covers(one)]
        inner = [one for one in self.eids if widest.covers(one)]
        found = r.sample(nested, r.randint(0, len(nested)))[:40]
        found += r.sample(inner, min(len(inner), r.choice([0, 1, 4, 20])))
        found += [r.choice([turned(widest), longer(r, widest), longer(r, widest), eid, r.choice(self.eids or [eid])])
                  for _ in range(r.choice([0, 0, 1, 3]))]
        found.insert(r.randint(0, len(found)), widest)
        records = []
        for one in found:
            octets = lasting(r, one)
            if sum(map(len, records)) + len(octets) < MOST_OCTETS:
                records.append(octets)
        return records


def lasting(r, eid):
    """A record that mostly lasts a minute, where it isn't small."""
    ttl = r.choice([0, 1, 1, 1, 2]) if eid.width - eid.length > 8 else r.choice([0, 0, 1, 1, 1, 2, 1440, 0xFFFFFFFF])
    return struct.pack(">I", ttl) + record(r, eid)[4:]


class NestedRound(Round):
    def agrees(self, r):
        iids = r.sample(INSTANCES, r.choice([1, 2, 2, 3, 4]))
        eids = made_eids(r, iids)
        text = settings(r, iids, fixed_eids(r, eids))
        write(self.settings, text)
        site = Site(text.encode())
        count = PROBING if site.probe else FRAMES
        make = lambda r, _, link, unit, size=1: Nested(r, site, link, unit, eids, size).frames(count)
        self.take_capture(r, text, make)
        return self.same_replay() and self.lawful_rounds(r, text, make)


if __name__ == "__main__":
    main(NestedRound)

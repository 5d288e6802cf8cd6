#!/usr/bin/env python3
"""Holds what is said of a tenant's frames against what is said of them where no other tenant has any.

usage: tenants.py [PROGRAM [ROUNDS [SEED]]] | tenants.py --pooled [ROUNDS [SEED]]
Each round makes settings of two to five instances, mostly with limits, and a capture of some 300 frames, each of one of
them: packets of the site, packets in tunnels that tell status bits and versions, solicitations, and replies to what the
router asked, at times seconds or a minute behind the frame before; now and then one floods the router with packets to
any address. It is replayed, and then, with the same settings, so is for each instance a capture of that one's frames
alone, in which a reply has the nonce that the router drew there. Each line of these must be what it was but for its
number and its n. No locator is probed or asked for an echo, since what is known of one is of no instance.
With no program named the plain router is judged. It ends with status 1 at the first difference, and leaves its files.
With --pooled a wrong plain router is, in which each instance's limit counts what all have asked and learned: it ends
with status 1 where less than a third of the rounds tell that.
"""
import functools
import os
import random
import shutil
import struct
import subprocess
import sys
import tempfile

import plain
from compare import write, write_records
from fitting import away, longer, plain_ip, randomly, record, shorter
from journal import SECOND, Journal
from limiting import LAWFUL, limits
from lisp import INSTANCE, STATUS, VERSIONS
from makers import AWAY, HOMES, OTHERS, between, host, mapping, raw, udp, version
from messages import Eid
from router import Router
from sending import eid_octets, located
from sites import Site

FRAMES, ETHERNET, BEGIN = 300, 1, 1_700_000_000 * SECOND
# Frames of a flood, and how far they are apart at most.
FLOOD, APART = 20, SECOND // 100
IIDS, OWN = [7, 100, 200, 300, 0xFFFFFF], ["192.0.2.1", "2001:db8:f::1"]
SOLICITATION = 0x11


def settings(r):
    """Settings of some instances, each with a VLAN, prefixes of the site, and mappings of about the same EIDs; mostly
    with limits, of which little may be left for those that have none."""
    lines = ['resolver = "203.0.113.9"', f'seed = "{r.randbytes(32).hex()}"']
    for address in OWN:
        lines += ["[[locator]]", f'address = "{address}"']
    iids = r.sample(IIDS, r.randint(2, 5))
    for vlan, iid in enumerate(iids):
        lines += ["[[attachment]]", f"vlan = {vlan}", f"iid = {iid}"]
        for prefix in r.sample(HOMES, r.randint(2, len(HOMES))):
            lines += ["[[database]]", f"iid = {iid}", f'prefix = "{prefix}"', *version(r)]
        for prefix in r.sample(AWAY, r.choice([0, 0, 1, 2])):
            lines += mapping(r, iid, prefix, OTHERS, [0, 1, 2, 3])
    if r.random() < 0.8:
        lines += limits(r, iids, lines.count("[[mapping]]"), left=LAWFUL)
    return "\n".join(lines) + "\n"


class Side:
    """A capture as it grows, and the plain router beside it."""

    def __init__(self, site):
        self.router, self.frames = Router(site), []

    def asked(self, moment, eid):
        """The open request for just that EID, or None."""
        requests = self.router.journal.open_requests(moment).values()
        return next((asked for asked in requests if asked.eid == eid), None)

    def take(self, moment, frame):
        self.router.until(moment)
        self.router.take(moment, ETHERNET, frame)
        self.frames.append((moment, frame))


class Town:
    """A site of several tenants: a capture of all frames, and one of each tenant's frames alone."""

    def __init__(self, r, text):
        self.r, self.site = r, Site(text.encode())
        self.iids = sorted({own.iid for own in self.site.databases})
        self.vlans = {iid: vlan for vlan, iid in self.site.attachments.items()}
        self.all, self.alone = Side(self.site), {iid: Side(self.site) for iid in self.iids}
        self.owners, self.now = [None], BEGIN
        # A frame of nobody, so that the seconds of all captures begin with the same one.
        for side in self.sides():
            side.take(BEGIN, b"")

    def sides(self):
        return [self.all, *self.alone.values()]

    def homes(self, iid):
        return [own for own in self.site.databases if own.iid == iid]

    def mapped(self, iid):
        return [entry.mapping for eid, entry in self.all.router.journal.live(self.now).items() if eid.iid == iid]

    # Frames of an instance: each is made by a random number generator, and by a nonce where it is a reply.

    def framed(self, iid, octets):
        kind = 0x0800 if octets[0] >> 4 == 4 else 0x86DD
        return bytes(12) + struct.pack(">HHH", 0x8100, self.vlans[iid], kind) + octets

    def within(self, r, iid, eid):
        """A packet between a prefix of the site and an EID, as source and destination of some pair."""
        homes = [own for own in self.homes(iid) if own.width == eid.width]
        return (randomly(r, r.choice(homes)) if homes else host(r, HOMES)), randomly(r, eid)

    def leaving(self, iid, eid, r, _):
        """A packet of the site to an EID."""
        source, dest = self.within(r, iid, eid)
        if len(source) != len(dest):
            source = dest
        return plain_ip(r, source, dest, udp(r, source, dest, bytes(4), (r.randrange(65536), 53)))

    def arriving(self, iid, mapped, bits, r, _):
        """A packet in a tunnel from a mapping's EID, with status bits or without, with versions or without."""
        dest, source = self.within(r, iid, mapped.eid)
        if len(source) != len(dest):
            source = dest
        inner = plain_ip(r, source, dest, udp(r, source, dest, bytes(4), (53, r.randrange(65536))))
        versions = r.choice([mapped.version, (mapped.version + 1) % 4096]) << 12 | r.choice([0, 0, 1, 2048])
        flags, field = r.choice([(0, 0), (VERSIONS, versions)])
        flags |= INSTANCE | r.choice([STATUS, STATUS, 0])
        header = struct.pack(">II", flags << 24 | field, iid << 8 | bits & 0xFF)
        return self.outside(r, header + inner, (50000, 4341))

    def outside(self, r, payload, ports):
        source, dest = between(r, lambda: raw(r.choice(OTHERS)), lambda: raw(r.choice(OWN)))
        return plain_ip(r, source, dest, udp(r, source, dest, payload, ports, 1.0))

    def solicitation(self, eid, r, _):
        """A Map-Request that asks to ask for an EID again."""
        front = bytes([SOLICITATION, 0, 0, 1]) + r.randbytes(8) + bytes(2) + located(raw(OTHERS[0]))
        return self.outside(r, front + bytes([0, eid.length]) + eid_octets(eid.iid, randomly(r, eid)), (4342, 4342))

    def reply(self, eid, r, nonce):
        """A Map-Reply for an EID that was asked for, with records of its instance, some of which don't fit it."""
        covering = shorter(r, eid)
        eids = [covering, *(longer(r, covering) for _ in range(r.choice([0, 0, 1, 3, 12])))]
        eids += [away(r, eid.iid)] * (r.random() < 0.2)
        front = bytes([0x20, 0, 0, len(eids)]) + struct.pack(">Q", nonce)
        return self.outside(r, front + b"".join(record(r, one) for one in eids), (4342, 4342))

    # The capture.

    def later(self):
        r = self.r
        longest = r.choice([1, SECOND // 10, SECOND, 4 * SECOND] if r.random() < 0.98 else [60 * SECOND, 70 * SECOND])
        return self.now + r.randrange(longest)

    def made(self, iid, is_flood):
        """What makes a frame of an instance, and the EID to whose request it replies, or None."""
        r, mapped = self.r, self.mapped(iid)
        waiting = [asked.eid for asked in self.all.router.journal.open_requests(self.now).values()
                   if asked.eid.iid == iid]
        if waiting and r.random() < 0.4:
            eid = r.choice(waiting)
            return functools.partial(self.reply, eid), eid
        if is_flood:
            return functools.partial(self.leaving, iid, Eid.host(iid, b"\x0a" + r.randbytes(3))), None
        if mapped and r.random() < 0.4:
            one = r.choice(mapped)
            up = self.all.router.journal.status(one.eid)
            bits = sum(1 << i for i, is_up in enumerate(up) if is_up) ^ r.choice([0, 1, 2, 255])
            return functools.partial(self.arriving, iid, one, bits), None
        if mapped and r.random() < 0.1:
            return functools.partial(self.solicitation, r.choice(mapped).eid), None
        eids = [one.eid for one in mapped] + waiting + [away(r, iid)]
        return functools.partial(self.leaving, iid, r.choice(eids)), None

    def play(self, count):
        """So many frames, or some more where the last ones are a flood."""
        while len(self.owners) <= count:
            iid, is_flood = self.r.choice(self.iids), self.r.random() < 0.02
            for _ in range(FLOOD if is_flood else 1):
                self.now = self.now + self.r.randrange(APART) if is_flood else self.later()
                self.step(iid, is_flood)

    def step(self, iid, is_flood):
        """One frame more, in the capture of all and in that of its tenant."""
        seed = self.r.getrandbits(64)
        self.all.router.until(self.now)
        make, asked = self.made(iid, is_flood)
        self.owners.append(iid)
        for side in (self.all, self.alone[iid]):
            side.router.until(self.now)
            nonce = asked and side.asked(self.now, asked).nonce
            side.take(self.now, self.framed(iid, make(random.Random(seed), nonce)))


def said(report):
    """Of each frame what its line says behind its number, without its n."""
    lines = report.splitlines()
    return [[moment, *more] for _, moment, _, *more in map(str.split, lines[:-1])]


class Pooled(Journal):
    """A journal that counts for each instance what regards any, which is wrong."""

    def open_in(self, moment, iid):
        return len(self.open_requests(moment))

    def learned_in(self, moment, iid):
        return sum(not entry.fixed for entry in self.live(moment).values())


def pooled(router, frames, file):
    """Plays frames through a router with such a journal."""
    router.journal = Pooled(router.journal)
    plain.played(router, frames, file)


class Held:
    """The files of a round, and what replays them: a program, or the plain router by a call that plays frames."""

    def __init__(self, folder, program, play=plain.played):
        self.folder, self.program, self.play = folder, program, play

    def path(self, name):
        return os.path.join(self.folder, name)

    def replayed(self, name, side):
        """What is said of each frame of a side's capture."""
        write_records(self.path(name), ETHERNET, side.frames)
        files = self.path("settings.toml"), self.path(name), self.path("output.pcap")
        return said(self.program_said(*files) if self.program else plain.said(plain.replay, *files, self.play))

    def program_said(self, settings_file, capture, output):
        words = [self.program, "replay", "--settings", settings_file, "--in", capture, "--out", output]
        return subprocess.run(words, check=True, capture_output=True, text=True).stdout

    def differs(self, r):
        """Plays a round, and tells of the first frame of which something else is said, or nothing."""
        text = settings(r)
        write(self.path("settings.toml"), text)
        town = Town(r, text)
        town.play(FRAMES)
        lines = self.replayed("all.pcap", town.all)
        for iid, side in town.alone.items():
            name = f"{iid}.pcap"
            own = [line for line, owner in zip(lines, town.owners) if owner in (None, iid)]
            for number, (one, other) in enumerate(zip(own, self.replayed(name, side), strict=True), 1):
                if one != other:
                    return f"{name}, frame {number}: {' '.join(other)}\namong all: {' '.join(one)}"
        return ""


def told_apart(rounds, seed):
    """In how many rounds the wrong router is told from a right one."""
    count = 0
    for number in range(rounds):
        with tempfile.TemporaryDirectory() as folder:
            count += bool(Held(folder, None, pooled).differs(random.Random(f"{seed} {number}")))
    return count


def main():
    words = sys.argv[1:]
    program = words[0] if words else None
    rounds, seed = (int(word) for word in (words[1:] + ["20", "1"][len(words[1:]):])[:2])
    if program == "--pooled":
        count = told_apart(rounds, seed)
        print(f"{rounds} rounds of tenants with pooled limits, {count} differ")
        return int(3 * count < rounds)
    for number in range(rounds):
        with tempfile.TemporaryDirectory() as folder:
            told = Held(folder, program).differs(random.Random(f"{seed} {number}"))
            if told:
                for name in os.listdir(folder):
                    shutil.copy(os.path.join(folder, name), name)
                print(f"round {number} of seed {seed}: {told}")
                return 1
    print(f"{rounds} rounds of tenants, 0 differ")
    return 0


if __name__ == "__main__":
    sys.exit(main())

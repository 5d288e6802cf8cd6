#!/usr/bin/env python3
"""Has a hundred headers of each kind made, and lets tshark read them: it must read what was meant.

usage: tunnels.py [PROGRAM [SEED]]
The plain router or a program replays a capture in which a site, of instance 0 and of another, sends packets to a
hundred sites without versions and a hundred with them, asks each for an echo, gives it one, and solicits it. What each
header must tell is known from the settings and the capture, and not from a reading. It ends with status 1 where tshark
reads something else, or warns.
"""
import os
import random
import struct
import subprocess
import sys
import tempfile

from fitting import plain_ip
from lisp import ECHO, INSTANCE, NONCE, VERSIONS
from makers import raw, udp
from tshark import GOOD, HEADERS, WARNING, addresses, fields_read, kept, read_by_tshark
from wire import text_of

HERE = os.path.dirname(os.path.abspath(__file__))
EACH, INSTANCES, START = 100, {0: 0, 5: 300}, 1_700_000_000
DATA = "lisp-data."
FLAGS = {"nonce": "flags.nonce", "echo": "flags.enr", "versions": "flags.mv", "instance": "flags.iid",
         "status": "flags.lsb"}
FIELDS = ["_ws.expert.message", *(DATA + name for name in (
    *FLAGS.values(), "flags.res", "nonce", "srcmapver", "dstmapver", "iid", "lsb", "lsb8", "flags.en_invalid",
    "flags.nv_invalid"))]
# What tshark says of a checksum of 0 over IPv6, which tunnels of LISP have (RFC 9300, section 5.3; RFC 6935).
ZERO = "Illegal checksum value (0)"
ASKED = ["lisp.mreq.flags.smr", "lisp.mreq.flags.smri", "lisp.mreq.flags.probe", "lisp.mreq.flags.auth",
         "lisp.mreq.flags.mrp", "lisp.mreq.flags.pitr", "lisp.irc", "lisp.mreq.record.prefix.length",
         "lisp.mreq.srceid.ipv4", "lisp.mreq.record.prefix.ipv4", "lisp.mreq.itr_rloc_ipv4", "lisp.mreq.itr_rloc_ipv6"]


class Site:
    """The settings, made from a number; a prefix 10.1.k.0/24 has a version where k isn't 0."""

    def __init__(self, r):
        self.r = r
        locators = [f"192.0.2.{i}" for i in range(1, 7)] + [f"2001:db8:f::{i}" for i in range(1, 7)]
        self.own = [(raw(text), i in (2, 8) or r.random() < 0.5) for i, text in enumerate(locators)]
        self.nonces = [r.getrandbits(64) for _ in range(8 * EACH)]
        self.versions = {(iid, k): 0 if k == 0 else r.randrange(1, 4096)
                         for iid in INSTANCES.values() for k in range(31)}
        self.mappings, self.drawn = {}, 0

    def nonce(self):
        self.drawn += 1
        return self.nonces[self.drawn - 1]

    def up(self, size):
        return [address for address, is_up in self.own if is_up and len(address) == size]

    def status(self):
        return sum(1 << i for i, (_, is_up) in enumerate(self.own) if is_up)

    def map(self, iid, dest, version):
        """A mapping with a locator of its own, in one family or the other."""
        count = len(self.mappings)
        text = f"198.18.{count // 256}.{count % 256}" if count % 2 else f"2001:db8:e::{count + 1:x}"
        self.mappings[iid, dest] = raw(text), version
        return raw(text)

    def text(self):
        lines = ["echo = true", "nonces = [" + ", ".join(f'"{nonce:016x}"' for nonce in self.nonces) + "]"]
        for address, is_up in self.own:
            lines += ["[[locator]]", f'address = "{text_of(address)}"', f"up = {str(is_up).lower()}"]
        for vlan, iid in INSTANCES.items():
            lines += ["[[attachment]]", f"vlan = {vlan}", f"iid = {iid}"]
        for (iid, k), version in self.versions.items():
            lines += ["[[database]]", f"iid = {iid}", f'prefix = "10.1.{k}.0/24"', f"version = {version}"]
        for (iid, dest), (locator, version) in self.mappings.items():
            lines += ["[[mapping]]", f"iid = {iid}", f'prefix = "{text_of(dest)}/32"', f"version = {version}",
                      "[[mapping.locator]]", f'address = "{text_of(locator)}"']
        return "\n".join(lines) + "\n"


class Story:
    """The frames, and what must be read of each packet that is sent: None for one that is delivered."""

    def __init__(self, site):
        self.site, self.r, self.frames, self.meant = site, site.r, [], []

    def sends(self, vlan, iid, k, dest, **told):
        source = bytes([10, 1, k, 5])
        packet = plain_ip(self.r, source, dest, udp(self.r, source, dest, bytes(4), (1000, 2000)))
        self.add(vlan, packet)
        self.meant.append({"nonce": None, "echo": False, "versions": None, "iid": iid, **told})

    def hears(self, iid, k, dest, locator, flags, field):
        """A packet that comes from the locator of that destination."""
        r, home = self.r, bytes([10, 1, k, 5])
        header = struct.pack(">II", (flags | (INSTANCE if iid else 0)) << 24 | field, iid << 8)
        inner = plain_ip(r, dest, home, udp(r, dest, home, bytes(4), (2000, 1000)))
        own = r.choice([address for address, _ in self.site.own if len(address) == len(locator)])
        self.add(0, plain_ip(r, locator, own, udp(r, locator, own, header + inner, (50000, 4341))))
        self.meant.append(None)

    def add(self, vlan, packet):
        kind = 0x86DD if packet[0] >> 4 == 6 else 0x0800
        tag = struct.pack(">HH", 0x8100, vlan) if vlan else b""
        self.frames.append(bytes(12) + tag + struct.pack(">H", kind) + packet)

    def with_peer(self, vlan, iid, i, has_versions):
        """All that is said with one site."""
        r, site, dest = self.r, self.site, bytes([10, 2 + has_versions, 0, i])
        k = r.randrange(1, 31) if has_versions else 0
        version = r.randrange(4096) if has_versions else 0
        locator, own = site.map(iid, dest, version), site.versions[iid, k]
        self.sends(vlan, iid, k, dest, versions=(own, version) if has_versions else None)
        self.sends(vlan, iid, k, dest, nonce=site.nonce() & 0xFFFFFF, echo=True)
        wanted = r.getrandbits(24)
        self.hears(iid, k, dest, locator, NONCE | ECHO, wanted)
        self.sends(vlan, iid, k, dest, nonce=wanted)
        if has_versions:
            self.hears(iid, k, dest, locator, VERSIONS, version << 12 | (own - 1 or 4095))
            self.meant.append({"solicited": (iid, k), "nonce": site.nonce(), "to": locator})

    def capture(self):
        octets = struct.pack("<IHHIIII", 0xA1B23C4D, 2, 4, 0, 0, 262144, 1)
        for i, frame in enumerate(self.frames):
            octets += struct.pack("<IIII", START, i * 1000, len(frame), len(frame)) + frame
        return octets


class Steady(random.Random):
    """Numbers by which makers spoil nothing: what happens seldom doesn't."""

    def random(self):
        return 0.5


def told(row):
    """What tshark reads of a tunnel packet's header."""
    has = {name: row[DATA + field] == [GOOD] for name, field in FLAGS.items()}
    numbers = {name: [int(value, 0) for value in row[DATA + name]] for name in (
        "nonce", "srcmapver", "dstmapver", "iid", "lsb", "lsb8")}
    return has, numbers


def header_at_fault(row, meant, status):
    """What tshark reads otherwise than it was meant, in words."""
    has, numbers = told(row)
    versions, iid = meant["versions"], meant["iid"]
    told_status = ([], [status & 0xFF]) if iid else ([status], [])
    tests = {
        "flags": has == {"nonce": meant["nonce"] is not None, "echo": meant["echo"], "versions": versions is not None,
                         "instance": iid > 0, "status": True},
        "reserved": [int(value, 0) for value in row[DATA + "flags.res"]] == [0],
        "nonce": numbers["nonce"] == ([] if meant["nonce"] is None else [meant["nonce"]]),
        "versions": (numbers["srcmapver"], numbers["dstmapver"])
        == (([], []) if versions is None else ([versions[0]], [versions[1]])),
        "instance": numbers["iid"] == ([iid] if iid else []),
        "status": (numbers["lsb"], numbers["lsb8"]) == told_status,
        "invalid": not row[DATA + "flags.en_invalid"] and not row[DATA + "flags.nv_invalid"],
        "malformed": not row["_ws.malformed"],
        "warned of": all(int(value) < WARNING or message == ZERO for value, message in zip(
            row["_ws.expert.severity"], row["_ws.expert.message"], strict=True)),
    }
    return [name for name, good in tests.items() if not good]


def solicitation_at_fault(row, meant, site):
    iid, k = meant["solicited"]
    prefix = bytes([10, 1, k, 0])
    eids = addresses(row, "lisp.lcaf.iid.ipv4") if iid else (
        addresses(row, "lisp.mreq.srceid.ipv4") + addresses(row, "lisp.mreq.record.prefix.ipv4"))
    tests = {
        **kept(row, 1),
        "type": row["lisp.type"] == ["1"],
        "flags": [row[name] for name in ASKED[:6]] == [[GOOD]] + [["0"]] * 5,
        "nonce": [int(value, 16) for value in row["lisp.nonce"]] == [meant["nonce"]],
        "EIDs": eids == [prefix, prefix] and row["lisp.mreq.record.prefix.length"] == ["24"],
        "instances": row["lisp.lcaf.iid"] == ([str(iid)] * 2 if iid else []),
        "locators": (addresses(row, "lisp.mreq.itr_rloc_ipv4"), addresses(row, "lisp.mreq.itr_rloc_ipv6"))
        == (site.up(4), site.up(16)),
        "count": [int(value) for value in row["lisp.irc"]] == [len(site.up(4) + site.up(16)) - 1],
    }
    return [name for name, good in tests.items() if not good]


def kind_of(meant):
    if "solicited" in meant:
        return "solicitations"
    nonce = "an echo wanted" if meant["echo"] else "an echo given"
    word = nonce if meant["nonce"] is not None else "versions" if meant["versions"] else "neither"
    return f"headers with {word}, {'of an instance' if meant['iid'] else 'of instance 0'}"


def replayed(words, folder, site, story):
    names = [os.path.join(folder, name) for name in ("settings.toml", "capture.pcap", "out.pcap")]
    with open(names[0], "w") as file:
        file.write(site.text())
    with open(names[1], "wb") as file:
        file.write(story.capture())
    options = ["--settings", names[0], "--in", names[1], "--out", names[2]] if words else names
    command = [*words, "replay"] if words else [sys.executable, os.path.join(HERE, "plain.py"), "replay"]
    report = subprocess.run([*command, *options], capture_output=True, text=True, check=True).stdout
    return names[2], report


def main():
    words, seed = sys.argv[1:2], int(sys.argv[2]) if len(sys.argv) > 2 else 1
    site = Site(Steady(seed))
    story = Story(site)
    for vlan, iid in INSTANCES.items():
        for i in range(EACH):
            story.with_peer(vlan, iid, i, False)
            story.with_peer(vlan, iid, i, True)
    counts, bad = {}, 0
    with tempfile.TemporaryDirectory() as folder:
        path, report = replayed([os.path.abspath(word) for word in words], folder, site, story)
        data = fields_read(path, "lisp-data", HEADERS[:3] + FIELDS)
        messages = read_by_tshark(path, ASKED)
        written = int(report.split("written=")[1].split()[0])
    for number, meant in enumerate(story.meant, 1):
        if meant is None:
            continue
        counts[kind_of(meant)] = counts.get(kind_of(meant), 0) + 1
        rows = messages if "solicited" in meant else data
        wrong = ["not read"] if number not in rows else (
            solicitation_at_fault(rows[number], meant, site) if "solicited" in meant
            else header_at_fault(rows[number], meant, site.status()))
        if wrong:
            bad += 1
            print(f"packet {number}: {', '.join(wrong)}")
    for kind, count in sorted(counts.items()):
        print(f"{count:5} {kind}")
    expected = len(story.meant)
    print(f"{written} packets of {expected}, {bad} at fault")
    sys.exit(bad > 0 or written != expected)


if __name__ == "__main__":
    main()

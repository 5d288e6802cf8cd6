#!/usr/bin/env python3
"""Explains each frame of all examples and of captures made from numbers, and holds stored sentences against `explain`.

usage: explain_test.py PROGRAM [ROUNDS [SEED [FIRST]]]
A round makes settings and a capture as `crosscheck/compare.py` does, mostly classic and else pcapng or with packets that
are split; each frame is explained in one pass, with the map-cache and the journal behind it all, and no line of the
plain router may differ from PROGRAM's. The stored sentences were read beside settings and capture, not written before them. ROUNDS is 20 if it is left out. It ends with status 1 at the first difference.
"""
import argparse
import json
import os
import random
import struct
import subprocess
import sys
import tempfile

TOP = os.path.dirname(os.path.dirname(os.path.abspath(__file__)))
EXPLAIN, EXAMPLES = os.path.join(TOP, "tools", "explain"), os.path.join(TOP, "examples")
sys.path.insert(0, os.path.join(TOP, "crosscheck"))

import compare  # noqa: E402
import nonces  # noqa: E402
import settings as rules  # noqa: E402
from makers import settings  # noqa: E402
from makers_ng import written  # noqa: E402
from wire import udp_packet  # noqa: E402

from explaining import cache, frame, listing  # noqa: E402
from explaining.command import Run  # noqa: E402
from explaining.texts import Refused, address  # noqa: E402

ROUNDS, EVERY = 20, 100
START = 1_700_000_000
# Of frames of the examples what must stand behind a label, worked out from their settings and docs/BEHAVIOUR.md.
WORKED = {
    ("site", 3): [("mapping", "10.2.9.0/24 of instance 200, static, of the settings (entry 3), never ends"),
                  ("mapping", "no locators, ACT 4 (Drop/Policy-Denied)")],
    ("site", 4): [("instance", "none: no attachment names VLAN 0 (no tag); those of the settings name 5, 6")],
    ("site", 6): [("LISP", "08 00 00 00 00 01 2c 00: I: instance 300"),
                  ("site", "the inner destination 10.1.0.5 is in no EID prefix of instance 300; in another instance there is "
                   "10.1.0.0/16 of instance 100, 10.1.0.0/16 of instance 200")],
    ("site", 8): [("field", "octet 12 of the frame, counted from 0: the EtherType, which is neither 08 00 (IPv4) nor 86 dd (IPv6) "
                   "(IEEE 802.3)"),
                  ("field", "there stands 08 06")],
    ("limits", 3): [("request", "no Map-Request is made: 2 requests of instance 100 are open, and its limit is 2")],
    ("limits", 7): [("records", "10.2.9.0/24 of instance 100, TTL 60 min: 198.51.100.7 priority 1 weight 100 R: passed over: as "
                     "many mappings of instance 100 as its limit allows, 2, are live")],
    ("limits", 10): [("request", "earlier: the Map-Request for 10.3.0.9/32 of instance 100 of frame 2 at 2023-11-14 22:13:20.01 UTC "
                      "was answered by frame 8 at 2023-11-14 22:13:20.4 UTC, whose record was passed over: as many mappings of "
                      "instance 100 as its limit allows, 2, were live")],
    ("ticks", 5): [("locators", "198.51.100.7 priority 1 weight 1: can't be used: the probe of the second 2023-11-14 22:13:21 UTC "
                    "wasn't answered, so it is down from 2023-11-14 22:13:24 UTC until a later probe is answered, or until "
                    "2023-11-14 22:23:21 UTC (RFC 9301, section 7.1)"),
                   ("locators", "198.51.100.8 priority 2 weight 1: can be used: all flows")],
    ("echoes", 9): [("locators", "198.51.100.7 priority 1 weight 1: can't be used: it was asked for an echo behind frame 7 at "
                     "2023-11-14 22:14:20 UTC, and sent packets without one, so it isn't used from 2023-11-14 22:14:30 UTC to "
                     "2023-11-14 22:15:20 UTC (RFC 9300, section 10.1)")],
    ("echoes", 18): [("versions", "source Map-Version 3; the mapping of the source has 4")],
    ("uplink", 5): [("tells", "198.51.100.7 knows an old version of 10.1.0.0/16 of instance 100 (RFC 9302, section 7.1): no SMR "
                     "goes to it, since one did at the second 2023-11-14 22:13:21 UTC, less than 10 s before")],
    ("cache", 1): [("nearest", "the map-cache has no mapping of instance 100 and IPv4"),
                   ("request", "a Map-Request for 10.2.0.9/32 of instance 100 goes to the resolver 203.0.113.9")],
}
# A site whose VLAN is of instance 0, and a mapping of another instance; no resolver, then one.
OTHER_INSTANCE = """[[locator]]
address = "192.0.2.1"
[[attachment]]
vlan = 0
iid = 0
[[database]]
iid = 0
prefix = "10.1.0.0/16"
[[mapping]]
iid = 7
prefix = "10.2.0.0/16"
[[mapping.locator]]
address = "198.51.100.7"
"""
RESOLVER = 'resolver = "203.0.113.9"\nnonces = ["0102030405060708"]\n'
HOST, DEST, OWN, OTHER = (bytes(map(int, text.split("."))) for text in ("10.1.0.5", "10.2.0.9", "192.0.2.1", "198.51.100.7"))
# Of frames that are made here: at once; 0.1 s later the reply, for a minute; 0.2 s later; two minutes later, twice, and
# once more ten seconds behind that.
MADE = {
    1: [("nearest", "in another instance: 10.2.0.0/16 of instance 7, static, of the settings; no VLAN is of that "
         "instance"),
        ("request", "a Map-Request for 10.2.0.9/32 of instance 0 goes to the resolver 203.0.113.9")],
    2: [("records", "10.2.0.0/16 of instance 0, TTL 1 min: 198.51.100.7 priority 1 weight 1 R: learned")],
    3: [("mapping", "10.2.0.0/16 of instance 0, learned from frame 2 at 2023-11-14 22:13:20.1 UTC (entry 4), TTL 1 min, ends in "
         "59.9 s")],
    4: [("nearest", "ended: 10.2.0.0/16 of instance 0, learned from frame 2 at 2023-11-14 22:13:20.1 UTC (entry 4), TTL 1 min, "
         "ended 59.9 s ago, at 2023-11-14 22:14:20.1 UTC; with a TTL of 2 min it would be in force"),
        ("request", "earlier: the Map-Request for 10.2.0.9/32 of instance 0 of frame 1 at 2023-11-14 22:13:20 UTC was answered by "
         "frame 2 at 2023-11-14 22:13:20.1 UTC with 10.2.0.0/16 of instance 0"),
        ("n=4", "the journal had 4 entries before the frame, the last one of frame 2 at 2023-11-14 22:13:20.1 UTC: Learned "
         "10.2.0.0/16 of instance 0, TTL 1 min: 198.51.100.7 priority 1 weight 1")],
    5: [("request", "no further Map-Request is made: a Map-Request for 10.2.0.9/32 of instance 0 is open since frame 4 at "
         "2023-11-14 22:15:20 UTC, 0.5 s ago, with nonce {nonce}; it was sent 1 time, goes again at the second 2023-11-14 "
         "22:15:21 UTC at the earliest, and is over at 2023-11-14 22:15:27 UTC")],
    6: [("request", "a Map-Request for 10.2.0.9/32 of instance 0 goes to the resolver 203.0.113.9"),
        ("request", "earlier: the Map-Request for 10.2.0.9/32 of instance 0 of frame 4 at 2023-11-14 22:15:20 UTC wasn't "
         "answered, and was over at 2023-11-14 22:15:27 UTC")],
}


def capture_of(name):
    """The capture of an example."""
    return next(path for path in (os.path.join(EXAMPLES, name, f"capture.{end}") for end in ("pcap", "pcapng"))
                if os.path.exists(path))


def need_all(name, wanted, found):
    """Each wanted sentence must stand behind its label."""
    for label, text in wanted:
        if not any(label == one and text in lines for one, lines in found):
            raise AssertionError(f"{name}: no line {text!r} behind {label}, but {found}")


def examples(program):
    """Explains each frame of the examples, of which some are worked."""
    frames = 0
    for name in sorted(os.listdir(EXAMPLES)):
        words = words_of(program, os.path.join(EXAMPLES, name, "settings.toml"), capture_of(name))

        def see(play, step):
            need_all(f"{name} {step.frame.number}", WORKED.get((name, step.frame.number), ()), frame.sections(play, step))
        with tempfile.TemporaryDirectory(prefix="explain-test-") as folder:
            frames += Run(words, folder).played(None, see).frames
    return frames


# Worked frames by the program itself.


def reply():
    """A Map-Reply for 10.2.0.0/16, for a minute."""
    record = struct.pack(">IBBHHH", 1, 1, 16, 0x1000, 0, 1) + bytes([10, 2, 0, 0])
    record += struct.pack(">BBBBHH", 1, 1, 255, 0, 1, 1) + OTHER
    return udp_packet(OTHER, OWN, (4342, 4342), struct.pack(">IQ", 0x20000001, 0x0102030405060708) + record, True)


def said(*words):
    done = subprocess.run([sys.executable, "-B", EXPLAIN, *words], capture_output=True, text=True)
    return done.returncode, done.stdout, done.stderr


def sections_of(text):
    """The sections of an explanation."""
    found = []
    for line in text.splitlines()[1:]:
        label, rest = line[:10].strip(), line[10:]
        if label:
            found.append((label, [rest]))
        else:
            found[-1][1].append(rest)
    return found


def worked(program, folder):
    """Explains frames that are made here, each by a run of its own, and refuses wrong words and lines."""
    leaving = udp_packet(HOST, DEST, (1000, 2000), b"", False)
    ten = START * 10**9
    moments = [ten, ten + 10**8, ten + 2 * 10**8, ten + 120 * 10**9, ten + 1205 * 10**8, ten + 130 * 10**9]
    settings, capture = (os.path.join(folder, name) for name in ("settings.toml", "capture.pcap"))
    compare.write(settings, RESOLVER + OTHER_INSTANCE)
    compare.write_records(capture, 101, list(zip(moments, [leaving, reply(), *4 * [leaving]])))
    files = "--settings", settings, "--in", capture, "--program", program
    for number, wanted in MADE.items():
        status, text, error = said("frame", str(number), *files)
        nonce = f"{nonces.nonce_at([0x0102030405060708], bytes(32), 1):016x}"
        if status or error:
            raise AssertionError(f"frame {number}: status {status}, {error}")
        need_all(f"frame {number}", [(label, line.format(nonce=nonce)) for label, line in wanted], sections_of(text))
    caches(files)
    cuts(files, os.path.join(folder, "cut"))
    refused(files, folder)
    return len(MADE)


def caches(files):
    """The map-cache before, while and behind a mapping is there, and the journal."""
    for at, word, sent in (("1700000001.5", "10.2.0.0/16", 1), ("22:14:20", "10.2.0.9", 1), ("22:14:20.1", "10.2.0.9", None)):
        status, text, _ = said("cache", word, "--iid", "0", "--at", at, "--json", *files)
        found = [(one["eid"], one["by"], one["locators"][0]["packets"], one["locators"][0]["octets"])
                 for one in json.loads(text)["mappings"]]
        by = "frame 2 at 2023-11-14 22:13:20.1 UTC"
        if status or found != ([("10.2.0.0/16", by, sent, 64)] if sent else []):
            raise AssertionError(f"--at {at}: {found}")
    status, text, _ = said("cache", "--json", *files)
    wanted = [{"iid": 0, "eid": "10.2.0.9/32", "times": 1, "last": "frame 4 at 2023-11-14 22:15:20 UTC"}]
    if status or json.loads(text)["unanswered"] != wanted:
        raise AssertionError(text)
    status, text, _ = said("cache", "10.2.0.9", "--iid", "0", "--at", "4", *files)
    if status or "  ended: 10.2.0.0/16 of instance 0, learned from frame 2" not in text:
        raise AssertionError(text)
    # Entries of an instance and of a prefix: all but that of the settings, which is of another instance.
    for words, wanted in ((("--iid", "0"), [2, 3, 4, 5]), (("10.2.0.9",), [1, 2, 3, 4, 5]), (("10.3.0.0/16",), [])):
        status, text, _ = said("journal", *words, "--at", "4", *files)
        numbers = [int(line.split(":")[0]) for line in text.splitlines() if line != "no entry"]
        if status or numbers != wanted:
            raise AssertionError(f"{words}: {text}")
    status, text, _ = said("journal", "--at", "2", *files)
    if status or [line.split(": ")[1] for line in text.splitlines()] != [
            "the settings", "frame 1 at 2023-11-14 22:13:20 UTC", *2 * ["frame 2 at 2023-11-14 22:13:20.1 UTC"]]:
        raise AssertionError(text)


def cuts(files, capture):
    """Frames of a pcapng file behind which it is cut, of which large ones are halves of 764 and 756 octets."""
    small, big = (udp_packet(HOST, DEST, (1000, 2000), bytes(size), False) for size in (0, 1472))
    frames = [(START * 10**9 + i * 10**8, 101, octets) for i, octets in enumerate([small, big, small, big])]
    compare.write_octets(capture, written(random.Random(1), frames).octets())
    for number, split, wanted in (("3", "off", "raw IP, 28 octets"), ("3", "on", "raw IP, 756 octets; half 2 of frame 2 of the "
                                  "capture, which was split (RFC 9300, section 7.1)")):
        status, text, error = said("frame", number, "--split", split, *files[:3], capture, *files[4:])
        if status:
            raise AssertionError(error)
        need_all(f"frame {number}, split {split}", [("frame", wanted)], sections_of(text))


def refused(files, folder):
    """Wrong words and files have status 2 and one sentence; a program that says otherwise than the plain router 1."""
    wrong = [("frame", "0", *files), ("frame", "7", *files), ("cache", "--at", "noon", *files), ("cache", "10.2", *files),
             ("frame", "1", *files[:3], os.path.join(folder, "none"), *files[4:]),
             ("frame", "1", files[0], files[3], *files[2:]), ("frame", "1", "--interfaces", "vlan", *files), ("lose",)]
    for words in wrong:
        status, text, error = said(*words)
        if status != 2 or text or not error.strip():
            raise AssertionError(f"{words}: status {status}, {text}{error}")
    liar = os.path.join(folder, "liar")
    compare.write(liar, f'#!/bin/sh\n"{files[5]}" "$@" | sed "s/^2 .*/2 1700000000.100000000 n=2 drop 21 unsolicited/"\n')
    os.chmod(liar, 0o755)
    status, text, _ = said("frame", "3", *files[:5], liar)
    if status != 1 or "proved 2 1700000000.100000000 n=2 drop 21" not in text or "plain  2 1700000000.1" not in text:
        raise AssertionError(f"a line that differs: status {status}, {text}")


# Captures made from numbers.


def words_of(program, settings, capture, **more):
    given = {"format": None, "interfaces": "none", "split": "off", "iid": None, "prefix": None, "json": False, "first": 1,
             "last": None, **more}
    return argparse.Namespace(program=program, settings=settings, capture=capture, **given)


def need_coherent(step, found):
    """What sections say of a frame must be what its line and its entries say."""
    verdict, told = step.line.verdict, {}
    for label, lines in found:
        told.setdefault(label, []).extend(lines)
    entries = [line.split(" ", 2)[1] for line in told["journal"]]
    facts = [("a request", any(" goes to the resolver" in line for line in [*told.get("request", ()), *told.get("tells", ())]),
              not verdict.startswith("control") and "Asked" in entries),
             ("an SMR", any(line.endswith("an SMR goes to it") for line in told.get("tells", ())), "Solicited" in entries)]
    if verdict.startswith("control reply"):
        facts.append(("learned", sum(": learned" in line for line in told["records"]), entries.count("Learned")))
    if verdict.startswith("control solicit"):
        facts.append(("asked", sum(line.endswith("it is asked for again") for line in told["named"]),
                      entries.count("Asked")))
    if verdict.startswith("encapsulated"):
        facts.append(("locator", told["choice"][-1].count(address(rules.address(verdict.split(" ")[2]))), 1))
    if verdict.startswith("delivered"):
        tells = told["tells"]
        facts += [("bits", any("tell that" in line for line in tells), "Bits" in entries),
                  ("echo", any(" gives the echo" in line for line in tells), "EchoHeard" in entries)]
    wrong = [(name, said, is_so) for name, said, is_so in facts if said != is_so]
    if wrong:
        raise AssertionError(f"{wrong} in {step.line.text}: {found}")


def explained(words, folder):
    """How many frames of a capture are explained; at the end the map-cache and the journal are."""
    counts, last = cache.Counts(), []

    def see(play, step):
        need_coherent(step, frame.sections(play, step))
        counts.see(play, step)
        last[:] = [step.frame]
        if step.frame.number % EVERY == 0:
            behind(words, counts, play, step.frame)
    run = Run(words, folder)
    play = run.played(None, see)
    if last:
        behind(words, counts, play, last[0])
    return play.frames


def behind(words, counts, play, one):
    for is_json in (False, True):
        words.json = is_json
        cache.lines(words, counts, play, one, one.moment)
    if len(listing.lines(words, play, one, one.moment)) != max(1, len(play.journal)):
        raise AssertionError("entries are missing")


def made(r, folder):
    """Settings and a capture from a number, and the words of how it is taken."""
    text, files = settings(r), [os.path.join(folder, name) for name in ("settings.toml", "capture")]
    compare.write(files[0], text)
    split = "on" if r.random() < 0.3 else "off"
    compare.capture(r, text, files[1], compare.large_frames if split == "on" else compare.frames)
    interfaces = "none"
    if r.random() < 0.3:
        compare.write_octets(files[1], written(r, compare.frames_before(files[1])).octets())
        interfaces = r.choice(["none", "vlan"])
    return files, {"split": split, "interfaces": interfaces}


def rounds(program, count, seed, first):
    frames = 0
    for i in range(first, first + count):
        with tempfile.TemporaryDirectory(prefix="explain-test-") as folder:
            files, more = made(random.Random(f"{seed} {i}"), folder)
            try:
                frames += explained(words_of(program, *files, **more), folder)
            except Refused:
                continue
            except Exception:
                print(f"round {i} of seed {seed} differs, with {more}")
                raise
    return frames


def main():
    program = os.path.abspath(sys.argv[1])
    count, seed, first = (int(word) for word in (sys.argv[2:5] + [ROUNDS, 1, 0][len(sys.argv) - 2:]))
    frames = examples(program)
    with tempfile.TemporaryDirectory(prefix="explain-test-") as folder:
        frames += worked(program, folder)
    frames += rounds(program, count, seed, first)
    print(f"{frames} frames explained, of the examples, of worked ones, and of {count} captures made from numbers")


if __name__ == "__main__":
    sys.exit(main())

#!/usr/bin/env python3
"""Holds audits of outputs, as they are and changed, against a comparison in Python.

usage: audits.py [PROGRAM [ROUNDS [SEED]]]
With no program named the audit in Python is judged, by replays of its own. Each round makes settings and a capture from
a number, as compare.py has them. The output of their replay is audited, and must be the same: as it is, with moments of
another clock, and as a capture of either byte order of Ethernet with padding. Then it is changed, by an octet, by a
record that is left out, that is there twice or that is another, by two that are exchanged, and by an end that is cut:
a comparison in Python says what must come. A replay whose settings or capture are at fault must be audited by the same
line. Last another router's capture is audited: that of the plain router with a list of nonces of its own, by settings
without that list, and must be the same where its nonces are lifted. It prints how many audits ended how, and ends with
status 1 where one differs.
"""
import collections
import os
import random
import re
import struct
import sys
import tempfile

from auditing import CAPTURE, DIFFERS, SAME, SETTINGS, compared, record_packet
from captures import CaptureFault, frames_of, output_header, output_record
from compare import capture
from makers import MAC, settings
from row_runs import REPLAY, Run
from rows import Plain, Program, differences, ended
from wire import contents

AUDIT = "audit --settings settings --in in --sent sent"
LIFTED = f"{AUDIT} --nonces sent"
# How often an output is changed in each way.
TIMES = 3
MOST_LISTED, ETHERTYPES = 4096, {4: 0x0800, 6: 0x86DD}


def packets_of(output):
    """The packets of an output with their moments."""
    packets, at = [], 24
    while at < len(output):
        second, rest, size, _ = struct.unpack("<IIII", output[at:at + 16])
        packets.append((second * 10**9 + rest, output[at + 16:at + 16 + size]))
        at += 16 + size
    return packets


def output_of(packets):
    return output_header() + b"".join(output_record(moment, packet) for moment, packet in packets)


# Captures that have the same packets.


def at_other_times(r, packets):
    """The packets at moments of a clock that is wrong, and stands or goes back now and then."""
    start = r.randrange(2**31) * 10**9
    return output_of([(start + r.randrange(10**6) * 10**9 + r.randrange(10**9), packet) for _, packet in packets])


def over_ethernet(r, packets):
    """The packets in frames, some of a VLAN, with padding behind, in microseconds."""
    order = r.choice("<>")
    octets = struct.pack(order + "IHHIIII", 0xA1B2C3D4, 2, 4, 0, 0, 262144, 1)
    for moment, packet in packets:
        tag = r.choice([b"", struct.pack(">HH", 0x8100, r.randrange(2**16))])
        frame = MAC + tag + struct.pack(">H", ETHERTYPES[packet[0] >> 4]) + packet + bytes(r.choice([0, 0, 2, 46]))
        octets += struct.pack(order + "IIII", moment // 10**9, moment % 10**9 // 1000, len(frame), r.randrange(2**32))
        octets += frame
    return octets


# Captures that mostly have other packets.


def with_an_octet(r, packets):
    at = r.randrange(len(packets))
    moment, packet = packets[at]
    place = r.choice([r.randrange(len(packet)), r.randrange(min(len(packet), 64)), len(packet) - 1])
    other = packet[:place] + bytes([packet[place] ^ r.randrange(1, 256)]) + packet[place + 1:]
    return [*packets[:at], (moment, other), *packets[at + 1:]]


def with_one_less(r, packets):
    at = r.choice([r.randrange(len(packets)), len(packets) - 1])
    return packets[:at] + packets[at + 1:]


def with_one_twice(r, packets):
    at = r.choice([r.randrange(len(packets)), len(packets) - 1])
    return packets[:at + 1] + packets[at:]


def with_two_exchanged(r, packets):
    at = r.randrange(max(1, len(packets) - 1))
    return packets[:at] + packets[at:at + 2][::-1] + packets[at + 2:]


def with_another(r, packets):
    """The packets with one that is cut short, empty, or no packet at all."""
    at = r.randrange(len(packets))
    moment, packet = packets[at]
    other = r.choice([b"", packet[:-1], packet[:20], r.randbytes(r.randrange(64))])
    return [*packets[:at], (moment, other), *packets[at + r.randrange(2):]]


def with_fewer(r, packets):
    return packets[:r.randrange(len(packets))]


CHANGES = with_an_octet, with_one_less, with_one_twice, with_two_exchanged, with_another, with_fewer


# What must come.


def said(status, words):
    return status, f"audit {words}\n", None


def wanted(due, octets):
    """What an audit must end with of packets that were due, and a capture of what was sent; its faults come first."""
    with tempfile.TemporaryDirectory() as folder:
        path = os.path.join(folder, "sent")
        with open(path, "wb") as file:
            file.write(octets)
        try:
            records = list(frames_of(path))
        except CaptureFault as fault:
            return CAPTURE, f"sent {fault}\n", None
    return said(*compared([packet for _, packet in due], [record_packet(link, frame) for _, link, frame in records]))


def same(packets):
    return said(SAME, f"same packets={len(packets)}")


def has_echo(text):
    return "echo = true" in text


def audit_run(text, source, sent, end, words=AUDIT):
    return Run(words.split(), {"settings": text.encode(), "in": source, "sent": sent}, *end)


def of_output(r, text, source, output):
    """Audits of an output, as it is and changed."""
    packets = packets_of(output)
    yield audit_run(text, source, output, same(packets))
    for octets in at_other_times(r, packets), over_ethernet(r, packets):
        yield audit_run(text, source, octets, same(packets))
    for change in CHANGES * TIMES if packets else ():
        octets = output_of(change(r, packets))
        yield audit_run(text, source, octets, wanted(packets, octets))
    cut = output[:r.randrange(len(output) + 1)]
    yield audit_run(text, source, cut, wanted(packets, cut))
    if has_echo(text):
        yield audit_run(text, source, cut, (SETTINGS, "settings bad-value echo\n", None), LIFTED)


def of_fault(r, text, source, end):
    """Audits with settings or a capture at fault, whatever was sent."""
    status, report, _ = end
    line = report.splitlines()[-1] + "\n"
    for octets in b"", output_header(), source:
        yield audit_run(text, source, octets, (status, line, None))
    if not has_echo(text):
        yield audit_run(text, source, b"", (status, line, None), LIFTED)


def without(text, key):
    return re.sub(rf"^{key} = .*\n", "", text, flags=re.M)


def of_another(r, text, source, judge):
    """An audit of a router that has nonces of its own, each once; and audits of what is made of its capture."""
    text = without(without(text, "nonces"), "echo")
    nonces = ", ".join(f'"{number:016x}"' for number in r.sample(range(2**62), r.choice([1, 40, MOST_LISTED])))
    status, _, output = ended(judge, Run(REPLAY.split(), {"settings": f"nonces = [{nonces}]\n{text}".encode(),
                                                          "in": source}, 0, "", None))
    if status != SAME:
        return
    packets = packets_of(output)
    for octets in output, at_other_times(r, packets), over_ethernet(r, packets):
        yield audit_run(text, source, octets, same(packets), LIFTED)
    for change in CHANGES if packets else ():
        run = audit_run(text, source, output_of(change(r, packets)), same(packets), LIFTED)
        yield Run(run.words, run.files, *ended(judge, run))


def made(r, folder):
    """Settings and a capture, now and then cut short."""
    text, path = settings(r), os.path.join(folder, "in")
    capture(r, text, path)
    octets = contents(path)
    return text, octets[:-r.randint(1, 200)] if r.random() < 0.1 else octets


def runs(r, judge, folder):
    """All audits of a round."""
    text, source = made(r, folder)
    end = ended(judge, Run(REPLAY.split(), {"settings": text.encode(), "in": source}, 0, "", None))
    yield from of_output(r, text, source, end[2]) if end[0] == SAME else of_fault(r, text, source, end)
    yield from of_another(r, text, source, Plain())


def main():
    words = sys.argv[1:]
    judge = Program(words[0]) if words else Plain()
    count = int(words[1]) if len(words) > 1 else 20
    seed = int(words[2]) if len(words) > 2 else 1
    differ, ends = 0, collections.Counter()
    with tempfile.TemporaryDirectory() as folder:
        for i in range(count):
            for run in runs(random.Random(f"{seed} {i}"), judge, folder):
                found = differences(run, ended(judge, run))
                print(f"DIFFERS round {i} of seed {seed}\n{found}" * bool(found), end="", flush=True)
                differ += bool(found)
                ends[run.report.split()[1] if run.status in (SAME, DIFFERS) else "fault"] += 1
    ways = ", ".join(f"{number} {word}" for word, number in sorted(ends.items()))
    print(f"{sum(ends.values())} audits ({ways}), {differ} differ")
    sys.exit(differ > 0)


if __name__ == "__main__":
    main()

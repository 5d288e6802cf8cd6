#!/usr/bin/env python3
"""Lets tshark read each Map-Reply in a capture that was written, and tells which it finds fault with.

usage: replies.py SETTINGS CAPTURE PCAP
The headers must have right checksums, no octet may be malformed, reserved or left over, and tshark must read what
the settings say of the site at that moment of the capture. It ends with status 1 where one is at fault.
"""
import sys

from captures import frames_of
from messages import Reply
from sites import Site
from tshark import addresses, kept, report, reserved

MAPPING, LOCATOR = "lisp.mapping.", "lisp.loc."
FIELDS = ["lisp.mrep.flags.probe", *(MAPPING + name for name in (
    "ttl", "loccnt", "act", "auth", "ver", "eid.masklen", "eid.ipv4", "eid.ipv6")), *(LOCATOR + name for name in (
    "priority", "weight", "multicast_priority", "multicast_weight", "flags.local", "flags.probe", "flags.reach",
    "locator"))]
UNUSED = ["lisp.mrep.flags.enlr", "lisp.mrep.flags.sec", "lisp.mrep.res", "lisp.mapping.res1", "lisp.mapping.res2",
          "lisp.loc.flags.res"]


def eids_read(row):
    """The addresses of the EIDs, by whether they have an instance, and by family."""
    fields = [(True, 32, "lisp.lcaf.iid.ipv4"), (True, 128, "lisp.lcaf.iid.ipv6"),
              (False, 32, MAPPING + "eid.ipv4"), (False, 128, MAPPING + "eid.ipv6")]
    return {(has_iid, width): addresses(row, field) for has_iid, width, field in fields}


def eids_due(eids):
    return {(has_iid, width): [eid.octets() for eid in eids if (eid.iid > 0, eid.width) == (has_iid, width)]
            for has_iid in (True, False) for width in (32, 128)}


def numbers(row, field):
    return [int(value, 0) for value in row[field]]


def locators_at_fault(row, site, count, probed):
    due = {
        "priority": [own.priority for own in site.locators], "weight": [own.weight for own in site.locators],
        "multicast_priority": [255] * len(site.locators), "multicast_weight": [0] * len(site.locators),
        "flags.local": [1] * len(site.locators), "flags.reach": [int(own.reachable) for own in site.locators],
        "flags.probe": [int(own.address == probed) for own in site.locators]}
    found = [name for name, values in due.items() if numbers(row, LOCATOR + name) != values * count]
    addressed = addresses(row, LOCATOR + "locator") == [own.address for own in site.locators] * count
    return found if addressed else [*found, "locator"]


def faults(site, row, packet, port, message):
    """What tshark finds wrong, in words."""
    if port is not None or not isinstance(message, Reply):
        return ["no Map-Reply"]
    eids, count = [record.eid for record in message.records], len(message.records)
    tests = {
        **kept(row, 1),
        "sender": site.is_own(packet.source),
        "type": row["lisp.type"] == ["2"],
        "nonce": [int(value, 16) for value in row["lisp.nonce"]] == [message.nonce],
        "probe": numbers(row, "lisp.mrep.flags.probe") == [int(message.probe)],
        "counts": (numbers(row, "lisp.records"), numbers(row, MAPPING + "loccnt"))
        == ([count], [len(site.locators)] * count),
        "EIDs of the site, in order": count > 0 and eids == sorted(set(eids) & set(site.databases)),
        "instances": numbers(row, "lisp.lcaf.iid") == [eid.iid for eid in eids if eid.iid],
        "mask lengths": numbers(row, MAPPING + "eid.masklen") == [eid.length for eid in eids],
        "EIDs": eids_read(row) == eids_due(eids),
        "TTL": numbers(row, MAPPING + "ttl") == [site.ttl] * count,
        "action": numbers(row, MAPPING + "act") == [0] * count,
        "A": numbers(row, MAPPING + "auth") == [1] * count,
        "version": numbers(row, MAPPING + "ver") == [site.versions.get(eid) for eid in eids],
        "reserved": reserved(row, UNUSED),
    }
    found = [name for name, good in tests.items() if not good]
    return found + locators_at_fault(row, site, count, packet.source if message.probe else None)


def standing(settings, capture, output):
    """What tells the site as it stands at the moment of a packet of the output, by what tshark reads of that."""
    with open(settings, "rb") as file:
        site = Site(file.read())
    begin = next(frames_of(capture))[0]
    moments = [moment for moment, _, _ in frames_of(output)]
    return lambda row: site.at(begin, moments[int(row["frame.number"][0]) - 1])


def main():
    site_of = standing(*sys.argv[1:])
    report("replies", sys.argv[3], 2, FIELDS + UNUSED, lambda row, *parts: faults(site_of(row), row, *parts))


if __name__ == "__main__":
    main()

#!/usr/bin/env python3
"""Lets tshark read each probe and each SMR in a capture that was written, and tells which it finds fault with.

usage: solicits.py SETTINGS CAPTURE PCAP
The headers must have right checksums, no octet may be malformed, reserved or left over, and tshark must read what the
settings say of the site at that moment of the capture: which own locators are up, and its prefixes. It ends with status
1 where one is at fault.
"""
import sys

from messages import Request
from replies import standing
from requests import UNUSED
from tshark import addresses, kept, report, reserved

RECORD = "lisp.mreq.record.prefix."
FLAGS = ["lisp.mreq.flags.smr", "lisp.mreq.flags.probe", "lisp.mreq.flags.smri"]
# The fields of a Source EID and of a record's, by the width of their addresses.
SOURCE = {32: "lisp.mreq.srceid.ipv4", 128: "lisp.mreq.srceid_ipv6"}
PREFIX = {32: RECORD + "ipv4", 128: RECORD + "ipv6"}
FIELDS = [*FLAGS, *SOURCE.values(), *PREFIX.values(), RECORD + "length", "lisp.irc", "lisp.mreq.srceid.afi",
          "lisp.mreq.itr_rloc_ipv4", "lisp.mreq.itr_rloc_ipv6"]
OTHERS = [name for name in UNUSED if name not in FLAGS]


def eids_read(row, eid, kinds):
    """The addresses of EIDs that are read, in fields of their own or of their instance."""
    fields = [f"lisp.lcaf.iid.ipv{4 if eid.width == 32 else 6}"] if eid.iid else [kind[eid.width] for kind in kinds]
    return [address for field in fields for address in addresses(row, field)]


def faults(site, row, packet, port, message):
    """What tshark finds wrong, in words."""
    if port is not None or not isinstance(message, Request) or len(message.eids) != 1:
        return ["no Map-Request for one EID"]
    eid, up = message.eids[0], {size: [own for own in site.up() if len(own) == size] for size in (4, 16)}
    kinds = [SOURCE, PREFIX] if message.solicit else [PREFIX]
    tests = {
        **kept(row, 1),
        "sender": packet.source == site.ours(len(packet.source)),
        "type": row["lisp.type"] == ["1"],
        "flags": [row[name] for name in FLAGS] == ([["1"], ["0"], ["0"]] if message.solicit else [["0"], ["1"], ["0"]]),
        "nonce": [int(value, 16) for value in row["lisp.nonce"]] == [message.nonce],
        "counts": (row["lisp.irc"], row["lisp.records"]) == ([str(len(up[4] + up[16]) - 1)], ["1"]),
        "locators": (addresses(row, "lisp.mreq.itr_rloc_ipv4"), addresses(row, "lisp.mreq.itr_rloc_ipv6"))
        == (up[4], up[16]),
        "prefix of the site": not message.solicit or eid in site.databases,
        "EIDs": eids_read(row, eid, kinds) == [eid.octets()] * len(kinds),
        "instances": row["lisp.lcaf.iid"] == [str(eid.iid)] * len(kinds) * (eid.iid > 0),
        "mask length": row[RECORD + "length"] == [str(eid.length)],
        "source": message.solicit or row["lisp.mreq.srceid.afi"] == ["0"],
        "reserved": reserved(row, OTHERS),
    }
    return [name for name, good in tests.items() if not good]


def main():
    site_of = standing(*sys.argv[1:])
    report("solicits", sys.argv[3], 1, FIELDS + OTHERS, lambda row, *parts: faults(site_of(row), row, *parts))


if __name__ == "__main__":
    main()

#!/usr/bin/env python3
"""Lets tshark read each request in a capture that was written, and tells which it finds fault with.

usage: requests.py PCAP
Both headers of IP and both of UDP must have right checksums, no octet may be malformed, reserved or left over, and
tshark must read the fields that the plain reading gives. It ends with status 1 where one is at fault.
"""
import sys

from messages import Request
from tshark import addresses, kept, report, reserved
from wire import number

FIELDS = ["lisp.irc", "lisp.mreq.record.prefix.length", "lisp.mreq.record.prefix.ipv4", "lisp.mreq.record.prefix.ipv6",
          "lisp.mreq.srceid.afi", "lisp.mreq.flags.smri"]
UNUSED = ["lisp.mreq.res", "lisp.ecm.res", "lisp.mreq.record.res", "lisp.mreq.flags.auth", "lisp.mreq.flags.mrp",
          "lisp.mreq.flags.probe", "lisp.mreq.flags.smr", "lisp.mreq.flags.pitr"]


def afi(eid):
    if eid is None:
        return "0"
    return "16387" if eid.iid else "1" if eid.width == 32 else "2"


def faults(row, packet, port, message):
    """What tshark finds wrong, in words."""
    if port is None or not isinstance(message, Request) or len(message.eids) != 1:
        return ["no encapsulated request for one EID"]
    eid, family = message.eids[0], "ipv4" if message.eids[0].width == 32 else "ipv6"
    asked = addresses(row, f"lisp.lcaf.iid.{family}" if eid.iid else f"lisp.mreq.record.prefix.{family}")
    tests = {
        **kept(row, 2),
        "ports": (port, number(packet.octets, packet.at + 2, 2)) == (4342, 4342),
        "type": row["lisp.type"] == ["8", "1"],
        "nonce": [int(value, 16) for value in row["lisp.nonce"]] == [message.nonce],
        "counts": (row["lisp.irc"], row["lisp.records"]) == ([str(len(message.replies_to) - 1)], ["1"]),
        "instance": row["lisp.lcaf.iid"][-1:] == ([str(eid.iid)] if eid.iid else []),
        "mask length": row["lisp.mreq.record.prefix.length"] == [str(eid.length)],
        "EID": asked[-1:] == [eid.octets()],
        "source": row["lisp.mreq.srceid.afi"] == [afi(message.source)],
        "invoked": row["lisp.mreq.flags.smri"] == ["0"] or message.source is None,
        "reserved": reserved(row, UNUSED),
    }
    return [name for name, good in tests.items() if not good]


if __name__ == "__main__":
    report("requests", sys.argv[1], 8, FIELDS + UNUSED, faults)

"""A frame beside the settings of the router: its instance, and whether a verdict can be its own."""
import ipaddress
import tomllib
from typing import NamedTuple, Optional

from layers import address_of, packet_in
from outline import Outline, outline_of
from reading import TUNNEL

ETHERNET, TAG = 1, b"\x81\x00"
# Drops of packets to an own locator, and of those that leave the site; 1 and 9 are of either.
ARRIVING = {1, 2, 3, 4, 5, 6, 7, 8, 9, 21, 22, 23, 24, 25}
LEAVING = {1, 9, *range(10, 21)}


class Frame(NamedTuple):
    """The VLAN of a frame, and its packet; None where it has none."""
    vlan: int
    packet: Optional[Outline]


def frame_of(link, octets):
    found = packet_in(link, octets)
    return Frame(found[0], outline_of(found[1])) if found else Frame(0, None)


def tagged(interface, link, octets):
    """An untagged Ethernet frame of another interface than the first, with its number as the VLAN."""
    if interface == 0 or link != ETHERNET or octets[12:14] == TAG:
        return octets
    return octets[:12] + TAG + interface.to_bytes(2, "big") + octets[12:]


def instance_in(header):
    """The instance of a LISP header."""
    return int.from_bytes(header[4:7], "big") if header[0] & 8 else 0


class Settings:
    """What settings tell of a frame alone."""

    def __init__(self, octets):
        top = tomllib.loads(octets.decode())
        self.own = {address_of(ipaddress.ip_address(table["address"]).packed) for table in top.get("locator", [])}
        self.instances = {table["vlan"]: table["iid"] for table in top.get("attachment", [])}

    def contradicts(self, verdict, frame):
        """What of a frame can't be so by these settings if a verdict is its own, or nothing."""
        kind, drop, packet = verdict.kind, verdict.drop, frame.packet
        if packet is None or drop == 1:
            return "" if drop == 1 else "it has no IP packet"
        if (packet.source in self.own) != (kind == "own"):
            return f"its source is {packet.source}"
        if kind == "own":
            return ""
        arrives = packet.dest in self.own
        if arrives != (drop in ARRIVING if drop else kind == "delivered" or kind.startswith("control")):
            if drop != 9:
                return f"its destination is {packet.dest}"
        if not arrives and (frame.vlan in self.instances) != (drop != 10):
            return f"its VLAN is {frame.vlan}"
        return ""


def contradiction(verdict, frame, settings):
    """What of a frame can't be so if a verdict is its own, or nothing."""
    packet = frame.packet
    if verdict.kind == "delivered" and packet is not None:
        if packet.kind != TUNNEL or instance_in(packet.header) != int(verdict.values[0]):
            return f"it isn't a tunnel packet of instance {verdict.values[0]}"
    if packet is None and verdict.drop != 1:
        return "it has no IP packet"
    return settings.contradicts(verdict, frame) if settings else ""

"""What a frame and its packet are, field by field."""
from lisp import ECHO, INSTANCE, NONCE, STATUS, VERSIONS, header_of
from wire import Packet, Refused, link_payload, number

from explaining.texts import address, counted, family, octets_text

PROTOCOLS = {1: "ICMP", 2: "IGMP", 4: "IPv4 in IP", 6: "TCP", 17: "UDP", 41: "IPv6 in IP", 47: "GRE", 50: "ESP",
             58: "ICMPv6", 89: "OSPF", 132: "SCTP"}
MARKS = ("Not-ECT", "ECT(1)", "ECT(0)", "CE")
ETHERNET, TAG = 1, 0x8100


def link_text(frame):
    """The link of a frame, and which part of the capture's frame it is."""
    octets = frame.octets
    if frame.link != ETHERNET:
        text = "raw IP"
    elif number(octets, 12, 2) == TAG and len(octets) >= 16:
        text = f"Ethernet with a tag of VLAN {number(octets, 14, 2) & 0xFFF}"
    else:
        text = "Ethernet without a tag"
    text += f", {counted(len(octets), 'octet')}"
    if frame.half:
        text += f"; half {frame.half} of frame {frame.whole} of the capture, which was split (RFC 9300, section 7.1)"
    elif frame.whole != frame.number:
        text += f"; frame {frame.whole} of the capture"
    return text


def marks_text(tos):
    return f"DSCP {tos >> 2}, ECN {MARKS[tos & 3]}"


def has_ports(packet):
    return packet.protocol in (6, 17) and not packet.fragment and len(packet.octets) >= packet.at + 4


def ports_of(packet):
    return number(packet.octets, packet.at, 2), number(packet.octets, packet.at + 2, 2)


def packet_text(packet):
    """A packet's addresses, protocol, ports, hops and marks."""
    protocol = PROTOCOLS.get(packet.protocol, f"protocol {packet.protocol}")
    text = f"{family(len(packet.source))} {address(packet.source)} > {address(packet.dest)}, {protocol}"
    if has_ports(packet):
        source, dest = ports_of(packet)
        text += f" port {source} > {dest}"
    hops = "TTL" if len(packet.source) == 4 else "Hop Limit"
    fragment = ", a fragment" if packet.fragment else ""
    return (f"{text}, {hops} {packet.ttl}, {marks_text(packet.tos)}, "
            f"{counted(len(packet.octets), 'octet')}{fragment}")


def lisp_text(octets):
    """A LISP header: its octets, and what its flags say of them."""
    header, first, last = header_of(octets), octets[0], number(octets, 4, 4)
    parts = []
    if first & NONCE:
        parts.append(f"N: nonce {header.nonce:06x}" + (", E: an echo of it is asked for" if header.echo else ""))
    elif first & VERSIONS:
        parts.append(f"V: source Map-Version {header.source_version}, destination Map-Version {header.dest_version}")
    if first & ECHO and not first & NONCE:
        parts.append("E without N, which says nothing")
    if first & STATUS:
        parts.append(f"L: Locator-Status-Bits {header.status:0{header.width // 4}x}")
    parts.append(f"I: instance {header.iid}" if first & INSTANCE else "no I: instance 0")
    if first & 3:
        parts.append(f"KK {first & 3}: the packet inside is encrypted")
    return f"{octets_text(octets[:8])}: {'; '.join(parts)}"


def parsed(link, octets):
    """The VLAN and the packet of a frame, or None where a rule of the link or of IP refuses it."""
    try:
        vlan, place, rest = link_payload(link, octets)
        return vlan, Packet(rest, place)
    except Refused:
        return None


def sent_lines(octets):
    """A packet that is sent: of one into a tunnel its headers, of any other its addresses."""
    packet = Packet(octets, 0)
    lines = [packet_text(packet)]
    if packet.protocol == 17 and not packet.fragment and ports_of(packet)[1] == 4341:
        payload = packet.octets[packet.at + 8:]
        lines.append(f"LISP header {lisp_text(payload)}")
        lines.append(f"inside {packet_text(Packet(payload[8:], 0))}")
    return lines

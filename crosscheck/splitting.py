"""Large IPv4 packets in two, before they come to a tunnel (RFC 9300, section 7.1; RFC 791), as docs/BEHAVIOUR.md says."""
import struct

from messages import Eid
from router import is_group
from wire import Packet, Refused, link_payload, number, ones_sum

DONT_FRAGMENT, MORE_FRAGMENTS, OFFSET = 0x4000, 0x2000, 0x1FFF
MOST_OFFSET = 8191
# Options: the two of one octet, and the bit of the types that each fragment has.
END, NOTHING, COPIED = 0, 1, 0x80


def split_size(site):
    """The most octets of a packet that needn't be split: a tunnel packet of 1,500 over the larger outer header."""
    return 1444 if any(len(own.address) == 16 for own in site.locators) else 1464


def options_of(octets):
    """The options up to the end of the list, or None where one isn't well-formed."""
    options, at = [], 0
    while at < len(octets) and octets[at] != END:
        size = 1
        if octets[at] != NOTHING:
            if at + 1 == len(octets) or not 2 <= octets[at + 1] <= len(octets) - at:
                return None
            size = octets[at + 1]
        options.append(octets[at:at + size])
        at += size
    return options


def leaves(site, vlan, packet):
    """Whether a packet leaves the site, so that a mapping is looked for."""
    if site.is_own(packet.source) or site.is_own(packet.dest) or vlan not in site.attachments:
        return False
    iid = site.attachments[vlan]
    is_away = not is_group(packet.dest) and not site.has_home(iid, packet.dest)
    return is_away and site.home(Eid.host(iid, packet.source)) is not None


def fragment(header, options, field, payload):
    """A packet with the fields of a header, but for its options, its flags and offset, its length and its checksum."""
    options += bytes(-len(options) % 4)
    at = 20 + len(options)
    front = struct.pack(">BBHHHBBH", 0x40 | at // 4, header[1], at + len(payload), number(header, 4, 2), field,
                        header[8], header[9], 0) + header[12:20] + options
    return front[:10] + struct.pack(">H", 0xFFFF - ones_sum(front)) + front[12:] + payload


def packet_halves(octets, at):
    """The two halves of an IPv4 packet with a header of so many octets, or None where it can't have any."""
    field, options = number(octets, 6, 2), options_of(octets[20:at])
    first = 8 * -(-(len(octets) - at) // 16)
    if field & DONT_FRAGMENT or options is None or (field & OFFSET) + first // 8 > MOST_OFFSET:
        return None
    copied = b"".join(option for option in options if option[0] & COPIED)
    return (fragment(octets, octets[20:at], field | MORE_FRAGMENTS, octets[at:at + first]),
            fragment(octets, copied, field + first // 8, octets[at + first:]))


def halves(site, link, frame):
    """The two frames that a frame is replaced by, or None where it stays."""
    try:
        vlan, place, octets = link_payload(link, frame)
        packet = Packet(octets, place)
    except Refused:
        return None
    if len(packet.source) != 4 or len(packet.octets) <= split_size(site) or not leaves(site, vlan, packet):
        return None
    pair = packet_halves(packet.octets, packet.at)
    return pair and tuple(frame[:place] + half for half in pair)


def split_all(site, frames):
    """The frames with their moments and link layers, each replaced by its halves where it has some."""
    for moment, link, frame in frames:
        for one in halves(site, link, frame) or [frame]:
            yield moment, link, one

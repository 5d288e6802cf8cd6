"""A frame explained: what it is, which rule settled it, and all that the rule rests on."""
from wire import Packet, Refused, link_payload, number, ones_sum

from explaining import control, leaving, tunnels
from explaining.entries import entry_text
from explaining.packets import link_text, packet_text, parsed, ports_of, sent_lines
from explaining.rules import FIELDS, rule_text
from explaining.texts import counted, labelled, octets_text, seconds, utc

AROUND = 8


class Scene:
    """A frame before the router, whose journal is as it was before the frame; then taken, once."""

    def __init__(self, play, step):
        play.work(step)
        self.play, self.step = play, step
        self.moment, self.verdict = step.frame.moment, step.line.verdict
        self.taken = self.asked = None

    def take(self):
        if self.taken is None:
            self.taken = self.play.take(self.step)
        return self.taken


# Refused frames.


def bases(frame):
    """Where the packet of a frame begins, and one inside that packet, of a tunnel or of a message."""
    try:
        _, place, octets = link_payload(frame.link, frame.octets)
        yield place
        behind = place + Packet(octets, place).at + 8
    except Refused:
        return
    yield from (base for base in (behind + 8, behind + 4) if base < len(frame.octets))


def wrong_value(frame, layer, place, why):
    """What stands in a field beside what should, where that is one number."""
    octets = frame.octets
    if (layer, why) == ("ip", "checksum"):
        start = place - 10
        header = octets[start:start + 4 * (octets[start] & 15)]
        right = 0xFFFF - ones_sum(header[:10] + bytes(2) + header[12:])
        return [f"the header's sum would be {right:04x}"]
    if (layer, why) == ("ip", "total-length"):
        start = next(base for base in bases(frame) if place - base == {4: 2, 6: 4}.get(octets[base] >> 4))
        header = 40 if octets[start] >> 4 == 6 else 0
        return [f"it says {counted(header + number(octets, place, 2), 'octet')} of packet, and the frame has "
                f"{counted(len(octets) - start, 'octet')} there"]
    if (layer, why) == ("udp", "udp-checksum"):
        return ["where the capturing machine sent the packet itself, checksum offload may be the cause"]
    return []


def refusal_sections(scene):
    """The octets at the place of a refusal, and the field that they are."""
    layer, place, why = scene.verdict.split(" ")[3:6]
    octets, at = scene.step.frame.octets, int(place)
    field, size, section = FIELDS[layer, why]
    there = octets[at:at + size]
    lines = [f"octet {at} of the frame, counted from 0: {field} ({section})",
             f"there stands {octets_text(there)}" if there else
             f"the frame ends there, behind {counted(len(octets), 'octet')}"]
    if why == "short" and there:
        lines.append(f"the frame's octets or those of its datagram end too soon for it: the frame has "
                     f"{counted(len(octets), 'octet')}")
    yield "field", lines + wrong_value(scene.step.frame, layer, at, why)
    start = max(0, at - AROUND)
    yield "octets", [f"{start:04x}  {octets_text(octets[start:start + 2 * AROUND])}"]


# All frames.


def course(scene):
    """The sections of a frame behind those of its link and packet."""
    frame, site = scene.step.frame, scene.play.site
    found = parsed(frame.link, frame.octets)
    if found:
        vlan, packet = found
        yield "packet", [packet_text(packet)]
        if not site.is_own(packet.source) and not site.is_own(packet.dest):
            yield from leaving.sections(scene, vlan, packet)
        elif not site.is_own(packet.source) and is_datagram(packet):
            yield from tunnels.sections(scene, packet) if ports_of(packet)[1] == 4341 else control_sections(scene, packet)
    if scene.verdict.startswith("drop 1 refused"):
        yield from refusal_sections(scene)


def is_datagram(packet):
    return packet.protocol == 17 and not packet.fragment and len(packet.octets) >= packet.at + 8


def control_sections(scene, packet):
    return control.sections(scene, packet) if 4342 in ports_of(packet) else ()


def sent_sections(scene):
    """The packets that are sent for a frame."""
    is_tunnel = scene.verdict.startswith("encapsulated")
    for i, octets in enumerate(scene.taken.packets):
        yield "sends", sent_lines(octets) if is_tunnel and i == 0 else [packet_text(Packet(octets, 0))]


def known_section(scene):
    """What `n=` of the line counts: the entries before the frame, of which the last one is told."""
    play, known = scene.play, scene.step.line.known
    if not known:
        return "n=0", ["the journal had no entry before the frame"]
    return f"n={known}", [f"the journal had {counted(known, 'entry', 'entries')} before the frame, the last one of "
                          f"{play.made_by(known - 1)}: {entry_text(play.journal[known - 1])}"]


def entries_section(scene):
    first = scene.taken.first
    lines = [f"{i}: {entry_text(entry)}" for i, entry in enumerate(scene.play.journal[first:], first + 1)]
    return "journal", lines or ["the frame adds no entry"]


def sections(play, step):
    """The sections of a frame, each a label and its lines. The frame is taken by the router."""
    scene = Scene(play, step)
    try:
        found = list(course(scene))
    finally:
        # Where the plain router says otherwise, that is told and no fault of the sections.
        scene.take()
    return [
        ("time", [f"{utc(scene.moment)}, {seconds(scene.moment)} s"]),
        ("frame", [link_text(step.frame)]),
        ("settled", [rule_text(scene.verdict)]),
        *found, *sent_sections(scene), known_section(scene), entries_section(scene)]


def explained(play, step):
    """The lines that explain a frame; the first one is the proved program's own."""
    lines = [step.line.text]
    for label, told in sections(play, step):
        lines += labelled(label, told)
    return lines

"""Packets to the router's own locators on port 4341: what comes out of a tunnel, or why nothing does."""
from journal import MOST_ECHOES, SOLICITED, Solicited
from lisp import ECHO, NONCE, header_of, is_ahead, newer
from messages import Eid
from wire import Packet, Refused

from explaining.leaving import site_line
from explaining.mappings import mapping_lines
from explaining.packets import MARKS, lisp_text, packet_text
from explaining.requests import wanting
from explaining.texts import address, family, placed


def payload_of(packet):
    """What stands behind the UDP header."""
    return packet.octets[packet.at + 8:]


def version_lines(site, header, home, known):
    """The Map-Versions of a tunnel header beside those that are known."""
    lines = []
    if header.dest_version:
        lines.append(f"destination Map-Version {header.dest_version}; the site's {placed(home)} has "
                     f"{site.versions[home] or 'none'}")
    if header.source_version and known:
        lines.append(f"source Map-Version {header.source_version}; the mapping of the source has "
                     f"{known.mapping.version or 'none'}")
    return lines


def bits_lines(play, header, known, outer, moment):
    """What the status bits of a tunnel packet tell."""
    if header.status is None:
        return []
    if not known:
        return ["the Locator-Status-Bits tell nothing: the source has no mapping"]
    mapping = known.mapping
    if all(locator.address != outer for locator in mapping.locators):
        return [f"the Locator-Status-Bits tell nothing: {address(outer)} is no locator of {placed(mapping.eid)}"]
    up = play.journal.status(mapping.eid)[:header.width]
    told = [header.status >> i & 1 == 1 for i in range(len(up))]
    if told == up:
        return ["the Locator-Status-Bits tell nothing new"]
    news = [f"{address(locator.address)} is {'up' if now else 'down'}"
            for locator, before, now in zip(mapping.locators, up, told) if before != now]
    return [f"the Locator-Status-Bits tell that {', '.join(news)} (RFC 9300, section 10)"]


def nonce_lines(play, octets, header, outer, moment):
    """What the nonce of a tunnel packet, or none, tells of echoes."""
    if octets[0] & NONCE and octets[0] & ECHO:
        return [f"{address(outer)} wants to see the nonce {header.nonce:06x} within 2 s (RFC 9300, section 10.1)"]
    echo = play.journal.echo_on(moment, outer)
    if not echo:
        return []
    asked = f"the echo of {echo.start.nonce:06x} that it is asked for since {play.maker(echo.start)}"
    if header.nonce == echo.start.nonce:
        return [f"{address(outer)} gives {asked}"]
    return [f"{address(outer)} sends a packet without {asked}"]


def old_lines(play, header, home, outer, moment):
    """What is done where the sender of a packet knows an old version of the site's prefix."""
    if header.dest_version == 0 or not newer(play.site.versions[home], header.dest_version):
        return []
    text = f"{address(outer)} knows an old version of {placed(home)} (RFC 9302, section 7.1): "
    if play.site.ours(len(outer)) is None:
        return [text + f"no SMR goes to it, since no own locator of {family(len(outer))} is up"]
    if play.journal.may_solicit(moment, [(outer, home)]):
        return [text + "an SMR goes to it"]
    made = play.journal.younger(Solicited, SOLICITED, moment)
    last = next((entry for entry in reversed(made) if (entry.address, entry.eid) == (outer, home)), None)
    return [text + (f"no SMR goes to it, since one did at {play.maker(last)}, less than 10 s before" if last else
                    f"no SMR goes to it, since {MOST_ECHOES:,} went out within 10 s")]


def newer_lines(play, header, known, moment):
    """What is done where the sender of a packet has a newer version of its own prefix than was learned."""
    if not known or known.fixed or not is_ahead(header.source_version, known.mapping.version):
        return []
    why = wanting(play, known.mapping.eid, moment)
    return [f"the site of {placed(known.mapping.eid)} has a newer version (RFC 9302, section 7.2): "
            + (why or "a Map-Request for it goes to the resolver")]


def told_lines(scene, octets, header, home, known, outer):
    """What a delivered packet tells the router."""
    play, moment = scene.play, scene.moment
    return (bits_lines(play, header, known, outer, moment) + nonce_lines(play, octets, header, outer, moment)
            + old_lines(play, header, home, outer, moment) + newer_lines(play, header, known, moment) or ["nothing"])


def sections(scene, packet):
    """What a tunnel packet meets, in the order in which it is judged."""
    octets = payload_of(packet)
    if len(octets) < 8:
        return
    yield "LISP", [lisp_text(octets)]
    if octets[0] & 3:
        return
    try:
        inner = Packet(octets[8:], packet.base + packet.at + 16)
    except Refused:
        return
    yield "inside", [packet_text(inner)]
    site, header, moment = scene.play.site, header_of(octets), scene.moment
    yield "site", [site_line(site, header.iid, "inner destination", inner.dest)]
    home = site.home(Eid.host(header.iid, inner.dest))
    if home is None:
        return
    known = scene.play.journal.in_force(moment, Eid.host(header.iid, inner.source))
    if known:
        yield "source", ["mapping of the inner source:", *mapping_lines(scene.play, known, moment)]
    else:
        yield "source", [f"no mapping covers the inner source {address(inner.source)}"]
    versions = version_lines(site, header, home, known)
    if versions:
        yield "versions", versions
    if scene.verdict.startswith(("drop 6", "drop 7")):
        return
    yield "marks", [f"ECN {MARKS[inner.tos & 3]} inside and {MARKS[packet.tos & 3]} outside; hops {inner.ttl} inside and "
                    f"{packet.ttl} outside, of which the lesser counts"]
    if scene.verdict.startswith("delivered"):
        yield "tells", told_lines(scene, octets, header, home, known, packet.source)

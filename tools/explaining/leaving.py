"""Packets from the site: their instance, mapping, locators and tunnel, or why they go nowhere."""
from choice import chosen, flow_hash
from messages import Eid
from router import is_group

from explaining.mappings import gone_text, mapping_lines, origin, state_lines, states
from explaining.packets import has_ports, ports_of
from explaining.requests import earlier, wanting
from explaining.texts import address, counted, family, placed, prefix

MOST, LISTED, LISP_PORTS = 1500, 6, (4341, 4342)


def listed(texts):
    """Some texts in a row, of many the first ones."""
    texts = list(texts)
    return ", ".join(texts[:LISTED]) + (f" and {len(texts) - LISTED:,} more" if len(texts) > LISTED else "")


def instance_lines(site, vlan):
    """The instance of a VLAN, or which VLANs have one."""
    if vlan in site.attachments:
        return [f"{site.attachments[vlan]}, by the attachment of VLAN {vlan}" + " (no tag)" * (vlan == 0)]
    vlans = listed(str(one) for one in sorted(site.attachments))
    return [f"none: no attachment names VLAN {vlan}" + " (no tag)" * (vlan == 0)
            + (f"; those of the settings name {vlans}" if vlans else "; the settings have none")]


def site_line(site, iid, what, octets):
    """Whether an address of an instance is in an EID prefix of the site, and else which prefixes there are."""
    home = site.home(Eid.host(iid, octets))
    if home:
        return f"the {what} {address(octets)} is in the site's EID prefix {placed(home)}"
    own = listed(prefix(eid) for eid in site.databases if eid.iid == iid)
    others = listed(placed(eid) for eid in site.databases if eid.iid != iid and eid.covers(Eid.host(eid.iid, octets)))
    text = f"the {what} {address(octets)} is in no EID prefix of instance {iid}" + (f", which has {own}" if own else "")
    return text + (f"; in another instance there is {others}" if others else "")


# A miss.


def common_bits(eid, other):
    """How many of the first bits of two EIDs' addresses are the same."""
    return min(eid.width - (eid.address ^ other.address).bit_length(), eid.length, other.length)


def nearest_lines(play, eid, moment):
    """The mappings that are nearest to an EID that none covers: of other instances, ended ones, and a neighbour."""
    learned, lines = play.journal.learned(), []
    for iid in sorted({one.iid for one in learned} - {eid.iid}):
        entry = play.journal.in_force(moment, eid._replace(iid=iid))
        if entry:
            vlans = listed(str(vlan) for vlan, one in sorted(play.site.attachments.items()) if one == iid)
            lines.append(f"in another instance: {placed(entry.mapping.eid)}, {origin(play, entry)}; "
                         + (f"of that instance is VLAN {vlans}" if vlans else "no VLAN is of that instance"))
    covering = [entry for one, entry in learned.items() if one.covers(eid)]
    lines += [gone_text(play, entry, moment) for entry in sorted(covering, key=lambda entry: -entry.mapping.eid.length)]
    alive = [one for one in play.journal.live(moment).values()
             if (one.mapping.eid.iid, one.mapping.eid.width) == (eid.iid, eid.width)]
    near = max(alive, key=lambda one: common_bits(one.mapping.eid, eid), default=None)
    bits = common_bits(near.mapping.eid, eid) if near else 0
    if bits:
        lines.append(f"nearest of its instance: {placed(near.mapping.eid)}, {origin(play, near)}, which has the first "
                     f"{counted(bits, 'bit')} of the destination and not all of its own {near.mapping.eid.length}")
    return lines or [f"the map-cache has no mapping of instance {eid.iid} and {family(eid.width // 8)}"]


def miss_sections(play, eid, moment):
    yield "mapping", [f"none that is in force covers {placed(eid)}"]
    yield "nearest", nearest_lines(play, eid, moment)
    yield "request", request_lines(play, eid, moment)


def request_lines(play, eid, moment):
    """Whether a Map-Request is made for an EID, and what became of the last ones."""
    text = f"a Map-Request for {placed(eid)} goes to the resolver {address(play.site.resolver or bytes(4))}"
    return [wanting(play, eid, moment) or text, *earlier(play, eid, moment)]


# A mapping.


def flow_text(packet, value):
    ports = f", ports {' > '.join(map(str, ports_of(packet)))}" if has_ports(packet) else ", without ports"
    return (f"the flow {address(packet.source)} > {address(packet.dest)}, protocol {packet.protocol}{ports} has the "
            f"hash {value:08x} (RFC 9300, section 12)")


def choice_lines(packet, found, locator):
    """The hash of a packet, and the locator that it chooses."""
    value = flow_hash(packet)
    state = next(state for state in found if state.locator == locator and state.whole)
    at, last = value % state.whole, state.first + state.part - 1
    span = f"share {state.first}" if state.part == 1 else f"the shares {state.first} to {last}"
    if state.whole == 1:
        return [flow_text(packet, value), f"{address(locator.address)} alone can be used of its priority"]
    return [flow_text(packet, value),
            f"it is {at} modulo {state.whole}, and {address(locator.address)} has {span} of {state.whole}, counted from 0"]


def header_lines(play, to, moment):
    """Why the header of a tunnel packet has a nonce or an echo."""
    wish, echo = play.journal.wanted(moment, to), play.journal.echo_on(moment, to)
    if wish is not None:
        return [f"N gives back the nonce {wish:06x}, which {address(to)} wants to see (RFC 9300, section 10.1)"]
    if echo:
        return [f"N and E ask {address(to)} to echo {echo.start.nonce:06x}, since {play.maker(echo.start)} (RFC 9300, "
                "section 10.1)"]
    return []


def mapped_sections(scene, entry, packet):
    """The mapping of a packet, its locators, the choice, and what goes out."""
    play, moment = scene.play, scene.moment
    yield "mapping", mapping_lines(play, entry, moment)
    if not entry.mapping.locators:
        if entry.mapping.action == 2:
            yield "request", request_lines(play, Eid.host(entry.mapping.eid.iid, packet.dest), moment)
        return
    found = states(play, entry, moment)
    yield "locators", state_lines(found)
    locator = chosen([state.locator for state in found if not state.why_not], flow_hash(packet))
    if locator is None:
        return
    yield "choice", choice_lines(packet, found, locator)
    lines = header_lines(play, locator.address, moment)
    if lines and scene.verdict.startswith("encapsulated"):
        yield "header", lines
    size = (36 if len(locator.address) == 4 else 56) + len(packet.octets)
    if scene.verdict.startswith("drop 20"):
        yield "size", [f"{counted(len(packet.octets), 'octet')} and the {size - len(packet.octets)} of the tunnel's "
                       f"headers over {family(len(locator.address))} are {size:,}, more than {MOST:,}; "
                       f"{MOST - size + len(packet.octets):,} fit"]


def lisp_lines(site, packet):
    """That a packet to a LISP port isn't to the router."""
    if packet.protocol != 17 or not has_ports(packet) or ports_of(packet)[1] not in LISP_PORTS:
        return []
    own = listed(address(one.address) for one in site.locators)
    return [f"{address(packet.dest)}, to whose UDP port {ports_of(packet)[1]} the packet goes, is no own locator, as {own} "
            f"{'is' if len(site.locators) == 1 else 'are'}; so the packet is taken for one of the site"]


def sections(scene, vlan, packet):
    """What a packet of the site meets, in the order in which it is judged."""
    play, site, moment = scene.play, scene.play.site, scene.moment
    lines = lisp_lines(site, packet)
    if lines:
        yield "to", lines
    yield "instance", instance_lines(site, vlan)
    iid = site.attachments.get(vlan)
    if iid is None:
        return
    if is_group(packet.dest):
        yield "group", [f"{address(packet.dest)} is a multicast address or 255.255.255.255"]
        return
    if site.has_home(iid, packet.dest):
        yield "site", [site_line(site, iid, "destination", packet.dest)]
        return
    yield "site", [site_line(site, iid, "source", packet.source)]
    if not site.has_home(iid, packet.source):
        return
    eid = Eid.host(iid, packet.dest)
    entry = play.journal.in_force(moment, eid)
    yield from miss_sections(play, eid, moment) if entry is None else mapped_sections(scene, entry, packet)
    if packet.ttl <= 1 and scene.verdict.startswith("drop 9"):
        yield "hops", [f"TTL or Hop Limit is {packet.ttl}, and would be 0 or less on the next hop"]

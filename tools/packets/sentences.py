"""What became of a frame, as a sentence with its addresses: the line of the report in words."""
import functools

from frames import instance_in
from layers import address_of
from reading import NONCES, eids_of

MOST_EIDS = 3
# Of packets that leave the site: what is wrong, in which the EID with its instance may stand.
LEAVING = {
    9: "its hops ended on the way to {eid}", 10: "its VLAN, {vlan}, has no instance",
    11: "its destination {dst} is a group",
    12: "its source {src} is in no prefix of the site{within}", 13: "no mapping covers {eid}",
    14: "the mapping of {eid} has no locators, and action 0",
    15: "the mapping of {eid} has no locators, and the action to send a request",
    16: "the mapping of {eid} has no locators, and the action to drop",
    17: "the mapping of {eid} has no locators, and drops by policy",
    18: "the mapping of {eid} has no locators, since authentication failed",
    19: "no locator of the mapping of {eid} can be used",
    20: "to {eid} the tunnel packet would have more than 1,500 octets"}
# Of packets to an own locator.
ARRIVING = {
    2: "it came to own locator {dst}, and is no LISP", 3: "it came to own locator {dst}, and is an IPv4 fragment",
    4: "the key bits of its LISP header aren't 0", 5: "{inner} is in no prefix of the site",
    6: "its destination version is newer than that of the site's prefix for {inner}",
    7: "its source version is older than that of the mapping of its source {inner_source}",
    8: "the mark of congestion of its tunnel can't be carried by the packet to {inner}",
    9: "its hops ended on the way to {inner}",
    21: "its nonce {nonce} is of no open request and of no open probe",
    22: "no record covers what request {nonce} asked for",
    23: "the probe {nonce} went to another locator than {src}", 24: "no reply address of it can be reached",
    25: "a Map-Reply in an encapsulated message"}
WHY = {
    "short": "the octets end too soon", "ethertype": "neither IPv4 nor IPv6", "version": "neither IPv4 nor IPv6",
    "header-length": "a wrong header length", "total-length": "a wrong total length", "checksum": "a wrong checksum",
    "udp-length": "a wrong length", "udp-checksum": "a wrong checksum", "afi": "an AFI that can't stand there",
    "mask-length": "a mask length that its address doesn't have", "lcaf-type": "another LCAF type than 2",
    "lcaf-length": "a wrong LCAF length", "instance-too-large": "an instance of more than 24 bits",
    "message-type": "a type that isn't read", "authenticated": "the S bit of LISP-SEC",
    "inner-protocol": "no UDP inside, or a fragment", "inner-port": "a port inside that isn't 4342"}


def plural(number, word):
    return f"{int(number):,} {word}" + ("" if int(number) == 1 else "s")


def eid_text(iid, address):
    return f"EID {address}" + ("" if iid is None else f" of instance {iid}")


def eids_text(reading):
    """The EIDs of a message, the first few of many."""
    eids = [(eid.partition(" ")) for eid in eids_of(reading)]
    texts = [eid_text(iid, address) for iid, _, address in eids[:MOST_EIDS]]
    return ", ".join(texts) + (f" and {len(eids) - MOST_EIDS} more" if len(eids) > MOST_EIDS else "") or "no EID"


# What may stand in a sentence, by its word: it is made of the packet, its VLAN, and the instance of that, or None.
WORDS = {
    "vlan": lambda packet, vlan, iid: vlan,
    "src": lambda packet, vlan, iid: packet.source, "dst": lambda packet, vlan, iid: packet.dest,
    "eid": lambda packet, vlan, iid: eid_text(iid, packet.dest),
    "within": lambda packet, vlan, iid: "" if iid is None else f" in instance {iid}",
    "inner": lambda packet, vlan, iid: inner_text(packet),
    "inner_source": lambda packet, vlan, iid: (
        eid_text(instance_in(packet.header), packet.inner_source) if packet.header else "EID"),
    "nonce": lambda packet, vlan, iid: packet.field(NONCES.get(packet.kind)) or "unknown"}


def inner_text(packet):
    """The EID inside a tunnel packet, or the EIDs of a message."""
    if packet.header:
        return eid_text(instance_in(packet.header), packet.inner_dest)
    return eids_text(packet.message) if packet.message else "its EID"


class Words(dict):
    """What may stand in a sentence of a frame, made where it is asked for."""

    def __init__(self, frame, settings):
        self.packet, self.vlan = frame.packet, frame.vlan
        self.iid = settings.instances.get(frame.vlan) if settings else None

    def __missing__(self, word):
        self[word] = text = WORDS[word](self.packet, self.vlan, self.iid)
        return text


def drop_sentence(verdict, words, has_come):
    number, word, layer, place, why = verdict.values
    if verdict.drop == 1:
        return f"drop 1 refused: {WHY.get(why, why)}, by the rules of {layer}, at octet {place} of the frame ({why})"
    table = ARRIVING if has_come else LEAVING
    reason = table[verdict.drop].format_map(words)
    came = f", from locator {words['src']}" if has_come and verdict.drop in range(4, 10) else ""
    came = f", in a message from {words['src']}" if has_come and verdict.drop in (21, 22, 24, 25) else came
    return f"drop {number} {word}: {reason}{came}"


def locators_text(record):
    return ", ".join(item.value for item in record.items) or "no locator"


def records_text(reading):
    """The records of a Map-Reply with their locators, the first few of many."""
    records = [item for item in reading.items if item.layer == "record"]
    texts = []
    for record in records[:MOST_EIDS]:
        iid, _, address = record.value.partition(" ")
        texts.append(f"{eid_text(iid, address)} by {locators_text(record)}")
    return "; ".join(texts) + (f"; and {len(records) - MOST_EIDS} more" if len(records) > MOST_EIDS else "")


@functools.lru_cache(4096)
def plain_address(text):
    """An address of a report, as RFC 5952 has it."""
    return address_of(bytes.fromhex(text.replace(":", ""))) if ":" in text else text


def encapsulated(verdict, words):
    came, to, port = verdict.values
    return f"{words['eid']} by locator {plain_address(to)}, from {plain_address(came)} port {port}"


def delivered(verdict, words):
    return f"{words['inner']}, from {words['inner_source']} by locator {words['src']}"


def replied(verdict, words):
    learned, passed = verdict.values
    return (f"Map-Reply from {words['src']} to request {words['nonce']}, {plural(learned, 'record')} learned, {passed} "
            f"passed over: {records_text(words.packet.message)}")


def requested(verdict, words):
    return (f"Map-Request from {words['src']} for {words['inner']} is answered by a Map-Reply of "
            f"{plural(verdict.values[0], 'record')}")


def solicited(verdict, words):
    return f"SMR from {words['src']} for {words['inner']}, {plural(verdict.values[0], 'mapping')} asked for again"


SENTENCES = {
    "own": lambda verdict, words: f"the router sent it itself, from {words['src']}",
    "local": lambda verdict, words: f"{words['eid']} is in the site",
    "native": lambda verdict, words: f"{words['eid']} is forwarded outside the tunnels, as its mapping says",
    "control probe-reply": lambda verdict, words: f"locator {words['src']} answered probe {words['nonce']}",
    "encapsulated": encapsulated, "delivered": delivered, "control reply": replied, "control request": requested,
    "control solicit": solicited}


def sentence_of(verdict, frame, settings):
    """The verdict of a frame as a sentence, which begins with the report's own words for it."""
    words = Words(frame, settings)
    if verdict.kind == "drop":
        has_come = verdict.drop in ARRIVING and (verdict.drop != 9 or arrives(frame, settings))
        return drop_sentence(verdict, words, has_come)
    return f"{verdict.kind}: {SENTENCES[verdict.kind](verdict, words)}"


def arrives(frame, settings):
    """Whether a frame comes to an own locator; without settings, whether it is a tunnel packet."""
    return frame.packet.dest in settings.own if settings else bool(frame.packet.header)

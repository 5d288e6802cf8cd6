"""A packet by what a sentence needs of it. Nothing else of its headers is read: a capture may have millions of packets."""
from typing import NamedTuple, Optional

from control import Message, message_inside
from layers import Unread, datagram_at, ends_of, is_whole
from reading import CONTROL_PORT, DATA_PORT, PLAIN, TUNNEL, eids_of

DATA, CONTROL = (port.to_bytes(2, "big") for port in (DATA_PORT, CONTROL_PORT))
# The most octets of a header of IP.
MOST_HEADER = 60


class Outline(NamedTuple):
    """What a packet is, and its addresses; of a tunnel packet its source port, its LISP header, and the addresses inside;
    of a control message its fields, and whether it is encapsulated."""
    kind: str
    source: str
    dest: str
    port: int = 0
    header: bytes = b""
    inner_source: str = ""
    inner_dest: str = ""
    message: Optional[Message] = None
    is_encapsulated: bool = False

    def field(self, name):
        """A field of a message, or None."""
        return self.message.fields.get(name) if self.message else None

    def described(self):
        """The packet in short."""
        ends = f"{self.source} > {self.dest}"
        if self.kind == TUNNEL:
            return f"{self.kind} {ends}, inside {self.inner_source} > {self.inner_dest}"
        if self.message is None:
            return f"{self.kind} {ends}"
        role = next((f" {word}" for word in ("probe", "smr") if self.field(f"request.{word}")), "")
        return f"{self.kind}{role} {ends}, EID {', '.join(eids_of(self.message)) or 'none'}"


def outline_of(packet):
    """The outline of a packet whose header of IP is whole."""
    source, dest = ends_of(packet)
    at = datagram_at(packet)
    if at is not None:
        ports = packet[at:at + 4]
        if ports[2:] == DATA:
            inner = packet[at + 16:at + 16 + MOST_HEADER]
            if is_whole(inner):
                port = int.from_bytes(ports[:2], "big")
                return Outline(TUNNEL, source, dest, port, packet[at + 8:at + 16], *ends_of(inner))
        elif ports[2:] == CONTROL or ports[:2] == CONTROL:
            return message_outline(source, dest, packet[at + 8:])
    return Outline(PLAIN, source, dest)


def message_outline(source, dest, payload):
    """The outline of what goes from or to the port of control messages; one that isn't whole is any packet."""
    try:
        message, is_encapsulated = message_inside(payload)
    except Unread:
        return Outline(PLAIN, source, dest)
    return Outline(message.kind, source, dest, message=message, is_encapsulated=is_encapsulated)

"""The frames for which the packets of an output were sent, by their order, their moments and what they carry.

An output has for each frame, in order, what was sent at the seconds up to its moment, and then what was sent for it.
"""
from collections import OrderedDict, deque

from layers import packet_in
from outline import outline_of
from reading import TUNNEL, eids_of
from sentences import plain_address

SECOND = 10**9
MOST_KNOWN = 100_000
REQUEST, REPLY = "Map-Request", "Map-Reply"
MISS, SEND = 13, 15


def request_of(packet):
    """What a Map-Request has in common with one that is sent again."""
    return packet.field("request.nonce"), packet.dest, eids_of(packet.message)


class Output:
    """The packets of an output, of which the next ones are looked at before they are taken."""

    def __init__(self, packets):
        self.packets, self.ahead, self.known = packets, deque(), OrderedDict()

    def look(self, place=0):
        """A packet ahead, as its moment and its outline, or None."""
        while len(self.ahead) <= place:
            packet = next(self.packets, None)
            if packet is None:
                return None
            self.ahead.append((packet.moment, outline_of(packet_in(packet.link, packet.octets)[1])))
        return self.ahead[place]

    def is_again(self, packet):
        """Whether a Map-Request was sent before; from now on it was."""
        if packet.kind != REQUEST:
            return False
        request = request_of(packet)
        again = request in self.known
        self.known[request] = True
        if len(self.known) > MOST_KNOWN:
            self.known.popitem(last=False)
        return again


def is_encapsulated(verdict, frame, packet):
    came, to, port = verdict.values
    return (packet.kind == TUNNEL and packet.port == int(port) and packet.source == plain_address(came)
            and packet.dest == plain_address(to) and packet.inner_source == frame.packet.source
            and packet.inner_dest == frame.packet.dest)


def is_inner(verdict, frame, packet):
    """Whether a packet is the one inside a frame's."""
    return packet.source == frame.packet.inner_source and packet.dest == frame.packet.inner_dest


def is_carried(verdict, frame, packet):
    """Whether a packet is that of a frame."""
    return packet.source == frame.packet.source and packet.dest == frame.packet.dest


def is_reply(verdict, frame, packet):
    return packet.kind == REPLY and packet.field("reply.nonce") == frame.packet.field("request.nonce")


def is_for_miss(verdict, frame, packet):
    """Whether a packet asks for the destination of a frame, encapsulated as all that ask are."""
    if not is_asking(verdict, frame, packet):
        return False
    asked = [item.value for item in packet.message.items if item.key == "eid"]
    return len(asked) == 1 and asked[0].split(" ")[1].partition("/")[0] == frame.packet.dest


def is_asking(verdict, frame, packet):
    return packet.kind == REQUEST and packet.is_encapsulated


def is_solicit(verdict, frame, packet):
    """Whether a packet tells the locator of a tunnel packet to ask again, or asks for its source."""
    is_told = packet.field("request.smr") and packet.dest == frame.packet.source
    return packet.kind == REQUEST and bool(is_told or is_asking(verdict, frame, packet))


# The packet that is sent for a verdict, as a test.
WANTED = {"encapsulated": is_encapsulated, "delivered": is_inner, "native": is_carried,
          "control request": is_reply}


class Origins:
    """For each packet of an output, in order, the verdict and frame that it was sent for, or None."""

    def __init__(self, output):
        self.output = output

    def take_until(self, moment):
        """The packets before a moment, which are of no frame that comes."""
        while (first := self.output.look()) and (moment is None or first[0] < moment):
            yield self.taken(None, None)

    def taken(self, verdict, frame):
        moment, packet = self.output.ahead.popleft()
        return moment, packet, self.output.is_again(packet), verdict, frame

    def place_of(self, verdict, frame, test):
        """How many packets ahead the first one at the moment of a frame is that a test takes, or None. What is sent
        again is of a second."""
        place = 0
        while (ahead := self.output.look(place)) and ahead[0] == verdict.moment:
            packet = ahead[1]
            may_be_again = verdict.moment % SECOND == 0 and packet.kind == REQUEST
            if test(verdict, frame, packet) and not (may_be_again and request_of(packet) in self.output.known):
                return place
            place += 1
        return None

    def take_first(self, verdict, frame, test):
        """The first packet that a test takes, behind those before it."""
        place = self.place_of(verdict, frame, test)
        if place is not None:
            for _ in range(place):
                yield self.taken(None, None)
            yield self.taken(verdict, frame)

    def take_for(self, verdict, frame):
        """The packets up to a frame's own, and these."""
        yield from self.take_until(verdict.moment)
        if verdict.kind in WANTED:
            yield from self.take_first(verdict, frame, WANTED[verdict.kind])
        if verdict.kind == "delivered":
            while self.place_of(verdict, frame, is_solicit) == 0:
                yield self.taken(verdict, frame)
        for _ in range(int(verdict.values[0]) if verdict.kind == "control solicit" else 0):
            yield from self.take_first(verdict, frame, is_asking)
        if verdict.drop in (MISS, SEND):
            yield from self.take_first(verdict, frame, is_for_miss)


def role_of(packet):
    """What a packet is, of a Map-Request also what for."""
    if packet.field("request.probe"):
        return "probe"
    return "SMR" if packet.field("request.smr") else packet.kind


def text_of(moment, packet, is_again, number, sentence):
    """Why a packet was sent."""
    if number is not None:
        return f"{role_of(packet)} for frame {number}: {sentence}"
    again = ", sent again" if is_again else ""
    at = f"second {moment // SECOND}" if moment % SECOND == 0 else f"moment {moment // SECOND}.{moment % SECOND:09}"
    return f"{role_of(packet)} at {at}{again}: {packet.described()}"

"""Which locator takes a packet: by priority, and by a hash of its flow that is shared out by weight."""


def hash_of(octets):
    """FNV-1a of 32 bits."""
    value = 0x811C9DC5
    for octet in octets:
        value = (value ^ octet) * 0x01000193 % 2**32
    return value


def flow_hash(packet):
    ports = bytes(4)
    if packet.protocol in (6, 17) and not packet.fragment and len(packet.octets) >= packet.at + 4:
        ports = packet.octets[packet.at:packet.at + 4]
    return hash_of(packet.source + packet.dest + bytes([packet.protocol]) + ports)


def chosen(usable, value):
    """Of the locators of least priority the one whose share by weight holds the value; None where none is usable."""
    least = min((locator.priority for locator in usable), default=None)
    first = [locator for locator in usable if locator.priority == least]
    if len({locator.weight for locator in first}) > 1:
        first = [locator for locator in first for _ in range(locator.weight)]
    return first[value % len(first)] if first else None

"""Settings and frames made from a number, half of them spoiled."""
import ipaddress
import struct

from limiting import limits
from sending import located
from wire import ones_sum

MAC = bytes.fromhex("0200000000010200000000ff")
OWN = ["192.0.2.1", "192.0.2.2", "2001:db8:f::1", "2001:db8:f::2"]
OTHERS = ["198.51.100.7", "198.51.100.8", "198.51.100.9", "2001:db8:e::7", "2001:db8:e::8"]
MANY = OTHERS + [f"198.51.100.{i}" for i in range(32, 56)] + [f"2001:db8:e::{i:x}" for i in range(32, 48)]
RESOLVERS = ["203.0.113.9", "2001:db8:9::9"]
HOMES = ["10.1.0.0/16", "10.1.2.0/24", "10.1.2.8/29", "10.1.9.0/24", "2001:db8:1::/48", "2001:db8:1:7::/64"]
AWAY = ["10.2.0.0/16", "10.2.9.0/24", "10.2.9.8/29", "10.0.0.0/8", "2001:db8:2::/48", "2001:db8::/32"]
# Instances, and VLANs beside 0.
IIDS, VLANS = [0, 7, 300, 301, 2**24 - 1], [5, 6, 7, 4095]
CROWD = MANY + [f"198.51.100.{i}" for i in range(64, 192)]
# How many locators a mapping has.
COUNTS = [0, 0, 1, 2, 3, 4, 6, 24]
# Of how many prefixes the changes behind the first seconds tell, mostly, each counted as often as it is told.
TOLD = 36


def raw(text):
    return ipaddress.ip_address(text).packed


def first_keys(r, up):
    """The keys in front of the tables; a resolver is mostly of a family that an own locator is up in."""
    lines = []
    families = [len(raw(address)) for address in up]
    resolvers = [text for text in RESOLVERS if len(raw(text)) in families or r.random() < 0.02]
    if resolvers and r.random() < 0.85:
        lines.append(f'resolver = "{r.choice(resolvers)}"')
    if r.random() < 0.5:
        lines.append(f'seed = "{r.randbytes(32).hex()}"')
    if r.random() < 0.3:
        lines.append(f"ttl = {r.choice([1, 60, r.randrange(1, 1 << 32), 2**32 - 2])}")
    if r.random() < 0.8:
        pool = [r.randbytes(8).hex() for _ in range(r.choice([2, 2000, 2000, 2000]))]
        nonces = [f'"{r.choice(pool)}"' for _ in range(r.choice([0, 1, 5, 100, 3000]))]
        lines.append(f"nonces = [{', '.join(nonces)}]")
    if r.random() < 0.6:
        lines.append(f"probe = {r.choice(['true'] * 5 + ['false'])}")
    if r.random() < 0.6:
        lines.append(f"echo = {r.choice(['true'] * 5 + ['false'])}")
    return lines


def version(r):
    """A line with a version, in about half."""
    return r.choice([[], [f"version = {r.choice([0, 1, 2, 2047, 2048, 2049, 4094, 4095, r.randrange(4096)])}"]])


def shares(r, count):
    """Priorities and weights, mostly of few kinds, so that several locators share what is sent."""
    priorities = r.choice([[1], [1], [0, 1], [0, 1, 2, 255], [0, 254, 255]])
    weights = r.choice([[0], [1], [100], [0, 1], [30, 20, 10], range(256)])
    return [(r.choice(priorities), r.choice(weights)) for _ in range(count)]


def attachments(r, iids):
    """The instance of each of some VLANs, mostly of all of these instances, or of all but the last."""
    vlans = ([0] if r.random() < 0.9 else []) + r.sample(VLANS, r.choice([1, 2, 3] if len(iids) < 3 else [2, 3, 4]))
    return {vlan: iids[i % len(iids)] if r.random() < 0.9 else r.choice(IIDS) for i, vlan in enumerate(vlans)}


def mapping(r, iid, prefix, pool, counts=COUNTS):
    yield from ["[[mapping]]", f"iid = {iid}", f'prefix = "{prefix}"', f"action = {r.choice([2, *range(8)])}"]
    yield from version(r)
    addresses = r.sample(pool + OWN[:1], min(len(pool) + 1, r.choice(counts)))
    for address, (priority, weight) in zip(addresses, shares(r, len(addresses))):
        yield from ["[[mapping.locator]]", f'address = "{address}"', f"priority = {priority}", f"weight = {weight}",
                    f"up = {r.choice(['true', 'true', 'false'])}"]


def crowd(r, iid):
    """Mappings that mostly name more locators than are told of a change, which is too many to be probed."""
    for i in range(r.choice([4, 5, 6])):
        yield from mapping(r, iid, f"10.2.{16 + i}.0/24", CROWD, [32])


def changes(r, owns, prefixes):
    """In most settings up to 20 changes of own locators: around the first frames, soon behind them, or never.

    Those around them tell of each of the site's prefixes once; the others may do so anew, so that there are mostly few
    of them where there are many prefixes.
    """
    start, found = 1_700_000_000, set()
    anew = 20 if r.random() < 0.05 else TOLD // max(1, prefixes)
    for i in range(r.choice([0, 0, 1, 2, 5, 20])):
        seconds = [r.randrange(-2, 3), r.randrange(8), r.randrange(60), r.randrange(700), 10**6]
        at = start + r.choice(seconds if i < anew else seconds[:2])
        found.update((at, address) for address in r.sample(owns, r.choice([1, 1, min(2, len(owns)), len(owns)])))
    found.update((r.choice([0, 2**32 - 1]), address) for address in owns[:1] if r.random() < 0.05)
    for at, address in r.sample(sorted(found), min(20, len(found))):
        yield from ["[[change]]", f"at = {at}", f'address = "{address}"',
                    f"up = {r.choice(['true', 'true', 'true', 'false'])}"]


def settings(r):
    """Settings of one to three instances, in half of them of two; or, in two fifths, of two to five, with limits."""
    lines, up, owns = [], [], r.sample(OWN, r.randint(1, 4))
    for address in owns:
        word = r.choice(["true", "true", "true", "false"])
        up += [address] if word == "true" else []
        lines += ["[[locator]]", f'address = "{address}"', f"up = {word}"]
        lines += r.choice([[], [f"priority = {r.randrange(256)}", f"weight = {r.randrange(256)}"]])
    keys = first_keys(r, up)
    is_limited = r.random() < 0.4
    iids, most = r.sample(IIDS, r.choice([2, 2, 3, 4, 5] if is_limited else [1, 2, 2, 3])), r.choice([0, 1, 6])
    pool, attached = r.choice([OTHERS, OTHERS, MANY]), attachments(r, iids)
    lines += [line for vlan, iid in attached.items() for line in ("[[attachment]]", f"vlan = {vlan}", f"iid = {iid}")]
    for iid in iids:
        for prefix in r.sample(HOMES, r.choice([0, 3, 4, 4, 5, 5, 6, 6, 6, 6])):
            lines += ["[[database]]", f"iid = {iid}", f'prefix = "{prefix}"', *version(r)]
        for prefix in r.sample(AWAY, r.randint(0, most)):
            lines += mapping(r, iid, prefix, pool)
    if r.random() < 0.05:
        keys = [line for line in keys if line != "probe = true"]
        lines += crowd(r, iids[0])
    lines += changes(r, owns, lines.count("[[database]]"))
    if is_limited:
        lines += limits(r, sorted(set(attached.values())), lines.count("[[mapping]]"))
    return "\n".join(keys + lines) + "\n"


WORDS = ["1", "-1", "0", "255", "256", "4095", "4096", "16777215", "16777216", "true", "false", "1.5", "[]", "{}",
         "[1]", '""', '"::"', '"::1"', '"1:2:3:4:5:6:7::"', '"1::2:3:4:5:6:7:8"', '"1:2:3:4:5:6:7:8"', '"::1.2.3.4"',
         '"1.2.3.04"', '"1.2.3.4"', '"1.2.3"', '"1.2.3.256"', '"10.1.2.3/16"', '"10.1.2.3/33"', '"10.1.2.3/016"',
         '"::/128"', '"::/129"', '"2001:DB8::/32"', '"12345::"', '"a::b::c"', '"192.0.2.1"', '"+1.2.3.4"', '"::1/+1"',
         '"' + "0aF" * 21 + "9" + '"', '"0123456789abcDEF"', '["0123456789abcdef", "0123456789abcdeg"]', "8", "7",
         "4294967295", "4294967296", "1024", "1025", "65536", "65537"]
KEYS, UNKNOWN = ["seed", "nonces", "resolver", "ttl", "probe", "echo", "limit"], ["seeds", "A"]
INNER = ["address", "priority", "weight", "up", "vlan", "iid", "prefix", "version", "action", "locator", "zone", "at",
         "mappings", "requests"]


def spoiled_settings(r):
    """Settings with some values of another kind, keys that aren't known, and items twice."""
    top = [f"{key} = {r.choice(WORDS)}" for key in r.sample(KEYS, r.choice([0, 0, 1, 2]))]
    if r.random() < 0.5 and not any(line.startswith("resolver") for line in top):
        top.append(f'resolver = "{r.choice(RESOLVERS)}"')
    top += [f"{key} = {r.choice(WORDS)}" for key in r.sample(UNKNOWN, r.choice([0] * 9 + [1, 2]))]
    blocks = ("\n" + settings(r)).split("\n[[")[1:]
    for _ in range(r.choice([0, 1, 1, 1, 2, 3])):
        at = r.randrange(len(blocks))
        lines = blocks[at].rstrip().split("\n")
        kind = r.randrange(5)
        if kind == 0:
            blocks.insert(at, blocks[at])
        elif kind == 1 and len(lines) > 1:
            del lines[r.randrange(1, len(lines))]
            blocks[at] = "\n".join(lines)
        elif kind == 2:
            key = r.choice(INNER)
            others = [line for line in lines if not line.startswith(key + " ")]
            blocks[at] = "\n".join([*others, f"{key} = {r.choice(WORDS)}"])
        elif len(lines) > 1:
            i = r.randrange(1, len(lines))
            lines[i] = lines[i].split(" = ")[0] + " = " + r.choice(WORDS)
            blocks[at] = "\n".join(lines)
    return "\n".join(top) + "\n" + "".join("[[" + block.rstrip() + "\n" for block in blocks)


def ip(r, source, dest, payload, protocol=17):
    ttl, tos = r.choice([0, 1, 2, 3, 64, 255]), r.choice([0, 1, 2, 3, 0xB9, 0xFF])
    if len(source) == 4:
        options = bytes([1]) * (4 * r.choice([0, 0, 0, 1, 10]))
        size = 20 + len(options) + len(payload)
        flags = r.choice([0, 0, 0, 0x4000, 0x2000, 5])
        first = 0x45 + len(options) // 4
        front = struct.pack(">BBHHHBBH", first, tos, size, r.randrange(65536), flags, ttl, protocol, 0)
        front += source + dest + options
        return front[:10] + struct.pack(">H", 0xFFFF - ones_sum(front)) + front[12:] + payload
    word = 6 << 28 | tos << 20 | r.randrange(1 << 20)
    return struct.pack(">IHBB", word, len(payload), protocol, ttl) + source + dest + payload


def udp(r, source, dest, payload, ports, summed=0.5):
    length = 8 + len(payload)
    datagram = struct.pack(">HHHH", *ports, length, 0) + payload
    if r.random() < summed:
        total = 0xFFFF - ones_sum(source + dest + struct.pack(">IHH", length, 0, 17) + datagram)
        datagram = datagram[:6] + struct.pack(">H", total or 0xFFFF) + payload
    return datagram + bytes(r.choice([0, 0, 0, 3]))


def host(r, prefixes):
    network = ipaddress.ip_network(r.choice(prefixes))
    return network[r.choice([0, 1, 9, 13]) % network.num_addresses].packed


def between(r, pick_source, pick_dest):
    while True:
        source, dest = pick_source(), pick_dest()
        if len(source) == len(dest):
            return source, dest


def inside(r, to_site):
    a, b = (AWAY, HOMES) if to_site else (HOMES, AWAY + HOMES)
    source, dest = between(r, lambda: host(r, a), lambda: host(r, b))
    if r.random() < 0.05:
        dest = raw("224.0.0.5") if len(dest) == 4 else raw("ff02::1")
    payload = bytes(r.choice([0, 4, 40, 1400, 1420, 1440, 1460]))
    if r.random() < 0.7:
        return ip(r, source, dest, udp(r, source, dest, payload, (r.randrange(65536), r.randrange(65536))))
    return ip(r, source, dest, payload, r.choice([1, 6, 58]))


def tunnelled(r):
    source, dest = between(r, lambda: raw(r.choice(OTHERS + OWN)), lambda: raw(r.choice(OWN)))
    flags = r.choice([0, 0x08, 0x48, 0x40, 0x80, 0xC8, 0x90, 0xFF, 0x01])
    lisp = bytes([flags]) + r.randbytes(3) + struct.pack(">I", r.choice([*IIDS, 9]) << 8 | 1)
    payload = lisp + inside(r, r.random() < 0.9) + bytes(r.choice([0, 0, 5]))
    ports = r.choice([50000, 4342]), r.choice([4341] * 9 + [4342, 53])
    return ip(r, source, dest, udp(r, source, dest, payload, ports))


def eid(r, none=0.0):
    if r.random() < none:
        return bytes(2)
    plain = located(host(r, HOMES + AWAY))
    if r.random() < 0.5:
        return plain
    head = struct.pack(">HBBBB", 16387, r.randrange(256), r.randrange(256), 2, r.randrange(256))
    return head + struct.pack(">HI", 4 + len(plain), r.randrange(1 << 24)) + plain


def record(r):
    count = r.choice([0, 1, 1, 2, 5])
    front = r.randbytes(4) + bytes([count, r.choice([0, 8, 24, 32])]) + r.randbytes(4)
    return front + eid(r) + b"".join(r.randbytes(6) + located(host(r, AWAY)) for _ in range(count))


def plain_message(r):
    if r.random() < 0.4:
        count = r.choice([0, 1, 2, 4])
        head = bytes([0x20 | r.choice([0, 8, 4, 1])]) + r.randbytes(2) + bytes([count]) + r.randbytes(8)
        return head + b"".join(record(r) for _ in range(count))
    addrs, eids, piggyback = r.choice([1, 1, 2, 4]), r.choice([0, 1, 1, 3]), r.random() < 0.2
    first = 0x10 | (4 if piggyback else 0) | r.choice([0, 1, 2, 3, 8])
    octets = bytes([first, r.choice([0, 64, 255]), 0xE0 * r.randrange(2) | addrs - 1, eids])
    octets += r.randbytes(8) + eid(r, 0.3) + b"".join(located(host(r, AWAY)) for _ in range(addrs))
    octets += b"".join(bytes([r.randrange(256), r.choice([0, 8, 24, 32])]) + eid(r) for _ in range(eids))
    return octets + (record(r) if piggyback else b"")


def control(r):
    source, dest = between(r, lambda: raw(r.choice(OTHERS)), lambda: raw(r.choice(OWN + OTHERS)))
    message = plain_message(r)
    if r.random() < 0.4:
        a, b = between(r, lambda: host(r, HOMES), lambda: host(r, AWAY))
        ports = 4342, r.choice([4342] * 9 + [4341])
        word = bytes([0x80 | r.choice([0, 0, 7]), 0, 0, r.randrange(256)])
        message = word + ip(r, a, b, udp(r, a, b, spoiled(r, message, 0.3), ports))
    message += bytes(r.choice([0, 0, 0, 3]))
    ports = r.choice([(4342, 4342), (4342, 5000), (5000, 4342)])
    return ip(r, source, dest, udp(r, source, dest, spoiled(r, message, 0.4), ports, 0.9))


def spoiled(r, octets, how_often):
    if r.random() >= how_often or not octets:
        return octets
    octets = bytearray(octets)
    kind = r.randrange(4)
    if kind == 0:
        return bytes(octets[:r.randrange(len(octets) + 1)])
    if kind == 1:
        return bytes(octets) + r.randbytes(r.randint(1, 9))
    for _ in range(kind):
        at = r.randrange(min(len(octets), 80))
        octets[at] = r.choice([0, 1, 2, 255, octets[at] ^ 1 << r.randrange(8), r.randrange(256)])
    return bytes(octets)


def packet(r):
    make = r.choice([inside, inside, tunnelled, tunnelled, control])
    octets = inside(r, False) if make is inside else make(r)
    return spoiled(r, octets, 0.25)


def framed(r, link, octets):
    """The packet as a frame of the link, sometimes tagged or of another type."""
    if link == 101:
        return octets
    tag = r.choice([b"", struct.pack(">HH", 0x8100, r.choice([0, *VLANS, 0xE005, 0xE005, 9]))])
    kind = struct.pack(">H", r.choice([0x0800, 0x86DD] * 10 + [0x0806]))
    return spoiled(r, MAC + tag + kind + octets + bytes(r.choice([0, 0, 18])), 0.05)

"""The first fault of a settings file, key by key, as docs/REFERENCE.md says."""
import ipaddress
import math
import re
import tomllib

HEX = re.compile(r"[0-9a-fA-F]*")
NUMBER = re.compile(r"0|[1-9][0-9]{0,2}")
GROUP = re.compile(r"[0-9a-fA-F]{1,4}")
MOST_OCTETS = 2**24
# Mappings that may live, and requests that may be open: for one instance, and for all.
MOST_MAPPINGS, MOST_REQUESTS, MOST_OPEN = 65536, 1024, 16384
# The keys of the top table, in the order in which they are judged.
KEYS = ("seed", "nonces", "resolver", "ttl", "probe", "echo", "locator", "attachment", "database", "mapping", "change",
        "limit")


class Fault(Exception):
    """A word and the key at fault."""


def fail(word, path):
    raise Fault(f"{word} {'.'.join(map(str, path))}")


def hexadecimal(digits):
    return lambda value: isinstance(value, str) and len(value) == digits and bool(HEX.fullmatch(value))


def number(least, greatest):
    return lambda value: type(value) is int and least <= value <= greatest


def truth(value):
    return type(value) is bool


def decimal(text, greatest):
    return bool(NUMBER.fullmatch(text)) and int(text) <= greatest


def groups(text):
    return text.split(":") if text else []


def address(value):
    """The octets of an address, or None."""
    if not isinstance(value, str):
        return None
    if "." in value:
        parts = value.split(".")
        good = len(parts) == 4 and all(decimal(part, 255) for part in parts)
        return bytes(map(int, parts)) if good else None
    front, gap, back = value.partition("::")
    fields = groups(front) + groups(back)
    good = all(GROUP.fullmatch(field) for field in fields)
    good = good and (len(fields) <= 7 if gap else len(fields) == 8)
    return ipaddress.ip_address(value).packed if good else None


def prefix(value):
    """The octets and the length of a prefix, or None."""
    if not isinstance(value, str):
        return None
    front, _, length = value.partition("/")
    octets = address(front)
    if octets is None or not decimal(length, 8 * len(octets)):
        return None
    return ipaddress.ip_network(value, strict=False).network_address.packed, int(length)


def only(table, known, path):
    for key in sorted(table, key=str.encode):
        if key not in known:
            fail("unknown-key", [*path, key])


def optional(table, key, good, path):
    if key in table and not good(table[key]):
        fail("bad-value", [*path, key])


def required(table, key, read, path):
    if key not in table:
        fail("missing", [*path, key])
    value = read(table[key])
    if value is None:
        fail("bad-value", [*path, key])
    return value


def whole(greatest):
    good = number(0, greatest)
    return lambda value: value if good(value) else None


def items(table, key, most, read, path, is_needed=False):
    tables = table.get(key, [])
    if not isinstance(tables, list) or not all(isinstance(item, dict) for item in tables):
        fail("bad-value", [*path, key])
    if is_needed and not tables:
        fail("missing", [*path, key])
    if len(tables) > most:
        fail("too-many", [*path, key])
    seen = set()
    for position, item in enumerate(tables):
        place = [*path, key, position]
        name = read(item, place)
        if name in seen:
            fail("duplicate", place)
        seen.add(name)


def locator(table, path):
    only(table, ("address", "priority", "weight", "up"), path)
    octets = required(table, "address", address, path)
    optional(table, "priority", number(0, 255), path)
    optional(table, "weight", number(0, 255), path)
    optional(table, "up", truth, path)
    return octets


def attachment(table, path):
    only(table, ("vlan", "iid"), path)
    vlan = required(table, "vlan", whole(4095), path)
    required(table, "iid", whole(2**24 - 1), path)
    return vlan


def eid(table, path):
    iid = required(table, "iid", whole(2**24 - 1), path)
    network = required(table, "prefix", prefix, path)
    optional(table, "version", number(0, 4095), path)
    return iid, network


def database(table, path):
    only(table, ("iid", "prefix", "version"), path)
    return eid(table, path)


def mapping(table, path):
    only(table, ("iid", "prefix", "version", "action", "locator"), path)
    name = eid(table, path)
    optional(table, "action", number(0, 7), path)
    items(table, "locator", 32, locator, path)
    return name


def change(owns):
    """What reads a change of one of these own locators."""
    def own(value):
        octets = address(value)
        return octets if octets in owns else None

    def read(table, path):
        only(table, ("at", "address", "up"), path)
        second = required(table, "at", whole(2**32 - 1), path)
        octets = required(table, "address", own, path)
        required(table, "up", lambda value: value if truth(value) else None, path)
        return second, octets
    return read


def limit(instances):
    """What reads a limit of one of these instances."""
    def attached(value):
        return value if type(value) is int and value in instances else None

    def read(table, path):
        only(table, ("iid", "mappings", "requests"), path)
        iid = required(table, "iid", attached, path)
        required(table, "mappings", whole(MOST_MAPPINGS), path)
        required(table, "requests", whole(MOST_REQUESTS), path)
        return iid
    return read


def are_within(limits, statics):
    """Whether limits, with so many static mappings, are no more in all than may live and be open."""
    mappings, requests = (sum(table[key] for table in limits) for key in ("mappings", "requests"))
    return statics + mappings <= MOST_MAPPINGS and requests <= MOST_OPEN


def reaches(table, resolver):
    """Whether an own locator is up in the resolver's family."""
    return table.get("up", True) and len(address(table["address"])) == len(address(resolver))


def check(top):
    """Raises the first fault of the top table."""
    only(top, KEYS, [])
    optional(top, "seed", hexadecimal(64), [])
    nonces = top.get("nonces", [])
    if not isinstance(nonces, list):
        fail("bad-value", ["nonces"])
    if len(nonces) > 4096:
        fail("too-many", ["nonces"])
    for position, nonce in enumerate(nonces):
        if not hexadecimal(16)(nonce):
            fail("bad-value", ["nonces", position])
    optional(top, "resolver", lambda value: address(value) is not None, [])
    optional(top, "ttl", number(1, 2**32 - 2), [])
    optional(top, "probe", truth, [])
    optional(top, "echo", truth, [])
    items(top, "locator", 32, locator, [], is_needed=True)
    items(top, "attachment", 4096, attachment, [])
    items(top, "database", 64, database, [])
    items(top, "mapping", MOST_MAPPINGS, mapping, [])
    items(top, "change", 256, change({address(table["address"]) for table in top["locator"]}), [])
    items(top, "limit", 4096, limit({table["iid"] for table in top.get("attachment", [])}), [])
    if "resolver" in top and not any(reaches(table, top["resolver"]) for table in top["locator"]):
        fail("bad-value", ["resolver"])
    if not are_within(top.get("limit", []), len(top.get("mapping", []))):
        fail("too-many", ["limit"])


def finite(text):
    """A float, but for one out of range."""
    value = float(text)
    if math.isinf(value):
        raise ValueError(text)
    return value


def numbers(value):
    """All whole numbers in a value."""
    if isinstance(value, (dict, list)):
        for item in value.values() if isinstance(value, dict) else value:
            yield from numbers(item)
    elif type(value) is int:
        yield value


def top_of(octets):
    """The top table of a file's octets, or the fault that they are none."""
    if len(octets) > MOST_OCTETS:
        raise Fault("too-long")
    try:
        top = tomllib.loads(octets.decode().removeprefix("\ufeff"), parse_float=finite)
    except ValueError:
        raise Fault("not-toml") from None
    if not all(-2**63 <= number < 2**63 for number in numbers(top)):
        raise Fault("not-toml")
    return top

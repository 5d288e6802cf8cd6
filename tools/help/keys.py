"""The keys of a settings file: in which tables they stand, what each takes, and which one is meant by another."""
import re

ADDRESS = "an address as \"192.0.2.1\" or \"2001:db8::1\""
PREFIX = ("a prefix as \"10.2.0.0/16\" or \"2001:db8::/32\": an address, a slash, and a length of at most 32, of IPv6 "
          "128")
TRUTH = "true or false"
INSTANCE = "a whole number from 0 to 16,777,215"
SHARE = "a whole number from 0 to 255"
VERSION = "a whole number from 0 to 4,095"


def tables_of(name):
    return f"tables, each behind a line [[{name}]] of its own"


LOCATOR = {"address": ADDRESS, "priority": SHARE, "weight": SHARE, "up": TRUTH}
# Each table with its keys, and what these take.
TABLES = {
    "": {
        "seed": "a text of 64 hexadecimal digits",
        "nonces": "an array of texts, each of 16 hexadecimal digits as \"0102030405060708\"",
        "resolver": ADDRESS + ", of whose family an own locator is up",
        "ttl": "a whole number from 1 to 4,294,967,294",
        "probe": TRUTH,
        "echo": TRUTH,
        **{name: tables_of(name) for name in ("locator", "attachment", "database", "mapping", "change", "limit")},
    },
    "locator": LOCATOR,
    "attachment": {"vlan": "a whole number from 0 to 4,095", "iid": INSTANCE},
    "database": {"iid": INSTANCE, "prefix": PREFIX, "version": VERSION},
    "mapping": {"iid": INSTANCE, "prefix": PREFIX, "version": VERSION, "action": "a whole number from 0 to 7",
                "locator": tables_of("mapping.locator")},
    "mapping.locator": LOCATOR,
    "change": {"at": "a whole number from 0 to 4,294,967,295, a second of Unix time",
               "address": ADDRESS + ", that of an own locator", "up": TRUTH},
    "limit": {"iid": INSTANCE + ", the instance of an attachment", "mappings": "a whole number from 0 to 65,536",
              "requests": "a whole number from 0 to 1,024"},
}
# The keys that stand on top, above all tables.
ON_TOP = [name for name in TABLES[""] if name not in TABLES]
PLACE = re.compile(r"(?:(mapping)\.\d+\.(locator)|([a-z]+))\.\d+\.(.*)", re.DOTALL)
LIST_ITEM = re.compile(r"nonces\.\d+")


def parts_of(path):
    """The table in which a key stands, and the key."""
    found = PLACE.fullmatch(path)
    if not found or LIST_ITEM.fullmatch(path):
        return "", path
    first, second, only, key = found.groups()
    table = f"{first}.{second}" if first else only
    return (table, key) if table in TABLES else ("", path)


def value_sentence(path):
    """What the key at a path takes, or None."""
    if LIST_ITEM.fullmatch(path):
        return "it takes a text of 16 hexadecimal digits as \"0102030405060708\""
    table, key = parts_of(path)
    takes = TABLES[table].get(key)
    return f"it takes {takes}" if takes else None


def named(table):
    return f"[[{table}]]" if table else "the top of the file"


def nearest(key, names):
    """The name that is most like a key, or None."""
    from difflib import get_close_matches
    found = get_close_matches(key.lower(), names, 1)
    return found[0] if found else None


def meant(path):
    """Which key is meant by one that isn't known at its place, or None; and whether it belongs on top."""
    table, key = parts_of(path)
    if table and key in ON_TOP:
        return f"{key} belongs on top", True
    others = [named(other) for other, names in TABLES.items() if other and other != table and key in names]
    if others:
        return f"{key} is a key of {' and '.join(others)}", False
    near = nearest(key, TABLES[table])
    if near:
        return f"{near} is meant, perhaps", False
    near = nearest(key, ON_TOP) if table else None
    return (f"{near} is meant, perhaps, which belongs on top", True) if near else (None, False)


def key_sentence(path):
    """That a key isn't known at its place, and what is meant, where that can be said."""
    said, _ = meant(path)
    table, _ = parts_of(path)
    sentence = f"{named(table)} has no such key"
    return f"{sentence}: {said}" if said else f"{sentence}; it has {', '.join(TABLES[table])}"


def is_for_top(path):
    """Whether a key that isn't known at its place belongs on top."""
    return meant(path)[1]

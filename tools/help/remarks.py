"""What a person is warned of in settings that are right: own locators that are no unicast addresses, and mappings that
the site's own prefixes hide.

Only a file in the usual form is looked at: tables behind lines `[[..]]`, and a key with its value in each other line.
It is read while the program reads it too, a piece at a time. No module is imported that takes long to come.
"""
from pairs import is_file, value_of
from text import shown

PIECE = 5000
MOST_TOLD = 3
BITS = {4: 32, 6: 128}


class Unclear(Exception):
    """The file goes on in another form."""


def without_comment(value):
    """A value that is a text in quotes, or else up to a comment."""
    if value[:1] in ("'", '"'):
        inner, quote, rest = value[1:].partition(value[0])
        rest = rest.strip()
        if not quote or "\\" in inner or rest and rest[0] != "#":
            raise Unclear
        return inner
    return value.partition("#")[0].strip()


def header_of(line):
    """The name of the table that begins with a line."""
    name = line.partition("#")[0].strip()
    if not name.startswith("[[") or not name.endswith("]]"):
        raise Unclear
    return name[2:-2].strip()


def address_of(text):
    """The family of an address, and its bits."""
    if ":" not in text:
        return 4, int.from_bytes(bytes(map(int, text.split("."))), "big")
    from ipaddress import IPv6Address
    return 6, int(IPv6Address(text))


def prefix_of(text):
    """The family of a prefix, its length, and the bits that count."""
    address, _, length = text.partition("/")
    family, bits = address_of(address)
    return family, int(length), bits >> BITS[family] - int(length)


def is_unicast(text):
    """Whether packets to an address go to one host: it is none of this network, no group and not all hosts."""
    family, bits = address_of(text)
    if family == 4:
        return bits >> 24 != 0 and bits >> 28 != 0xE and bits != 0xFFFF_FFFF
    return bits != 0 and bits >> 120 != 0xFF


def hides(own, other):
    """Whether a prefix has all addresses of another one."""
    return own[0] == other[0] and own[1] <= other[1] and own[2] == other[2] >> other[1] - own[1]


class Settings:
    """What is read of a file so far: own locators, and prefixes of the site and of others, each with its line. Of the
    table that isn't closed yet there are the keys, with their values and lines."""

    def __init__(self):
        self.locators, self.databases, self.mappings = [], {}, []
        self.table, self.keys, self.is_in_array = "", {}, False

    def close(self):
        """Takes the table that ends."""
        if self.table == "locator":
            self.locators.append(self.keys["address"])
        elif self.table == "database":
            self.databases.setdefault(int(self.keys["iid"][0]), []).append(self.keys["prefix"])
        elif self.table == "mapping":
            self.mappings.append((int(self.keys["iid"][0]), *self.keys["prefix"]))

    def take(self, line, number):
        if self.is_in_array:
            self.is_in_array = "]" not in line.partition("#")[0]
        elif line.startswith("["):
            self.close()
            self.table, self.keys = header_of(line), {}
        elif line and line[0] != "#":
            key, equals, value = map(str.strip, line.partition("="))
            if not equals or value[:1] == "{":
                raise Unclear
            self.is_in_array = value[:1] == "[" and "]" not in value.partition("#")[0]
            self.keys[key] = without_comment(value), number


def locator_texts(settings, name):
    return [f"{name}:{line}: the own locator {shown(text)} is no unicast address"
            for text, line in settings.locators if not is_unicast(text)]


def hiding(prefix, owns):
    """The first of these prefixes of the site that hides a prefix, with its line, or None."""
    family = prefix_of(prefix)
    return next(((text, line) for text, line, own in owns if hides(own, family)), None)


def hidden(settings):
    """The mappings that are hidden, each with what hides it; None between pieces."""
    databases = {iid: [(text, line, prefix_of(text)) for text, line in owns]
                 for iid, owns in settings.databases.items()}
    for i, (iid, prefix, line) in enumerate(settings.mappings):
        own = hiding(prefix, databases[iid]) if iid in databases else None
        if own:
            yield prefix, line, own
        if i % PIECE == PIECE - 1:
            yield None


def read(path):
    """The settings of a file, once all is read; None between pieces."""
    settings = Settings()
    with open(path, encoding="utf-8", newline="\n") as file:
        for number, line in enumerate(file, 1):
            settings.take(line.strip(), number)
            if number % PIECE == 0:
                yield None
    settings.close()
    yield settings


def warnings(path):
    """The warnings of a file; None between pieces."""
    settings, name, count = None, shown(path), 0
    for settings in read(path):
        yield None
    yield from locator_texts(settings, name)
    for found in hidden(settings):
        count += found is not None
        if found is not None and count <= MOST_TOLD:
            prefix, line, (own, own_line) = found
            yield (f"{name}:{line}: the mapping of {shown(prefix)} is hidden by the site's own prefix {shown(own)} of "
                   f"line {own_line}: packets to it are local")
        elif found is None:
            yield None
    if count > MOST_TOLD:
        yield f"{name}: {count - MOST_TOLD:,} mappings more are hidden"


def search(words):
    """The warnings of the settings that words name; None between pieces of the work."""
    path = value_of("--settings", words)
    if is_file(path):
        try:
            yield from (text and f"warning: {text}" for text in warnings(path))
        except (Unclear, OSError, ValueError, KeyError):
            # Of what is in another form, or wrong, the program says what is to be said.
            pass

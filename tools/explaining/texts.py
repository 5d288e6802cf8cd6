"""Addresses, moments and counts as a person reads them."""
import ipaddress
from datetime import datetime, timedelta, timezone

SECOND = 10**9
EPOCH = datetime(1970, 1, 1, tzinfo=timezone.utc)
UNITS = ("d", 86_400), ("h", 3_600), ("min", 60)


class Fault(Exception):
    """Why nothing is explained: a sentence, and what to do."""


class Refused(Fault):
    """The settings are refused, as the proved program says too."""


class Differs(Exception):
    """The plain router says otherwise than the proved program: both lines."""


def address(octets):
    """An address as RFC 5952 has it."""
    return str(ipaddress.ip_address(octets))


def prefix(eid):
    return f"{address(eid.octets())}/{eid.length}"


def placed(eid):
    """A prefix with its instance."""
    return f"{prefix(eid)} of instance {eid.iid}"


def family(size):
    """The family of addresses of so many octets."""
    return "IPv4" if size == 4 else "IPv6"


def seconds(moment):
    """Whole seconds and a fraction without needless zeros."""
    whole, rest = divmod(moment, SECOND)
    return f"{whole}.{rest:09}".rstrip("0") if rest else f"{whole}"


def utc(moment):
    """A moment in UTC, with a fraction where it has one."""
    whole, rest = divmod(moment, SECOND)
    text = (EPOCH + timedelta(seconds=whole)).strftime("%Y-%m-%d %H:%M:%S")
    return text + (f".{rest:09}".rstrip("0") if rest else "") + " UTC"


def duration(span):
    """How long a time is, with its greater units where it is a minute or more."""
    whole, rest = divmod(span, SECOND)
    parts = []
    for name, size in UNITS:
        count, whole = divmod(whole, size)
        if count:
            parts.append(f"{count} {name}")
    if whole or rest or not parts:
        parts.append(f"{seconds(whole * SECOND + rest)} s")
    return " ".join(parts)


def counted(count, word, many=None):
    """A count and its noun."""
    return f"{count:,} {word if count == 1 else many or word + 's'}"


def octets_text(octets):
    return octets.hex(" ")


def labelled(label, lines):
    """Lines behind a label, which stands once."""
    return [f"{label if i == 0 else '':<10}{line}" for i, line in enumerate(lines)]

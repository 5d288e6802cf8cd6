"""The LISP data header (RFC 9300, section 5.1), and Map-Versions (RFC 9302)."""
import struct
from typing import NamedTuple, Optional

from wire import number

# Flags of the first octet: N, L, E, V, I.
NONCE, STATUS, ECHO, VERSIONS, INSTANCE = 0x80, 0x40, 0x20, 0x10, 0x08


class Header(NamedTuple):
    """What counts in a header: versions are 0 where it has none, and an echo is asked for only beside a nonce."""
    nonce: Optional[int]
    echo: bool
    source_version: int
    dest_version: int
    status: Optional[int]
    width: int
    iid: int


def header_of(octets):
    first, field, last = octets[0], number(octets, 1, 3), number(octets, 4, 4)
    has_nonce, has_instance = bool(first & NONCE), bool(first & INSTANCE)
    source, dest = divmod(field, 4096) if first & VERSIONS and not has_nonce else (0, 0)
    status, width, iid = (last & 0xFF, 8, last >> 8) if has_instance else (last, 32, 0)
    return Header(field if has_nonce else None, has_nonce and bool(first & ECHO), source, dest,
                  status if first & STATUS else None, width, iid)


def header_to(flags, field, bits, iid):
    """A header with status bits; the flags tell what its nonce or versions are."""
    if iid:
        return struct.pack(">II", (STATUS | INSTANCE | flags) << 24 | field, iid << 8 | bits & 0xFF)
    return struct.pack(">II", (STATUS | flags) << 24 | field, bits)


def newer(a, b):
    """Whether a version comes after another, at most 2,048 steps before it would come round."""
    return 0 < a - b <= 2048 or b - a > 2048


def successor(version):
    """The version behind another: 1 behind the greatest; a version of 0 stays so, and tells nothing."""
    return 0 if version == 0 else version % 4095 + 1


def is_ahead(a, b):
    """Whether both versions tell something, and the first is newer."""
    return a != 0 and b != 0 and newer(a, b)

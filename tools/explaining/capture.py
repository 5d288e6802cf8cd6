"""The capture: its format, the part of it up to a frame, and its frames as they come to the router."""
import itertools
import mmap
import os
import shutil
import stat
import struct
import tempfile
from typing import NamedTuple

from captures import MOST_OCTETS, MOST_RECORDS, MOST_SPAN, UNITS, CaptureFault, frames_in
from captures_ng import ENHANCED, SECTION, SIMPLE, Reader
from commands import Format, format_of
from splitting import halves, split_size

from explaining.texts import SECOND, Fault

MAGICS = {bytes.fromhex(text): order for text, order in (
    ("a1b2c3d4", ">"), ("a1b23c4d", ">"), ("d4c3b2a1", "<"), ("4d3cb2a1", "<"))}
NG_MAGIC, GZIP_MAGIC = bytes.fromhex("0a0d0d0a"), bytes.fromhex("1f8b")
BYTE_ORDERS = {bytes.fromhex("1a2b3c4d"): ">", bytes.fromhex("4d3c2b1a"): "<"}
PIECE = 1 << 20


class Frame(NamedTuple):
    """A frame as the router takes it: its number, and that of the capture's frame of which it is the whole or a half."""
    number: int
    moment: int
    link: int
    octets: bytes
    whole: int
    half: int


class Way(NamedTuple):
    """How a capture is taken: its format, and whether large packets are split."""
    format: Format
    split: bool

    def words(self):
        name, interfaces = self.format.value
        more = () if self.format is Format.CLASSIC else ("--format", name, "--interfaces", interfaces)
        return *more, *(("--split", "on") if self.split else ())


def settled(path, folder):
    """A file of a known size with the octets of a path, which may be a pipe."""
    try:
        with open(path, "rb") as file:
            if stat.S_ISREG(os.fstat(file.fileno()).st_mode):
                return path
            copy = os.path.join(folder, "in")
            with open(copy, "wb") as kept:
                shutil.copyfileobj(file, kept, PIECE)
            return copy
    except OSError as error:
        raise Fault(f"{path} can't be read: {error.strerror}") from None


def octets_of(path):
    """The octets of a file, which aren't all read at once."""
    with open(path, "rb") as file:
        if os.fstat(file.fileno()).st_size == 0:
            return b""
        return mmap.mmap(file.fileno(), 0, access=mmap.ACCESS_READ)


def way_of(octets, name, word, interfaces, split):
    """How a capture is taken, by the words; without one of the format by its first four octets."""
    front = bytes(octets[:4])
    if front[:2] == GZIP_MAGIC:
        raise Fault(f"{name} is compressed by gzip; gzip -dk {name} opens it")
    if word is None:
        word = "ng" if front == NG_MAGIC else "classic"
    if word == "classic" and interfaces == "vlan":
        raise Fault("--interfaces vlan goes with a pcapng file alone: a classic capture has no interfaces")
    return Way(format_of(word, interfaces), split)


# The part of a capture up to a frame.


def record_ends(octets):
    """Where each record of a classic capture ends, as long as they are whole."""
    order, at = MAGICS.get(bytes(octets[:4]), "<"), 24
    size_of = struct.Struct(order + "I")
    while at + 16 <= len(octets):
        at += 16 + size_of.unpack_from(octets, at + 8)[0]
        if at > len(octets):
            return
        yield at


def packet_ends(octets):
    """Where each block with a packet of a pcapng file ends, as long as they are whole."""
    order, at = "<", 0
    while at + 12 <= len(octets):
        kind, size = struct.unpack_from(order + "II", octets, at)
        if kind == SECTION:
            order = BYTE_ORDERS.get(bytes(octets[at + 8:at + 12]), order)
            size = struct.unpack_from(order + "I", octets, at + 4)[0]
        at += size
        if size < 12 or at > len(octets):
            return
        if kind in (SIMPLE, ENHANCED):
            yield at


def cut(path, octets, way, count, folder):
    """A file that ends behind so many of the capture's frames; the file itself where it has no more."""
    ends = record_ends if way.format is Format.CLASSIC else packet_ends
    end = next(itertools.islice(ends(octets), count - 1, None), len(octets))
    if end == len(octets):
        return path
    # Where it has the name of the capture, the line of progress names that.
    copy = os.path.join(tempfile.mkdtemp(dir=folder), os.path.basename(path))
    with open(copy, "wb") as file:
        for at in range(0, end, PIECE):
            file.write(octets[at:min(end, at + PIECE)])
    return copy


# Frames.


def classic_frames(octets):
    """As `frames_in` gives them, which tells what is wrong with a record as soon as one isn't as it should be."""
    plain, count, at, latest = frames_in(octets), 0, 24, 0
    order = MAGICS[bytes(octets[:4])]
    numbers_at, size = struct.Struct(order + "IIII").unpack_from, len(octets)
    units, unit = UNITS[struct.unpack(order + "I", octets[:4])[0]]
    link = struct.unpack(order + "I", octets[20:24])[0] & 0xFFFF
    while at + 16 <= size and count < MOST_RECORDS:
        seconds, fraction, kept, _ = numbers_at(octets, at)
        moment, end = seconds * SECOND + fraction * unit, at + 16 + kept
        if fraction >= units or kept > MOST_OCTETS or end > size or count and moment - latest > MOST_SPAN:
            break
        count, latest = count + 1, max(latest, moment)
        yield latest, link, octets[at + 16:end]
        at = end
    if at < size:
        yield from itertools.islice(plain, count, None)


def read(octets, way):
    """The frames of a capture with their moments and links; a fault comes when it is due."""
    if way.format is Format.CLASSIC:
        yield from classic_frames(octets)
    else:
        yield from Reader(octets, way.format is Format.NG_VLANS).frames()


def frames_of(octets, way, site):
    """The frames as they come to the router; the capture's fault comes when it is due."""
    if not way.split:
        for number, (moment, link, frame) in enumerate(read(octets, way), 1):
            yield Frame(number, moment, link, frame, number, 0)
        return
    least, number = split_size(site), 0
    for whole, (moment, link, frame) in enumerate(read(octets, way), 1):
        for half, one in parts_of(site, link, frame) if len(frame) > least else ((0, frame),):
            number += 1
            yield Frame(number, moment, link, one, whole, half)


def parts_of(site, link, frame):
    """The two halves of a frame with their numbers, or the whole one with 0."""
    pair = halves(site, link, frame)
    return enumerate(pair, 1) if pair else ((0, frame),)


def frames_until(octets, way, moment):
    """How many of the capture's frames come up to a moment."""
    count = 0
    try:
        for at, _, _ in read(octets, way):
            if at > moment:
                break
            count += 1
    except CaptureFault:
        pass
    return count

"""What a capture is by its first four octets, and which words replay it."""
import os
import shlex

from pairs import is_file, value_of
from text import shown
from words import words_fault

OCTETS = 4
PCAP, PCAPNG = "in the pcap format", "a pcapng file"
# How files begin: pcap of either byte order, with micro- or nanoseconds.
BEGINNINGS = {
    b"\xa1\xb2\xc3\xd4": PCAP, b"\xd4\xc3\xb2\xa1": PCAP, b"\xa1\xb2\x3c\x4d": PCAP, b"\x4d\x3c\xb2\xa1": PCAP,
    b"\n\r\r\n": PCAPNG,
}
# Programs that compress, how their files begin, and which command writes what is in one to standard output.
PACKED = {b"\x1f\x8b": ("gzip", "gzip -dc"), b"\xfd7zX": ("xz", "xz -dc"), b"\x28\xb5\x2f\xfd": ("zstd", "zstd -dc")}
# Where packets go that are no output.
NOWHERE = "/dev/null"


def beginning(path):
    """The first octets of a file, or None where they can't be read."""
    try:
        with open(path, "rb") as file:
            return file.read(OCTETS)
    except (OSError, ValueError):
        return None


def harmless(words):
    """The words that the program gets in the place of these.

    With --format ng the output is made before anything is read. Where the capture isn't pcapng by its first octets, so
    that the program refuses it, an output that is there isn't named: the packets go nowhere, and all else is as it was.
    """
    capture, output = value_of("--in", words), value_of("--out", words)
    if (words[:1] != ["replay"] or value_of("--format", words) != "ng" or words_fault(words) is not None
            or not is_file(capture) or not is_file(output) or os.path.getsize(output) == 0
            or not os.access(output, os.W_OK) or NOWHERE in words):
        return words
    octets = beginning(capture)
    if octets is None or BEGINNINGS.get(octets) == PCAPNG:
        return words
    return [NOWHERE if name == "--out" else word for name, word in zip([None, *words], words)]


def packed_sentence(path):
    """That a file is compressed, and the command that opens it, or None."""
    octets = beginning(path)
    for start, (name, command) in PACKED.items():
        if octets is not None and octets.startswith(start):
            return (f"{shown(path)} is compressed by {name}: {command} {shown(shlex.quote(path))} > FILE opens it, or "
                    "in a pipe to this command with --in /dev/stdin")
    return None


def format_sentence(path, words):
    """What a capture is, where its first octets say so and these words don't fit, and what fits; or None."""
    if not is_file(path):
        return None
    kind = BEGINNINGS.get(beginning(path))
    is_ng = value_of("--format", words) == "ng"
    if kind == PCAPNG and words[:1] == ["replay"] and not is_ng:
        return f"{shown(path)} is {kind}: replay it with --format ng"
    if kind == PCAPNG and not is_ng:
        return f"{shown(path)} is {kind}, which {words[0]} doesn't read; of a pcapng file editcap -F nsecpcap makes one"
    if kind == PCAP and is_ng:
        return f"{shown(path)} is {kind}: replay it without --format ng"
    return packed_sentence(path)

"""The nonces of a router: those of its settings, then words of ChaCha with 8 rounds."""
import functools
import struct

CONSTANTS = struct.unpack("<4I", b"expand 32-byte k")
DOUBLE_ROUNDS = 4
QUARTERS = [(0, 4, 8, 12), (1, 5, 9, 13), (2, 6, 10, 14), (3, 7, 11, 15),
            (0, 5, 10, 15), (1, 6, 11, 12), (2, 7, 8, 13), (3, 4, 9, 14)]


def quarter(words, a, b, c, d):
    for x, y, z, turn in ((a, b, d, 16), (c, d, b, 12), (a, b, d, 8), (c, d, b, 7)):
        words[x] = (words[x] + words[y]) & 0xFFFFFFFF
        value = words[z] ^ words[x]
        words[z] = (value << turn | value >> 32 - turn) & 0xFFFFFFFF


@functools.cache
def block(seed, position):
    """The 16 words of a block of stream 0."""
    start = [*CONSTANTS, *struct.unpack("<8I", seed), *struct.unpack("<4I", struct.pack("<QQ", position, 0))]
    words = list(start)
    for _ in range(DOUBLE_ROUNDS):
        for places in QUARTERS:
            quarter(words, *places)
    return [(a + b) & 0xFFFFFFFF for a, b in zip(words, start)]


def word(seed, i):
    return block(seed, i // 16)[i % 16]


def nonce_at(listed, seed, i):
    """The nonce that is drawn after i others."""
    if i < len(listed):
        return listed[i]
    j = i - len(listed)
    return word(seed, 2 * j) | word(seed, 2 * j + 1) << 32

"""Rows at the limits of what the router remembers, and of rounds, made by loops: too long for a file of rows.

Their packets are those of shared.toml with other octets.
"""
import struct

from checksums import ip_summed, udp_summed
from nonces import nonce_at
from row_runs import REPLAY, SECOND, SHARED, START, Row, Run, capture_of, octets_of, tables_of

TEXTS, PACKETS, _ = tables_of(SHARED)
MILLI, MICRO = 10**6, 1000
# Requests of an instance that are open; echoes asked for, echoes wanted and peers solicited; mappings that live; limits.
MOST_OPEN, MOST, MOST_MAPPINGS, MOST_LIMITS = 1024, 4096, 65536, 4096
# Of a frame, of which 64 are 16 MiB; and of settings.
MOST_OCTETS, MOST_SETTINGS = 262144, 2**24
LISTED = 0x0102030405060708
DELIVERED = "delivered 0"


def shared(name):
    return octets_of(name, PACKETS)


def row(name, shows, frames, packets, entries, settings, words=REPLAY, link="raw"):
    """A row of frames with their moments and verdicts, and packets with their moments."""
    lines = [f"{i} {(START + moment) // SECOND}.{moment % SECOND:09} {verdict}\n"
             for i, (moment, _, verdict) in enumerate(frames, 1)]
    report = "".join(lines) + f"end frames={len(frames)} written={len(packets)} entries={entries}\n"
    files = {"settings": settings.encode(), "in": capture_of([frame[:2] for frame in frames], link)}
    return Row("limits.py", name, shows, [Run(words.split(), files, 0, report, capture_of(packets))])


def drawn(i, *listed):
    """The nonce that is drawn after i others."""
    return nonce_at(listed, bytes(32), i)


def to(dest):
    """A packet of the site to another address."""
    octets = bytearray(shared("packet"))
    octets[16:20] = dest
    ip_summed(octets, 0)
    return bytes(octets)


# Requests and mappings.


def asked(i, iid=100, nonce=None):
    """The request for the numbered address of an instance, with the nonce that is drawn after i others, or one given."""
    octets = bytearray(shared("asked"))
    octets[48:52] = octets[-4:] = destination(i)
    octets[64:72] = struct.pack(">Q", drawn(i, LISTED) if nonce is None else nonce)
    octets[80:84] = octets[106:110] = struct.pack(">I", iid)
    ip_summed(octets, 32)
    udp_summed(octets, 32)
    udp_summed(octets, 0)
    return bytes(octets)


def destination(i):
    return bytes([10, 2]) + struct.pack(">H", i)


def open_requests():
    """The first is sent again at 1 s and 3 s, those of the next second at 2 s and 4 s, the last ones later."""
    misses = [(i * MILLI, to(destination(i)), f"n={i + (i >= 1000)} drop 13 miss") for i in range(MOST_OPEN + 1)]
    first, middle, last = range(1), range(1, 1001), range(1001, MOST_OPEN)
    again = [(2, middle), (3, first), (3, last), (4, middle), (5, last)]
    packets = [*((i * MILLI, asked(i)) for i in range(1000)), (SECOND, asked(0)),
               *((i * MILLI, asked(i)) for i in range(1000, MOST_OPEN)),
               *((second * SECOND, asked(i)) for second, some in again for i in some),
               (7 * SECOND, asked(MOST_OPEN))]
    frames = [*misses, (7 * SECOND, to(destination(MOST_OPEN)), f"n={3 * MOST_OPEN} drop 13 miss")]
    return row("one request more than may be open", "A miss asks for nothing until the first request ends.",
               frames, packets, 3 * MOST_OPEN + 1, TEXTS["tenant"])


def live_mappings():
    settings = TEXTS["tenant"] + "".join(
        f'[[mapping]]\niid = 100\nprefix = "20.0.{i // 256}.{i % 256}/32"\n' for i in range(MOST_MAPPINGS))
    frames = [(0, shared("packet"), f"n={MOST_MAPPINGS} drop 13 miss"),
              (100 * MILLI, shared("reply"), f"n={MOST_MAPPINGS + 1} control reply learned=0 passed=1")]
    return row("a mapping more than may be live", "A record that finds the table full is passed over.",
               frames, [(0, shared("asked"))], MOST_MAPPINGS + 2, settings)


# Limits of instances.


def tagged(octets, vlan):
    """A frame in a VLAN."""
    return bytes(12) + struct.pack(">HHH", 0x8100, vlan, 0x0800) + octets


def requests_of_two():
    """All misses are within a second, in which no request is sent again."""
    settings = TEXTS["tenant"] + "".join(f"[[attachment]]\nvlan = {vlan}\niid = 200\n" for vlan in (5, 6))
    settings += '[[database]]\niid = 200\nprefix = "10.1.0.0/16"\n'
    frames = [(i * MICRO, tagged(to(destination(i)), 0), f"n={i} drop 13 miss") for i in range(MOST_OPEN + 1)]
    frames += [((MOST_OPEN + i) * MICRO, tagged(to(destination(0)), 4 + i), f"n={MOST_OPEN + i - 1} drop 13 miss")
               for i in (1, 2)]
    packets = [(i * MICRO, asked(i)) for i in range(MOST_OPEN)]
    packets.append(((MOST_OPEN + 1) * MICRO, asked(0, 200, drawn(MOST_OPEN, LISTED))))
    return row("one request more than an instance may have, and one of another", "A miss of another instance asks yet.",
               frames, packets, MOST_OPEN + 1, settings, link="ethernet")


def all_limited(mappings, requests, more=""):
    """Settings of as many instances as there are VLANs, from 100 on, each with a limit of so many mappings and requests."""
    numbers = range(MOST_LIMITS)
    attached = ",".join(f"{{vlan = {i}, iid = {100 + i}}}" for i in numbers)
    limited = ",".join(f"{{iid = {100 + i}, mappings = {mappings}, requests = {requests}}}" for i in numbers)
    tenant = TEXTS["tenant"].replace("[[attachment]]\nvlan = 0\niid = 100\n", "")
    return f"attachment = [{attached}]\nlimit = [{limited}{more}]\n{tenant}"


def most_limits():
    """Each instance may have four requests, which makes as many as there may be of all."""
    requests = 4
    frames = [(i * MICRO, to(destination(i)), f"n={i} drop 13 miss") for i in range(requests + 1)]
    packets = [(i * MICRO, asked(i)) for i in range(requests)]
    yield row("4,096 limits of 16 mappings and 4 requests", "They are all mappings and requests that there may be.",
              frames, packets, requests, all_limited(MOST_MAPPINGS // MOST_LIMITS, requests))
    for name, settings in [
            ("4,096 limits of 17 mappings", all_limited(17, 0)), ("4,096 limits of 5 requests", all_limited(0, 5)),
            ("4,097 limits", all_limited(0, 0, ",{}"))]:
        files = {"settings": settings.encode(), "in": capture_of([])}
        run = Run(REPLAY.split(), files, 2, "settings too-many limit\n", None)
        yield Row("limits.py", name, "One more than there may be, or one more of each.", [run])


# Echoes and peers.


def locator(i):
    return bytes([198, 51]) + struct.pack(">H", i)


def inbound(header, source=bytes([198, 51, 100, 7])):
    """A packet that comes from a locator, with that LISP header."""
    octets = bytearray(shared("tunnel"))
    octets[12:16], octets[28:36] = source, bytes.fromhex(header)
    ip_summed(octets, 0)
    return bytes(octets)


def solicitation(i):
    """The Map-Request with S for the site's prefix, to the numbered locator."""
    return told(i, "10010a010000", 1, locator(i))


def told(i, prefix, count, to):
    """The Map-Request with S for a prefix (its length and address) to a locator, with the first so many own locators."""
    owns = "".join(f"0001c00002{own:02x}" for own in range(1, count + 1))
    message = f"1100{count - 1:02x}01{drawn(i):016x}0001{prefix[4:]}{owns}00{prefix[:2]}0001{prefix[4:]}"
    size = 8 + len(message) // 2
    octets = bytearray(struct.pack(">HHIHH", 0x4500, 20 + size, 0x4000, 0x4011, 0) + bytes([192, 0, 2, 1]) + to
                       + struct.pack(">HHHH", 4342, 4342, size, 0) + bytes.fromhex(message))
    ip_summed(octets, 0)
    udp_summed(octets, 0)
    return bytes(octets)


def versioned(version):
    """The site, whose prefix has a version."""
    return TEXTS["site"].replace('"10.1.0.0/16"', f'"10.1.0.0/16"\nversion = {version}')


def wanted_echoes():
    frames = [(i * MICRO, inbound(f"a0{i:06x}00000000"), f"n={1 + i} {DELIVERED}") for i in range(MOST)]
    late, out = inbound("a0ffffff00000000"), shared("delivered")
    moments = [2 * SECOND - 1, 2 * SECOND, 2 * SECOND]
    frames += [(moment, late, f"n={known + MOST} {DELIVERED}") for moment, known in zip(moments, (1, 1, 2))]
    return row("an echo more than may be wanted",
               "Nonces of one locator; the first is no more wanted at 2 s, so that one more may be then.",
               frames, [(moment, out) for moment, _, _ in frames], 2 + MOST, versioned(0))


def solicited_peers():
    old, out = "10000004" + "00000000", shared("delivered")
    frames = [(i * MICRO, inbound(old, locator(i)), f"n={1 + i} {DELIVERED}") for i in range(MOST)]
    packets = [part for i in range(MOST) for part in ((i * MICRO, out), (i * MICRO, solicitation(i)))]
    late, end = inbound(old, locator(MOST)), 10 * SECOND
    frames += [(end - 1, late, f"n={1 + MOST} {DELIVERED}"), (end, late, f"n={1 + MOST} {DELIVERED}")]
    packets += [(end - 1, out), (end, out), (end, solicitation(MOST))]
    return row("a peer more than may be solicited", "The first was solicited 10 s ago, so that one more may be then.",
               frames, packets, 2 + MOST, versioned(5))


def port(i):
    """The source port of the tunnel that the packet to the numbered address goes into."""
    value, packet = 0x811C9DC5, to(destination(i))
    for octet in packet[12:20] + bytes([17]) + packet[20:24]:
        value = (value ^ octet) * 0x01000193 % 2**32
    return 0xC000 + value % 0x4000


def tunnelled(i, header):
    """That packet in a tunnel to the numbered locator."""
    octets = bytearray(shared("sent"))
    octets[16:20], octets[20:22], octets[28:36] = locator(i), struct.pack(">H", port(i)), bytes.fromhex(header)
    octets[52:56] = destination(i)
    ip_summed(octets, 0)
    ip_summed(octets, 36)
    return bytes(octets)


def started_echoes():
    """One locator for each of as many mappings, and one more."""
    settings = "echo = true\n" + TEXTS["fixed"].partition("[[mapping]]")[0] + "".join(
        f'[[mapping]]\niid = 0\nprefix = "10.2.{i // 256}.{i % 256}/32"\n'
        f'[[mapping.locator]]\naddress = "198.51.{i // 256}.{i % 256}"\n' for i in range(MOST + 1))
    plain, asks = "4000000000000001", f"e0{drawn(MOST) & 0xFFFFFF:06x}00000001"
    moments = [i * MICRO for i in range(MOST)] + [60 * SECOND - 1, 60 * SECOND, 60 * SECOND + 1]
    numbers = [min(i, MOST) for i in range(MOST + 3)]
    known = [1 + MOST + min(i, MOST) for i in range(MOST + 2)] + [2 + 2 * MOST]
    frames = [(moment, to(destination(i)), f"n={n} encapsulated 192.0.2.1 198.51.{i // 256}.{i % 256} {port(i)}")
              for moment, i, n in zip(moments, numbers, known)]
    packets = [(moment, tunnelled(i, plain)) for moment, i in zip(moments, numbers)][:-1]
    packets.append((moments[-1], tunnelled(MOST, asks)))
    return row("a locator more than may be asked for an echo",
               "The first was asked 60 s ago, so that one more is asked from the packet after that moment on.",
               frames, packets, 2 + 2 * MOST, settings)


# Settings.


def longest_settings():
    """Settings that a comment fills up to the most octets, and past them by one."""
    text, captured = TEXTS["site"].encode() + b"#", capture_of([(0, shared("packet"))])
    report = f"1 {START // SECOND}.000000000 n=1 encapsulated 192.0.2.1 198.51.100.7 64519\n"
    report += "end frames=1 written=1 entries=1\n"
    full, more = ({"settings": text.ljust(size, b"#"), "in": captured} for size in (MOST_SETTINGS, MOST_SETTINGS + 1))
    return Row("limits.py", "the longest settings, and those with an octet more", "A comment has most of them.", [
        Run(REPLAY.split(), full, 0, report, capture_of([(0, shared("sent"))])),
        Run(REPLAY.split(), more, 2, "settings too-long\n", None)])


def no_text():
    """Settings that are no UTF-8, which no file of rows can have."""
    return Row("limits.py", "settings that are no UTF-8 are no TOML", "The octet ff is in no text, also behind a #.",
               [refused(b"# \xff", "not-toml")])


def refused(settings, fault):
    """A run that ends by a fault of its settings."""
    return Run(REPLAY.split(), {"settings": settings, "in": capture_of([])}, 2, f"settings {fault}\n", None)


def most_listed():
    """As many items of a list as there may be, and one more; the first of them has a fault, which isn't judged then."""
    nonce = '"0102030405060708"'
    yield row("4,096 nonces", "As many as there may be.", [(0, shared("packet"), "n=0 drop 13 miss")],
              [(0, shared("asked"))], 1, TEXTS["tenant"].replace(nonce, f"{nonce}," * MOST))
    for key, item, most, fault in [
            ("nonces", "'',", MOST, "bad-value nonces.0"), ("attachment", "{},", MOST, "missing attachment.0.vlan"),
            ("mapping", "{},", MOST_MAPPINGS, "missing mapping.0.iid"), ("limit", "{},", MOST_LIMITS, "missing limit.0.iid")]:
        full, more = (f"{key} = [{item * count}]\n[[locator]]\naddress = '192.0.2.1'\n".encode() for count in (most, most + 1))
        yield Row("limits.py", f"{most:,} items of {key}, and one more", "One too many is refused before any is judged.",
                  [refused(full, fault), refused(more, f"too-many {key}")])


# Changes of own locators.


def change(second, own, up):
    return f'[[change]]\nat = {START // SECOND + second}\naddress = "192.0.2.{own}"\nup = {str(up).lower()}\n'


def most_changes():
    """32 own locators go down and come up in the eight seconds before the first frame."""
    site = versioned(1).replace('[[locator]]\naddress = "192.0.2.1"\n', "".join(
        f'[[locator]]\naddress = "192.0.2.{own}"\n' for own in range(1, 33)), 1)
    changes = [change(-second, own, second % 2 == 1) for second in range(1, 9) for own in range(32, 0, -1)]
    sent = "encapsulated 192.0.2.1 198.51.100.7 64519"
    first, second = (octets_of({"like": "sent", "change": [[28, header]]}, PACKETS)
                     for header in ("50001000ffffffff", "50101000ffffffff"))
    frames = [(0, shared("packet"), f"n=1 {sent}"), (SECOND, shared("packet"), f"n=258 {sent}")]
    packets = [(0, first), (SECOND, told(0, "10010a010000", 32, bytes([198, 51, 100, 7]))), (SECOND, second)]
    return row("256 changes in one second", "All of them lie before the first frame; each steps the version, and the peer "
               "is told once.", frames, packets, 258, site + "".join(changes))


def most_told():
    """64 prefixes, and 65 locators in three mappings; a change at 1 s, at 2 s and at 11 s."""
    settings = TEXTS["fixed"].partition("[[database]]")[0] + "".join(
        f'[[database]]\niid = 0\nprefix = "10.1.{i}.0/24"\nversion = 5\n' for i in range(64))
    for i in range(65):
        settings += f'[[mapping]]\niid = 0\nprefix = "10.2.{i}.0/24"\n' * (i % 32 == 0)
        settings += f'[[mapping.locator]]\naddress = "198.51.{i // 256}.{i % 256}"\n'
    settings += "".join(change(second, 1, True) for second in (1, 2, 11))
    old, away = inbound("1000000400000000", locator(65)), bytes([0])
    refused, out = "drop 1 refused ip 0 version", shared("delivered")
    frames = [(0, away, f"n=3 {refused}"), (3 * SECOND, old, f"n={5 + MOST} {DELIVERED}"),
              (11 * SECOND - 1, old, f"n={5 + MOST} {DELIVERED}"), (11 * SECOND, old, f"n={6 + 2 * MOST} {DELIVERED}")]
    all_told = [[told(64 * i + k + wave * MOST, f"18010a01{k:02x}00", 1, locator(i))
                 for i in range(64) for k in range(64)] for wave in (0, 1)]
    packets = [*((SECOND, one) for one in all_told[0]), (3 * SECOND, out), (11 * SECOND - 1, out),
               *((11 * SECOND, one) for one in all_told[1]), (11 * SECOND, out)]
    return row("as many are told of a change as count",
               "64 locators of 64 prefixes each; so nobody can be told behind that until 10 s are over, of a change or a "
               "version, and then they are told again.", frames, packets, 6 + 2 * MOST, settings)


# Nonces that are lifted.


def probe(i, nonce):
    """The probe of the numbered locator, of which 32 are of a mapping."""
    octets = bytearray(shared("probe"))
    octets[16:20], octets[32:40], octets[49] = locator(i), struct.pack(">Q", nonce), 24
    octets[52:56] = bytes([10, 2, i // 32, 0])
    ip_summed(octets, 0)
    udp_summed(octets, 0)
    return bytes(octets)


def lifted_nonces():
    """960 locators, 16 of which are probed at a second, and each again after a minute: in 257 seconds 4,112 probes."""
    settings = "probe = true\n" + TEXTS["fixed"].partition("[[mapping]]")[0]
    for i in range(960):
        settings += f'[[mapping]]\niid = 0\nprefix = "10.2.{i // 32}.0/24"\n' * (i % 32 == 0)
        settings += f'[[mapping.locator]]\naddress = "198.51.{i // 256}.{i % 256}"\n'
    count, nothing = 16 * 257, bytes([0])
    sent = [((1 + i // 16) * SECOND, probe(i % 960, 2**63 + i)) for i in range(count)]
    files = {"settings": settings.encode(), "in": capture_of([(0, nothing), (257 * SECOND, nothing)]), "sent": capture_of(sent)}
    words = "audit --settings settings --in in --sent sent --nonces sent"
    return Row("limits.py", "more than 4,096 nonces are lifted", "Each probe has a nonce of another router than that of the "
               "settings' seed.", [Run(words.split(), files, 0, f"audit same packets={count}\n", None)])


# Rounds.


def misses_in_rounds(name, shows, sizes, first, words):
    """Misses of so many octets, the first of them a round, which asks with its last one; those behind it find that."""
    frames = [(i * MICRO, shared("packet").ljust(size, b"\0"), f"n={int(i >= first)} drop 13 miss")
              for i, size in enumerate(sizes)]
    return row(name, shows, frames, [((first - 1) * MICRO, shared("asked"))], 1, TEXTS["tenant"], f"{REPLAY} {words}")


def rounds_by_size():
    size = len(shared("packet"))
    yield misses_in_rounds("a round of 256 frames", "So many are a round where the words say no size.",
                           [size] * 258, 256, "--workers 2")
    yield misses_in_rounds("a round of 4096 frames", "The most that may be a round.",
                           [size] * 4098, 4096, "--workers 3 --round 4096")


def rounds_by_octets():
    """63 of the longest frames, and two that bring the round to 16 MiB, or past it by one octet."""
    size = len(shared("packet"))
    full = [MOST_OCTETS] * 63 + [MOST_OCTETS - size, size, size, size]
    yield misses_in_rounds("a round of 16 MiB and one frame more", "At 16 MiB a round is still open.",
                           full, 66, "--workers 2")
    full[63] += 1
    yield misses_in_rounds("a round of an octet more than 16 MiB", "It is closed by the frame with that octet.",
                           full, 65, "--workers 2 --round 4096")


# Rounds of halves.


def large(size):
    """A packet of so many octets."""
    octets = bytearray(shared("packet").ljust(size, b"\0"))
    octets[2:4] = struct.pack(">H", size)
    ip_summed(octets, 0)
    return bytes(octets)


def halves_in_rounds(name, shows, frames, first, words):
    """Misses in rounds, of which the first has so many frames once large packets are split; each frame, and in how many
    parts it comes."""
    parts = [i for i, (_, count) in enumerate(frames) for _ in range(count)]
    lines = [f"{number} {START // SECOND}.{i * MICRO:09} n={int(number > first)} drop 13 miss\n"
             for number, i in enumerate(parts, 1)]
    report = "".join(lines) + f"end frames={len(parts)} written=1 entries=1\n"
    octets = capture_of([(i * MICRO, one) for i, (one, _) in enumerate(frames)])
    output = capture_of([(parts[first - 1] * MICRO, shared("asked"))])
    files = {"settings": TEXTS["tenant"].encode(), "in": octets}
    return Row("limits.py", name, shows, [Run(f"{REPLAY} --split on {words}".split(), files, 0, report, output)])


def rounds_by_halves():
    """Halves of the largest packets, of 65,535 octets, have 65,555; of 255 of these 60,691 are left of 16 MiB."""
    most, small = large(65535), shared("packet")
    whole = [(most, 2)] * 255
    behind = [(most, 2), (small, 1), (small, 1)]
    left = 2**24 - 255 * 65555 - 32780
    yield halves_in_rounds("a round of 16 MiB of halves is closed by the next half",
                           "A first half brings it to 16 MiB, and the second one past these.",
                           [*whole, (small.ljust(left, b"\0"), 1), *behind], 513, "--workers 2 --round 4096")
    yield halves_in_rounds("a round is closed between two halves", "The first one brings it an octet past 16 MiB.",
                           [*whole, (small.ljust(left + 1, b"\0"), 1), *behind], 512, "--workers 2 --round 4096")
    yield halves_in_rounds("what goes from behind a packet in halves doesn't count for a round",
                           "Frames of 262,144 octets each, 70 of them, of which 1,520 each are in the halves.",
                           [(large(1500).ljust(MOST_OCTETS, b"\0"), 2)] * 70, 140, "--workers 2")


def rows():
    return [open_requests(), live_mappings(), requests_of_two(), *most_limits(), wanted_echoes(), solicited_peers(),
            started_echoes(), longest_settings(), no_text(), *most_listed(), most_changes(), most_told(), lifted_nonces(),
            *rounds_by_size(), *rounds_by_octets(), *rounds_by_halves()]

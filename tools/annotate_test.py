#!/usr/bin/env python3
"""Holds the files of `annotate` against their captures and reports.

usage: annotate_test.py PROGRAM [ROUNDS [SEED]]
The comments of some examples are worked by hand. As many captures as there are rounds are made from a number, as pcap
and as pcapng: of each new file the program must make the same report and the same output as of the one it is of, all
blocks must be there as they were but for the comments, each comment must begin as its line does, and of the output
each packet must be of a frame with its moment. Where tshark and capinfos are, they must read the files and find as
many misses as the report has, and each colouring rule must be a filter. Files that don't belong together must be
refused. It prints the count of each, and ends with status 1 where something differs.
"""
import os
import random
import re
import shutil
import struct
import subprocess
import sys
import tempfile

TOP = os.path.dirname(os.path.dirname(os.path.abspath(__file__)))
TOOLS, EXAMPLES = os.path.join(TOP, "tools"), os.path.join(TOP, "examples")
sys.dont_write_bytecode = True
sys.path.insert(0, os.path.join(TOP, "crosscheck"))

from compare import capture, frames_before  # noqa: E402
from makers import settings  # noqa: E402
from makers_ng import written  # noqa: E402

SECTION, SIMPLE, ENHANCED, COMMENT = 0x0A0D0D0A, 3, 6, 1
SITE = """encapsulated: EID 10.2.0.9 of instance 100 by locator 198.51.100.7, from 192.0.2.1 port 64519
native: EID 10.2.0.9 of instance 200 is forwarded outside the tunnels, as its mapping says
drop 17 drop-policy: the mapping of EID 10.2.9.1 of instance 200 has no locators, and drops by policy
drop 10 no-attachment: its VLAN, 0, has no instance
delivered: EID 10.1.0.5 of instance 100, from EID 10.2.0.9 of instance 100 by locator 198.51.100.7
drop 5 not-ours: EID 10.1.0.5 of instance 300 is in no prefix of the site, from locator 198.51.100.7
drop 4 encrypted: the key bits of its LISP header aren't 0, from locator 198.51.100.7
drop 1 refused: neither IPv4 nor IPv6, by the rules of link, at octet 12 of the frame (ethertype)
own: the router sent it itself, from 192.0.2.1""".splitlines()
# The frames for which the packets of outputs are, 0 for those of seconds: by the pages of these examples.
FRAMES = {
    "first": [1], "site": [1, 2, 5], "cache": [1, 3], "limits": [1, 2, 5, 9, 10, 11],
    "ticks": [1, 2, 0, 0, 0, 4, 0, 5, 7], "uplink": [1, 2, 0, 3, 4, 5, 0, 7, 0, 8, 9, 10, 10],
    "echoes": [1, 2, 3, 4, 5, 6, 7, 8, 8, 9, 10, 11, 12, 13, 15, 16, 16]}
OF_FRAME = re.compile(r"[A-Za-z -]+ for frame ([0-9]+): ")


# Files.


def blocks_of(path):
    """The type, order and octets of each block of a pcapng file."""
    with open(path, "rb") as file:
        octets, at, order = file.read(), 0, "<"
    while at < len(octets):
        if octets[at:at + 4] == b"\n\r\r\n":
            order = "<" if octets[at + 8:at + 12] == b"\x4d\x3c\x2b\x1a" else ">"
        kind, size = struct.unpack_from(order + "II", octets, at)
        yield kind, order, octets[at:at + size]
        at += size


def packet_parts(order, octets):
    """What an enhanced packet block has: all before its options, and these."""
    size, = struct.unpack_from(order + "I", octets, 20)
    return octets[8:28 + size], octets[28 + size + -size % 4:-4]


def first_option(order, options):
    """The code and the value of the first option, and what is behind it but for an end of options alone."""
    code, size = struct.unpack_from(order + "HH", options)
    rest = options[4 + size + -size % 4:]
    return code, options[4:4 + size], b"" if rest == bytes(4) else rest


def comments_in(path):
    """The comment of each packet of a new file, which is its first option."""
    for kind, order, octets in blocks_of(path):
        if kind == ENHANCED:
            code, value, _ = first_option(order, packet_parts(order, octets)[1])
            yield value.decode() if code == COMMENT else None


def plain_block(kind, order, octets, is_new):
    """A block without what `annotate` changes: its comment, the size of a section, and whether a packet is simple."""
    if kind == SECTION:
        return kind, octets[8:16], octets[24:-4]
    if kind == SIMPLE:
        whole, = struct.unpack_from(order + "I", octets, 8)
        return "simple", whole, octets[12:-4][:whole]
    if kind == ENHANCED:
        front, options = packet_parts(order, octets)
        return kind, front, first_option(order, options)[2] if is_new else b"" if options == bytes(4) else options
    return kind, octets


def is_kept(old, new):
    """Whether a block of an old file is that of the new one."""
    was, now = plain_block(*old, False), plain_block(*new, True)
    if was[0] != "simple":
        return was == now
    whole, = struct.unpack_from(new[1] + "I", new[2], 24)
    return whole == was[1] and now[1][20:] == was[2][:len(now[1]) - 20]


def wrong(what, wanted, got):
    """Tells of what differs; how many things do."""
    if wanted != got:
        print(f"{what}\n  wanted {wanted}\n  got    {got}")
    return int(wanted != got)


class Folder:
    """A folder of files by their names, and calls of the program and of `annotate`."""

    def __init__(self, folder, program):
        self.folder, self.program = folder, program

    def path(self, name):
        return os.path.join(self.folder, name)

    def write(self, name, content):
        with open(self.path(name), "wb") as file:
            file.write(content)

    def read(self, name):
        with open(self.path(name), "rb") as file:
            return file.read()

    def replay(self, name, form):
        """The report and the output of a capture."""
        words = ["--settings", self.path("settings"), "--in", self.path(name), "--out", self.path("output")]
        done = subprocess.run([self.program, "replay", *words, "--format", form], capture_output=True)
        return done.stdout, self.read("output") if os.path.exists(self.path("output")) else b""

    def annotate(self, *words):
        done = subprocess.run([sys.executable, "-B", os.path.join(TOOLS, "annotate"), *words],
                              capture_output=True, text=True)
        return done.returncode, done.stderr

    def annotate_files(self, capture_name, out, *words):
        return self.annotate("--in", self.path(capture_name), "--report", self.path("report"), "--settings",
                             self.path("settings"), "--out", self.path(out), *words)


# What is tried.


def files_of(name):
    folder = os.path.join(EXAMPLES, name)
    return {word: os.path.join(folder, file) for word, file in (
        ("--in", "capture.pcap"), ("--report", "expected.txt"), ("--settings", "settings.toml"))}


def words_of(files):
    return [word for pair in files.items() for word in pair]


def try_examples(folder):
    """Comments that are worked by hand, and the frames of outputs."""
    out, failed = folder.path("new"), 0
    failed += wrong("site", (0, ""), folder.annotate(*words_of(files_of("site")), "--out", out))
    failed += wrong("site, comments", SITE, list(comments_in(out)))
    for name, frames in FRAMES.items():
        sent = os.path.join(EXAMPLES, name, "expected.pcap")
        failed += wrong(name, (0, ""), folder.annotate(*words_of(files_of(name)), "--sent", sent, "--out", out))
        failed += wrong(f"{name}, frames", frames, [frame_in(text) for text in comments_in(out)])
    return 2 + 2 * len(FRAMES), failed


def frame_in(comment):
    """The frame that a comment of an output's packet names, or 0."""
    found = OF_FRAME.match(comment)
    return int(found[1]) if found else 0


def try_refused(folder):
    """Files that don't belong together, and words that are wrong."""
    site, uplink = files_of("site"), files_of("uplink")
    with open(site["--report"], "rb") as file:
        lines = file.read().splitlines(keepends=True)
    folder.write("short", b"".join(lines[:4]))
    folder.write("wrong", b"".join(lines[:4]) + b"5 1700000000.400000000 n=3 local\n" + b"".join(lines[5:]))
    folder.write("no report", b"hello\n")
    folder.write("cut", folder.read(site["--in"])[:-1])
    cases = {
        "another report": (site | {"--report": uplink["--report"]}, 1, "line 2 isn't of frame 2"),
        "other settings": (site | {"--settings": files_of("cache")["--settings"]}, 1, "its VLAN is 5"),
        "a wrong line": (site | {"--report": folder.path("wrong")}, 1, "line 5 isn't of frame 5"),
        "a report that is cut": (site | {"--report": folder.path("short")}, 1, "5 frames have no comment"),
        "no report": (site | {"--report": folder.path("no report")}, 1, "line 1 isn't that of frame 1"),
        "a cut capture": (site | {"--in": folder.path("cut")}, 2, "ends within the record at octet"),
        "no capture": (site | {"--in": folder.path("none")}, 2, "No such file"),
        "the report as a capture": (site | {"--in": site["--report"]}, 2, "neither a pcap nor a pcapng file"),
        "an unknown word": (site | {"--colour": "red"}, 2, "tools/annotate --help"),
        "halves without settings": ({word: site[word] for word in ("--in", "--report")} | {"--split": "on"}, 2,
                                    "needs --settings"),
    }
    failed = 0
    for what, (files, status, text) in cases.items():
        ended = folder.annotate(*words_of(files), "--out", folder.path("new"))
        failed += wrong(f"{what}: {ended[1]}", (status, True), (ended[0], text in ended[1]))
    same = folder.annotate(*words_of(site | {"--in": folder.path("cut")}), "--out", folder.path("cut"))
    return len(cases) + 1, failed + wrong("the capture as the new file", 2, same[0])


def begins_alike(line, comment):
    """Whether a comment begins as the verdict of its line: by its first words, of a drop with its number and word."""
    verdict = line.split(" ", 3)[3].split(" ")
    words = verdict[:3] if verdict[0] == "drop" else verdict[:1 + (verdict[0] == "control")]
    return comment is not None and comment.startswith(" ".join(words) + ":")


def try_capture(folder, name, form, what):
    """A capture and its new file, and the new file of its output."""
    report, output = folder.replay(name, form)
    folder.write("report", report)
    lines = [line for line in report.decode().splitlines() if line[0].isdigit()]
    is_whole = report.decode().splitlines()[-1].startswith("end ")
    if not is_whole:
        return 0, 0
    failed = wrong(f"{what}, annotated", (0, ""), folder.annotate_files(name, "new"))
    failed += wrong(f"{what}, replayed", (report, output), folder.replay("new", "ng"))
    comments = list(comments_in(folder.path("new")))
    failed += wrong(f"{what}, count", len(lines), len(comments))
    failed += wrong(f"{what}, comments", [], [pair for pair in zip(lines, comments) if not begins_alike(*pair)])
    if form == "ng":
        pairs = zip(blocks_of(folder.path(name)), blocks_of(folder.path("new")))
        failed += wrong(f"{what}, blocks", [], [old for old, new in pairs if not is_kept(old, new)])
    folder.write("sent", output)
    failed += wrong(f"{what}, output", (0, ""), folder.annotate_files(name, "new sent", "--sent", folder.path("sent")))
    return 6 + (form == "ng"), failed + wrong(f"{what}, frames", [], strays(folder, lines))


def strays(folder, lines):
    """The packets of an output that are of no frame, though at none but a whole second, or of another moment's."""
    found = []
    packets = [octets for kind, _, octets in blocks_of(folder.path("new sent")) if kind == ENHANCED]
    for octets, comment in zip(packets, comments_in(folder.path("new sent"))):
        high, low = struct.unpack_from("<II", octets, 12)
        seconds, rest = divmod(high << 32 | low, 10**9)
        number = frame_in(comment)
        if number and lines[number - 1].split(" ")[1] != f"{seconds}.{rest:09}" or not number and rest:
            found.append((f"{seconds}.{rest:09}", comment))
    return found


def try_rounds(folder, rounds, seed):
    tried = failed = 0
    for number in range(rounds):
        numbers = random.Random(f"annotate {seed} {number}")
        text = settings(numbers)
        folder.write("settings", text.encode())
        capture(numbers, text, folder.path("in"))
        folder.write("in ng", written(numbers, frames_before(folder.path("in"))).octets())
        for name, form in (("in", "classic"), ("in ng", "ng")):
            counts = try_capture(folder, name, form, f"seed {seed}, round {number}, {form}")
            tried, failed = tried + counts[0], failed + counts[1]
    return tried, failed


def tshark(path, *words):
    done = subprocess.run(["tshark", "-n", "-r", path, *words], capture_output=True, text=True, check=True)
    return done.stdout.splitlines()


def try_tools(folder):
    """What tshark and capinfos make of a new file; nothing is tried where they aren't."""
    if not shutil.which("tshark") or not shutil.which("capinfos"):
        return 0, 0
    files, out, failed = files_of("limits"), folder.path("new"), 0
    folder.annotate(*words_of(files), "--out", out)
    texts = tshark(out, "-T", "fields", "-e", "frame.comment")
    failed += wrong("tshark, comments", list(comments_in(out)), texts)
    failed += wrong("tshark, misses", 6, len(tshark(out, "-Y", 'frame.comment contains "miss"')))
    said = subprocess.run(["capinfos", "-c", "-M", out], capture_output=True, text=True)
    is_counted = re.search(r"packets: +11$", said.stdout, re.M) is not None
    failed += wrong("capinfos", (0, True), (said.returncode, is_counted))
    with open(os.path.join(TOOLS, "wireshark", "colorfilters")) as file:
        # The first rule that is fulfilled gives the colour: a miss is also of the rule for all drops.
        rules = [line.split("@")[2] for line in file if line.startswith("@")]
    counts = [len(tshark(out, "-Y", rule)) for rule in rules]
    return 4, failed + wrong("colours", [0, 6, 0, 0, 0, 6, 0, 3, 2, 0, 0, 0], counts)


def main():
    words = sys.argv[1:]
    if not 1 <= len(words) <= 3:
        print("usage: annotate_test.py PROGRAM [ROUNDS [SEED]]", file=sys.stderr)
        return 2
    numbers = [int(word) for word in words[1:]]
    rounds, seed = numbers + [10, 1][len(numbers):]
    with tempfile.TemporaryDirectory() as name:
        folder = Folder(name, os.path.abspath(words[0]))
        kinds = {"examples": try_examples(folder), "refused": try_refused(folder), "wireshark": try_tools(folder),
                 "captures": try_rounds(folder, rounds, seed)}
    for kind, (tried, failed) in kinds.items():
        print(f"{kind}: {tried} tried, {failed} differ")
    tried, failed = map(sum, zip(*kinds.values()))
    print(f"{tried} comparisons, {failed} differ")
    return int(failed > 0)


if __name__ == "__main__":
    sys.exit(main())

"""A plain sentence for each word of a fault, and the last line of a run that has one."""
import os
import re
import stat
import subprocess
import threading

from keys import key_sentence, value_sentence
from pairs import value_of

REPORT, TAIL, SECONDS = 1, 65_536, 3
# The sentences, with the numbers that stand behind the word. A key may have one of its own, with N for its positions;
# what keys take, and what is meant by one that isn't known, stands in `keys`.
SENTENCES = {
    "settings": {
        "not-toml": "the file isn't TOML",
        "too-long": "the file has more than 16,777,216 octets",
        "unknown-key": "this key isn't one that its table may have",
        "missing": "this key must be there, and isn't",
        "bad-value": "the value of this key isn't one that it takes",
        "duplicate": "an earlier item of the list has the same address, VLAN, instance and prefix, second and address, or "
                     "instance",
        "too-many": "the list at this key has more items than it may have",
        "too-many limit": "there are more than 4,096 limits; or they come, with the mappings of the file, to more than "
                          "65,536 mappings, or to more than 16,384 requests",
    },
    "capture": {
        "bad-magic": "the file doesn't begin as a capture in the pcap format does; a pcapng file is replayed with "
                     "--format ng",
        "bad-version": "the capture is of another version of pcap than 2.4",
        "bad-link": "the frames of the capture are neither Ethernet nor raw IP",
        "cut-header": "the file has {} octets, fewer than the header of a capture",
        "cut-record": "the file ends within the record that begins at octet {}",
        "bad-fraction": "the record that begins at octet {} has a moment whose fraction is a whole second or more",
        "too-long": "the record that begins at octet {} has {} octets, more than 262,144",
        "span-too-long": "record {} is more than 1,000,000 s past all before it",
        "too-many-records": "the capture has more than 1,000,000,000 records",
    },
    # Of a capture that is read by --format ng.
    "pcapng": {
        "bad-magic": "the file or a later section of it doesn't begin as pcapng does; a capture in the pcap format is "
                     "replayed without --format ng",
        "cut-block": "the file ends within the block that begins at octet {}",
        "bad-length": "the block that begins at octet {} has a wrong length, two that differ, or a packet that doesn't "
                      "fit in it",
        "too-long": "the block that begins at octet {}, or its packet, has {} octets: more than 1,048,576, or than "
                    "262,144",
        "old-packet": "the block that begins at octet {} is an obsolete packet block; editcap -F pcapng makes a file "
                      "without these",
        "bad-version": "the section that begins at octet {} is of another major version of pcapng than 1",
        "bad-option": "the interface that is described at octet {} has an option that doesn't fit, a unit of time that "
                      "is none or below 10^-19 or 2^-63 s, or added seconds that aren't 8 octets",
        "too-many-interfaces": "the interface that is described at octet {} is one more than the 4,095 of a section",
        "bad-interface": "the packet in the block at octet {} is of an interface that its section didn't describe "
                         "before",
        "bad-link-type": "the packet in the block at octet {} is of an interface that is neither Ethernet nor raw IP",
        "bad-moment": "the packet in the block at octet {} has a time before 1970, or 2^32 s behind that or later",
        "span-too-long": "frame {} is more than 1,000,000 s past all before it",
        "too-many-records": "the file has more than 1,000,000,000 frames, or than 4,000,000,000 blocks",
    },
}
# What an audit has otherwise.
AUDITED = {
    "bad-value echo": "it is true or false, and with --nonces sent not true: a packet that asks for an echo has but 24 "
                      "bits of its nonce",
    "bad-magic": "the file doesn't begin as a capture in the pcap format does; of a pcapng file editcap -F nsecpcap "
                 "makes one",
}
# What is said of a key.
OF_KEYS = {"bad-value": value_sentence, "unknown-key": key_sentence}
# The words with which a last line of a status begins: an audit reads two captures.
KINDS = {"settings": ("settings",), "capture": ("capture", "sent")}
LINE = re.compile(rb"(?:^|\n)((?:settings|capture|sent) [^\n]*)\n$")
# A file that is no folder, under which none can be made.
EMPTY, NOWHERE = "/dev/null", "/dev/null/lispr"


def sentence(line, words):
    """The plain sentence for a last line of a run with these words, or None."""
    kind, _, rest = line.partition(" ")
    word, *others = rest.split(" ")
    known = {**table(kind, words), **(AUDITED if is_audit(words) else {})}
    numbered = re.sub(r"\.\d+", ".N", rest)
    of_key = OF_KEYS.get(word) if kind == "settings" and numbered not in known else None
    said = of_key(rest.partition(" ")[2]) if of_key else None
    if said:
        return said
    try:
        return known.get(numbered, known.get(word, "")).format(*others) or None
    except IndexError:
        return None


def table(kind, words):
    """The sentences for a last line that begins with that word."""
    if kind == "settings":
        return SENTENCES["settings"]
    return SENTENCES["pcapng" if is_pcapng(words) else "capture"]


def is_audit(words):
    return words[:1] == ["audit"]


def is_pcapng(words):
    """Whether the words say that the capture is a pcapng file."""
    return value_of("--format", words) == "ng"


def line_of_report():
    """The last line of the report, where that is a file that can be read."""
    if not stat.S_ISREG(os.fstat(REPORT).st_mode):
        return None
    end = os.lseek(REPORT, 0, os.SEEK_CUR)
    with open(f"/proc/self/fd/{REPORT}", "rb") as file:
        file.seek(max(0, end - TAIL))
        found = LINE.search(file.read(min(end, TAIL)))
    return found.group(1) if found else None


def again(kind, words):
    """The files to be read once more for a last line of that kind, and the program's words that do it and make none."""
    settings, capture, sent = (value_of(name, words) for name in ("--settings", "--in", "--sent"))
    if is_audit(words):
        # It makes no file.
        return [settings, capture, sent], words
    if kind == "settings":
        return [settings], ["replay", "--settings", settings, "--in", EMPTY, "--out", NOWHERE]
    if is_pcapng(words):
        # Nothing but a replay reads that format.
        files = [settings, capture]
        return files, ["replay", "--settings", settings, "--in", capture, "--out", EMPTY, "--format", "ng"]
    return [capture], ["show", "--in", capture]


def tail_of(command):
    """The end of what a command says within some seconds, and its status."""
    with subprocess.Popen(command, stdin=subprocess.DEVNULL, stdout=subprocess.PIPE) as process:
        clock = threading.Timer(SECONDS, process.kill)
        clock.start()
        tail = b""
        for piece in iter(lambda: process.stdout.read(TAIL), b""):
            tail = (tail + piece)[-TAIL:]
        clock.cancel()
    return tail, process.returncode


def line_again(kind, status, program, words):
    """The last line that the program says for the same file, or None."""
    files, words = again(kind, words)
    if not all(name and os.path.isfile(name) for name in files):
        return None
    tail, ended = tail_of([program, *words])
    found = LINE.search(tail) if ended == status else None
    return found.group(1) if found else None


def last_line(kind, status, program, words):
    """The last line of a run that ended with that status, or None where it can't be known."""
    try:
        line = line_of_report()
    except (OSError, ValueError):
        line = None
    if line is None or not line.startswith(tuple(word.encode() for word in KINDS[kind])):
        line = line_again(kind, status, program, words)
    return line.decode("utf-8", "surrogateescape") if line else None

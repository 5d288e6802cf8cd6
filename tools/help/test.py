#!/usr/bin/env python3
"""Runs the script `lispr`, and the help that it starts, beside the program, and compares what they say and end with.

usage: test.py [PART..]
The program must stand as built. Standard output and status must be the program's own; what a person is told must have
the words of a table; a terminal is one of the system's own pairs. It prints a line a part, behind what is wrong, and
ends with status 1 where something is.
"""
import contextlib
import fcntl
import os
import pty
import re
import resource
import shutil
import signal
import socket
import struct
import subprocess
import sys
import tempfile
import termios
import threading
import time

HERE = os.path.dirname(os.path.abspath(__file__))
TOP = os.path.dirname(os.path.dirname(HERE))
LISPR, PROGRAM = os.path.join(TOP, "lispr"), os.path.join(TOP, "out", "lispr")
FIRST = os.path.join(TOP, "examples", "first")
LINES = os.path.join(TOP, "crates", "replay", "specs", "Lines.antt")
# The help that the script starts.
HELP = [sys.executable, "-I", "-S", "-B", "-X", "utf8", os.path.join(HERE, "main.py"), PROGRAM]
SECONDS = 300
sys.path.insert(0, HERE)
from faults import SENTENCES  # noqa: E402
from words import MAPPINGS, NUMBERS  # noqa: E402

LOCATOR = '[[locator]]\naddress = "192.0.2.1"\n'
OTHER, CHANGE = LOCATOR.replace("2.1", "2.2"), '[[change]]\nat = 1\naddress = "192.0.2.1"\nup = true\n'
ATTACHED, LIMIT = "[[attachment]]\nvlan = 0\niid = 7\n", "[[limit]]\niid = 7\nmappings = 65536\nrequests = 1\n"
MAPPING = '[[mapping]]\niid = 7\nprefix = "10.0.0.0/8"\n'
# Of more than 4 MiB, in 180,002 lines.
LONG = LOCATOR + 60_000 * "# a mapping, of which there are many, so that the file is long\n[[mapping]]\niid = 7\n"
REPLAY = ["replay", "--settings", "s.toml", "--in", "i.pcap", "--out", "o.pcap"]
AUDIT = ["audit", "--settings", "s.toml", "--in", "i.pcap", "--sent", "o.pcap"]
wrong = []


def check(is_right, *what):
    if not is_right:
        wrong.append(what)
        print("wrong:", *what)


def run(command, folder, **more):
    """Status, standard output and standard error."""
    more = {"stdin": subprocess.DEVNULL, "stdout": subprocess.PIPE, "stderr": subprocess.PIPE, **more}
    done = subprocess.run(command, cwd=folder, timeout=SECONDS, **more)
    return done.returncode, done.stdout, (done.stderr or b"").decode(errors="replace")


def both(words, folder, **more):
    """What the help ends with, says and tells; the program must end with the same, and say the same."""
    alone = run([PROGRAM, *words], folder, **more)
    helped = run([*HELP, *words], folder, **more)
    check(helped[:2] == alone[:2], words, alone[:2], helped)
    check(alone[2] == "", words, "told by the program", alone[2])
    return helped


def write(path, octets):
    with open(path, "wb") as file:
        file.write(octets if isinstance(octets, bytes) else octets.encode())


def read(path):
    with open(path, "rb") as file:
        return file.read()


def header(magic=0xA1B2C3D4, version=2, link=101):
    return struct.pack("<IHHIIII", magic, version, 4, 0, 0, 262144, link)


def record(second, fraction, size, octets=None):
    return struct.pack("<IIII", second, fraction, size, size) + (bytes(size) if octets is None else octets)


def frames(count):
    """A capture of packets that the first example encapsulates."""
    frame = read(os.path.join(FIRST, "capture.pcap"))
    return frame[:24] + frame[24:] * count


@contextlib.contextmanager
def files():
    """A folder with the settings and the capture of the first example."""
    with tempfile.TemporaryDirectory(prefix="a b ") as folder:
        shutil.copy(os.path.join(FIRST, "settings.toml"), os.path.join(folder, "s.toml"))
        shutil.copy(os.path.join(FIRST, "capture.pcap"), os.path.join(folder, "i.pcap"))
        yield folder


# Words.

WORDS = [
    ([], "lispr show --in F"),
    (["show"], "docs/REFERENCE.md"),
    (["help"], "lispr trial N"),
    (["--version", "x"], "--version is no command"),
    (["show", "--version"], "--version is no option of show"),
    (["replay"], "[--format classic|ng] [--interfaces none|vlan] [--split on|off]\n      [--workers W] [--round N]"),
    (["play"], "play is no command"),
    ([""], "'' is no command"),
    (["trial"], "trial lacks its number"),
    (["trial", "03"], "N is a number from 1 to 50,000, in digits without leading zeros: 03 isn't"),
    (["trial", "1", "2"], "2 is one word more"),
    (["show"], "--in lacks"),
    (["show", "--in"], "--in has no value"),
    (["show", "--in", ""], "the value of --in is empty"),
    (["show", "--in", "-x"], "a file of that name is ./-x"),
    (["show", "--in", "-"], "standard input is --in /dev/stdin, and a file of that name is ./-"),
    ([*REPLAY[:-1], "-"], "a value doesn't begin with -: a file of that name is ./-"),
    (["show", "--in=x"], "the value is a word of its own, --in x"),
    (["show", "--out", "x"], "--out is no option of show"),
    (["show", "--", "x"], "-- is no option of show"),
    (["show", "--in", "x\x1b[31m", "y"], "y is no option"),
    (["show", "--in", b"\xff"], "a word is no UTF-8 text"),
    (["replay", "--in", "--out", "x"], "--in has no value: behind it comes --out"),
    (["replay", "--in", "a", "--in", "b"], "--in stands twice"),
    (["replay", "--in", "a", "--out", "b"], "--settings lacks"),
    ([*REPLAY, "--format"], "--format has no value"),
    ([*REPLAY, "--format=ng"], "the value is a word of its own, --format ng"),
    ([*REPLAY, "--format", "pcapng"], "--format is classic or ng, and not pcapng"),
    ([*REPLAY, "--format", "ng", "--interfaces", "VLAN"], "--interfaces is none or vlan, and not VLAN"),
    ([*REPLAY, "--interfaces", "vlan"], "--interfaces vlan goes with --format ng alone"),
    ([*REPLAY, "--interfaces", "vlan", "--format", "classic"], "--interfaces vlan goes with --format ng alone"),
    (["show", "--in", "i.pcap", "--format", "ng"], "--format is no option of show"),
    ([*REPLAY, "--split"], "--split has no value"),
    ([*REPLAY, "--split=on"], "the value is a word of its own, --split on"),
    ([*REPLAY, "--split", "yes"], "--split is on or off, and not yes"),
    ([*REPLAY, "--split", "On"], "--split is on or off, and not On"),
    ([*REPLAY, "--split", "on", "--split", "on"], "--split stands twice"),
    ([*REPLAY, "--spilt", "on"], "--spilt is no option of replay"),
    (["show", "--in", "i.pcap", "--split", "on"], "--split is no option of show"),
    (["trial", "3", "--split", "on"], "--split is one word more"),
    (["audit"], "lispr audit --settings F --in F --sent F [--nonces settings|sent]\n      the capture of --sent is held"),
    (["audit"], "--settings lacks"),
    (AUDIT[:5], "--sent lacks"),
    (AUDIT[:6], "--sent has no value"),
    ([*AUDIT, "--sent", "x"], "--sent stands twice"),
    ([*AUDIT, "--out", "x"], "--out is no option of audit"),
    ([*AUDIT, "--format", "classic"], "--format is no option of audit"),
    ([*AUDIT, "--workers", "0"], "--workers is no option of audit"),
    ([*AUDIT, "--nonces"], "--nonces has no value"),
    ([*AUDIT, "--nonces=sent"], "the value is a word of its own, --nonces sent"),
    ([*AUDIT, "--nonces", "seed"], "--nonces is settings or sent, and not seed"),
    ([*AUDIT, "--nonces", "sent", "--nonces", "sent"], "--nonces stands twice"),
    ([*REPLAY, "--sent", "x"], "--sent is no option of replay"),
    ([*REPLAY, "--nonces", "sent"], "--nonces is no option of replay"),
    (["show", "--in", "i.pcap", "--sent", "x"], "--sent is no option of show"),
    ([*REPLAY, "--workers", "17"], "--workers is a number from 0 to 16"),
    ([*REPLAY, "--round", "0"], "--round is a number from 1 to 4,096"),
    ([*REPLAY, "--round", "9" * 5000], "--round is a number from 1 to 4,096"),
    (["replay", "--settings", "s", "--in", "i", "--out", "i"], "--in and --out are the same file, i"),
    (["replay", "--settings", "s", "--in", "i", "--out", "s"], "--settings and --out are the same file, s"),
]


def test_words():
    with files() as folder:
        for words, part in WORDS:
            status, said, told = both(words, folder)
            check((status, said) == (1, b"usage\n") and part in told and "\x1b" not in told, words, told)
        for words, part in WORDS[:3]:
            done = run([LISPR, *words], folder)
            check(done[:2] == (1, b"usage\n") and part in done[2], words, done)
        for name, limits in NUMBERS["replay"].items():
            for number in (limits[0] - 1, limits[0], limits[1], limits[1] + 1):
                status, _, told = both([*REPLAY, name, str(number)], folder)
                check(status == (0 if limits[0] <= number <= limits[1] else 1), name, number, status, told)
        check(both(["trial", str(MAPPINGS[1] + 1)], folder)[0] == 1, "a mapping more")
    return len(WORDS)


# Questions to the script.

ASKED = [
    (["--help"], ["lispr show --in F", "lispr trial N", "--split on|off ", "3 capture refused", "docs/REFERENCE.md"], []),
    (["-h"], ["lispr audit --settings F", "lispr --version"], []),
    (["show", "--help"], ["lispr show --in F", "--in F "], ["lispr trial", "--settings F", "--format"]),
    (["replay", "--in", "-h", "x"], ["[--format classic|ng]", "--round N"], ["lispr show", "--sent"]),
    (["trial", "-h"], ["lispr trial N"], ["options:"]),
]


def test_asked():
    """Help and the version come on standard output, whether the program is built or not."""
    with files() as folder:
        for words, parts, others in ASKED:
            for command in ([LISPR], HELP):
                status, said, told = run([*command, *words], folder)
                check((status, told) == (0, ""), words, status, told)
                check(all(part in said.decode() for part in parts), words, said)
                check(not any(part in said.decode() for part in others), words, said)
        commit = run(["git", "describe", "--always", "--dirty", "--abbrev=12"], TOP)[1].decode().strip()
        status, said, told = run([LISPR, "--version"], folder)
        check((status, told) == (0, "") and re.fullmatch(rf"lispr {commit}, \S+\n", said.decode()), said, told)
        for words in (["--help"], ["--version"]):
            check(run([LISPR, *words], folder, **full(folder))[0] == 4, words, "on a full device")
        with unbuilt(folder, "echo built >&2; exit 1") as (script, environment):
            for words, part in ((["show", "-h"], "lispr show --in F"), (["--version"], "rattle-kit-9")):
                status, said, told = run([script, *words], folder, env=environment)
                check((status, told) == (0, "") and part in said.decode(), words, "unbuilt", status, said, told)
    return len(ASKED)


# Statuses.

def test_right_runs():
    with files() as folder:
        link = os.path.join(folder, "a link")
        os.symlink(LISPR, link)
        os.mkdir(os.path.join(folder, "-d"))
        shutil.copy(os.path.join(folder, "i.pcap"), os.path.join(folder, "-d", "in put"))
        other = ["replay", "--settings", "./s.toml", "--in", "./-d/in put", "--out", "./-d/out put"]
        for command in ([LISPR], [link], ["./a link"], ["bash", "-u", LISPR]):
            for words, out in ((REPLAY, "o.pcap"), (other, "-d/out put")):
                write(os.path.join(folder, out), "old " * 1000)
                done = run([*command, *words], folder, env={**os.environ, "CDPATH": "/"})
                check(done == (0, read(os.path.join(FIRST, "expected.txt")), ""), command, words, done)
                made = read(os.path.join(folder, out))
                check(made == read(os.path.join(FIRST, "expected.pcap")), command, words, "another output")
        check(both(["trial", "3"], folder)[2] == "", "trial")
        check(both(["show", "--in", "i.pcap"], folder)[2] == "", "show")
        shell = f'exec "{LISPR}" show --in <(cat i.pcap)'
        check(run(["bash", "-c", shell], folder) == (*both(["show", "--in", "i.pcap"], folder)[:2], ""), "a pipe")


SETTINGS = [
    ("x =", "not-toml", "s.toml:1: x ="),
    (b"\n\n# \xff", "not-toml", "s.toml:3: this line is no UTF-8"),
    (LOCATOR + "#" * 16777216, "too-long", "more than 16,777,216 octets"),
    ("\n# no more\n", "missing locator", "s.toml:2: it should be behind this line"),
    ("locator = []", "missing locator", "s.toml:1: locator = []"),
    ("ttl = 1\n\nfoo = 1\n" + LOCATOR, "unknown-key foo", "s.toml:3: foo = 1"),
    ('"a\\u001bb" = 1\n' + LOCATOR, "unknown-key a", 's.toml:1: "a\\u001bb" = 1'),
    ('"a b.c" = 1\n' + LOCATOR, "unknown-key a b.c", 's.toml:1: "a b.c" = 1'),
    (LOCATOR + "up = 3\n", "bad-value locator.0.up", "s.toml:3: up = 3"),
    (LOCATOR + "up = 3\n", "bad-value locator.0.up", "it takes true or false\n"),
    (LOCATOR + "weight = -1\n", "bad-value locator.0.weight", "it takes a whole number from 0 to 255\n"),
    ("ttl = 0\n" + LOCATOR, "bad-value ttl", "it takes a whole number from 1 to 4,294,967,294\n"),
    ("seed = ''\n" + LOCATOR, "bad-value seed", "it takes a text of 64 hexadecimal digits\n"),
    (LOCATOR.replace("2.1", "2.1/32"), "bad-value locator.0.address", 'an address as "192.0.2.1" or "2001:db8::1"\n'),
    ('[locator]\naddress = "192.0.2.1"\n', "bad-value locator", "each behind a line [[locator]] of its own"),
    (LOCATOR + "[[attachment]]\nvlan = 4096\niid = 7\n", "bad-value attachment.0.vlan", "number from 0 to 4,095\n"),
    (LOCATOR + MAPPING.replace("/8", ""), "bad-value mapping.0.prefix", "a length of at most 32, of IPv6 128"),
    (LOCATOR + MAPPING + "locator = 3\n", "bad-value mapping.0.locator", "a line [[mapping.locator]] of its own"),
    (LOCATOR + MAPPING + "[[mapping.locator]]\naddress = 3\n", "bad-value mapping.0.locator.0.address",
     "takes an address as"),
    (LOCATOR + "adress = 3\n", "unknown-key locator.0.adress",
     "[[locator]] has no such key: address is meant, perhaps\n"),
    (LOCATOR + MAPPING + "locators = 3\n", "unknown-key mapping.0.locators", "locator is meant, perhaps\n"),
    (LOCATOR + "prefix = 3\n", "unknown-key locator.0.prefix", "is a key of [[database]] and [[mapping]]\n"),
    (LOCATOR + "zzz = 3\n", "unknown-key locator.0.zzz", "no such key; it has address, priority, weight, up\n"),
    ("reslover = 3\n" + LOCATOR, "unknown-key reslover", "no such key: resolver is meant, perhaps\n"),
    ("\n" + LOCATOR + "probe = true\n", "unknown-key locator.0.probe",
     "probe belongs on top\nlispr: s.toml:4: probe = true\n"),
    ("\n" + LOCATOR + "probe = true\n", "unknown-key locator.0.probe",
     "move it up, before the first table: s.toml:2: [[locator]]"),
    (LOCATOR + MAPPING + "[[mapping.locator]]\nreslover = 3\n", "unknown-key mapping.0.locator.0.reslover",
     "before the first table: s.toml:1: "),
    (LONG + "x =\n" + MAPPING, "not-toml", "s.toml:180003: x =\n"),
    (LONG + "iid = 9\n" + MAPPING, "not-toml", "s.toml:180003: iid = 9\n"),
    ("x =\n" + LONG, "not-toml", "s.toml:1: x =\n"),
    ('resolver = "::1"\n' + LOCATOR, "bad-value resolver", "of whose family an own locator is up"),
    ('nonces = [ # "x"\n"0102030405060708",\n\n"1",]\n' + LOCATOR, "bad-value nonces.1", 's.toml:4: "1",]'),
    (LOCATOR + "\n" + LOCATOR, "duplicate locator.1", "s.toml:4: [[locator]]"),
    ('locator = [{address = "192.0.2.1", "weight" = 1},\n{priority = 1}]', "missing locator.1.address",
     "s.toml:2: {priority = 1}]  (it should be in the table that begins here)"),
    (LOCATOR + "[[mapping]]\niid = 1\nprefix = '''10.0.0.0/8'''\n[[mapping.locator]]\n# [[mapping]]\n",
     "missing mapping.0.locator.0.address", "s.toml:6: [[mapping.locator]]  (it should be"),
    (LOCATOR + "[[database]]\niid = 1\n" * 65, "too-many database", "s.toml:3: [[database]]"),
    (OTHER + CHANGE, "bad-value change.0.address", ", that of an own locator"),
    (OTHER + CHANGE, "bad-value change.0.address", 's.toml:5: address = "192.0.2.1"'),
    (LOCATOR + CHANGE * 2, "duplicate change.1", "s.toml:7: [[change]]"),
    (LOCATOR + CHANGE * 2, "duplicate change.1", "second and address, or"),
    ("change = [\n{at = 1, up = true}]\n" + LOCATOR, "missing change.0.address", "s.toml:2: {at = 1, up = true}]  (it should"),
    (LOCATOR + LIMIT, "bad-value limit.0.iid", ", the instance of an attachment"),
    (LOCATOR + ATTACHED + LIMIT * 2, "duplicate limit.1", "s.toml:10: [[limit]]"),
    (LOCATOR + ATTACHED + LIMIT + '[[mapping]]\niid = 7\nprefix = "::/0"\n', "too-many limit", "s.toml:6: [[limit]]"),
    (LOCATOR + ATTACHED + LIMIT + '[[mapping]]\niid = 7\nprefix = "::/0"\n', "too-many limit", "more than 65,536 mappings"),
]


def test_settings():
    with files() as folder:
        for text, line, part in SETTINGS:
            write(os.path.join(folder, "s.toml"), text)
            for said, told in (both(REPLAY, folder)[1:], *in_file(REPLAY, folder, 2)):
                check(said.startswith(b"settings " + line.encode()), line, said)
                check(f"settings {line}" in told and part in told and "\x1b" not in told, line, told)
            check(not os.path.exists(os.path.join(folder, "o.pcap")), line, "made an output")
        shell = f'exec "{LISPR}" replay --settings <(cat s.toml) --in i.pcap --out o.pcap'
        status, _, told = run(["bash", "-c", shell], folder)
        check(status == 2 and "the settings are refused" in told, "settings from a pipe", told)
    return len(SETTINGS)


DATABASE = '[[database]]\niid = 7\nprefix = "10.0.0.0/8"\n'
IPV6 = '[[{}]]\niid = 7\nprefix = "2001:db8:{}::/{}"\n'
# Right settings, and what is warned of: the whole of standard error, without what stands before each line.
WARNED = [
    (LOCATOR, []),
    (LOCATOR.replace("192.0.2.1", "224.0.0.1"), ["2: the own locator 224.0.0.1 is no unicast address"]),
    ("ttl = 1 # a\n\n" + LOCATOR, []),
    (LOCATOR.replace("192.0.2.1", "0.0.0.0"), ["own locator 0.0.0.0 is no unicast"]),
    (LOCATOR.replace("192.0.2.1", "255.255.255.255"), ["own locator 255.255.255.255 is no unicast"]),
    (LOCATOR.replace("192.0.2.1", "223.255.255.255"), []),
    (LOCATOR.replace("192.0.2.1", "ff02::1"), ["own locator ff02::1 is no unicast"]),
    (LOCATOR.replace("192.0.2.1", "::"), ["own locator :: is no unicast"]),
    (LOCATOR.replace("192.0.2.1", "fe80::1"), []),
    (OTHER + LOCATOR.replace("192.0.2.1", "239.1.1.1") + "up = false # it's so\n", ["4: the own locator 239.1.1.1 is"]),
    (LOCATOR + DATABASE + MAPPING,
     ["8: the mapping of 10.0.0.0/8 is hidden by the site's own prefix 10.0.0.0/8 of line 5: packets to it are local"]),
    (LOCATOR + MAPPING.replace("0.0.0/8", "9.0.0/16") + DATABASE, ["5: the mapping of 10.9.0.0/16 is hidden by"]),
    (LOCATOR + DATABASE + MAPPING.replace("10.0.0.0/8", "10.0.0.0/7"), []),
    (LOCATOR + DATABASE + MAPPING.replace("10.0.0.0/8", "11.0.0.0/8"), []),
    (LOCATOR + DATABASE + MAPPING.replace("iid = 7", "iid = 8"), []),
    (LOCATOR + DATABASE + IPV6.format("mapping", 1, 48), []),
    (LOCATOR + IPV6.format("database", 1, 48) + IPV6.format("mapping", 1, 64), ["of 2001:db8:1::/64 is hidden"]),
    (LOCATOR + IPV6.format("database", 1, 48) + IPV6.format("mapping", 2, 64), []),
    (LOCATOR + DATABASE + "".join(MAPPING.replace("0.0.0/8", f"{i}.0.0/16") for i in range(5)),
     ["10.0.0.0/16 is", "10.1.0.0/16 is", "10.2.0.0/16 is", "s.toml: 2 mappings more are hidden"]),
    ('nonces = [ # "]"\n"0102030405060708",\n]\n' + LOCATOR.replace("192.0.2.1", "224.0.0.1"), ["5: the own locator"]),
    ("\n" + LOCATOR.replace("address", "weight = 3\naddress").replace("192.0.2.1", "224.0.0.1"), ["4: the own"]),
    # In another form nothing is looked for.
    ('locator = [{address = "224.0.0.1"}]\n', []),
    (LOCATOR.replace("192.0.2.1", "224.0.0.1").replace('"', '"""'), []),
    (LOCATOR.replace("192.0.2.1", "\\u0032\\u00324.0.0.1"), []),
]


def test_warnings():
    with files() as folder:
        write(os.path.join(folder, "i.pcap"), header())
        write(os.path.join(folder, "o.pcap"), header())
        for text, parts in WARNED:
            write(os.path.join(folder, "s.toml"), text)
            for words in (REPLAY, AUDIT):
                alone, helped = run([PROGRAM, *words], folder), run([*HELP, *words], folder)
                lines = helped[2].splitlines()
                check(alone[:2] == helped[:2], text, words, alone, helped)
                if alone[0] == 0:
                    check(len(lines) == len(parts), text, words, helped[2])
                    check(all(line.startswith("lispr: warning: s.toml:") and part in line
                              for line, part in zip(lines, parts)), text, words, helped[2])
                check(alone[0] == 0 or not any("warning" in line for line in lines), text, words, helped[2])
        # What is warned of is so: to a mapping that is hidden a packet is local, to another one it is encapsulated.
        shutil.copy(os.path.join(FIRST, "capture.pcap"), os.path.join(folder, "i.pcap"))
        own = '[[database]]\niid = 0\nprefix = "10.{}/16"\n'
        for prefix, verdict, count in (("2.0.0", b"local", 1), ("1.0.0", b"encapsulated", 0)):
            settings = read(os.path.join(FIRST, "settings.toml")).decode()
            more = own.format(prefix) if prefix not in settings.split("[[mapping]]")[0] else ""
            write(os.path.join(folder, "s.toml"), settings + "\n" + more)
            done = run([*HELP, *REPLAY], folder)
            check(done[1].split()[3] == verdict and done[2].count("is hidden") == count, prefix, done)
        write(os.path.join(folder, "i.pcap"), header())
        write(os.path.join(folder, "s.toml"), LOCATOR.replace("192.0.2.1", "224.0.0.1") + "x = 1\n")
        check("warning" not in run([*HELP, *REPLAY], folder)[2], "warned of settings that are refused")
        write(os.path.join(folder, "s.toml"), LOCATOR.replace("192.0.2.1", "224.0.0.1"))
        shell = f'exec "{LISPR}" replay --settings <(cat s.toml) --in i.pcap --out o.pcap'
        check(run(["bash", "-c", shell], folder)[::2] == (0, ""), "settings from a pipe")
    return len(WARNED)


def in_file(words, folder, status):
    """What the help lets the program say into a file behind other lines, and tells."""
    with open(os.path.join(folder, "report"), "w+b") as report:
        report.write(b"capture bad-magic\nsettings not-toml\n")
        report.flush()
        done = run([*HELP, *words], folder, stdout=report)
    check(done[0] == status, words, done)
    yield read(os.path.join(folder, "report"))[36:], done[2]


CAPTURES = [
    (bytes(24), "bad-magic", "a pcapng file is replayed with --format ng"),
    (b"\n\r\r\n" + bytes(24), "bad-magic", "i.pcap is a pcapng file"),
    (b"\x1f\x8b\x08\0" + bytes(24), "bad-magic", "by gzip: gzip -dc i.pcap > FILE opens it, or in a pipe"),
    (b"\xfd7zXZ\0", "cut-header 6", "xz -dc i.pcap > FILE opens it"),
    (b"\x28\xb5\x2f\xfd" + bytes(24), "bad-magic", "zstd -dc i.pcap > FILE opens it"),
    (header(version=3), "bad-version", "another version of pcap than 2.4"),
    (header(link=9), "bad-link", "neither Ethernet nor raw IP"),
    (b"abc", "cut-header 3", "the file has 3 octets"),
    (header() + b"abc", "cut-record 24", "the record that begins at octet 24"),
    (header() + record(0, 1000000, 1), "bad-fraction 24", "at octet 24 has a moment"),
    (header() + record(0, 0, 262145), "too-long 24 262145", "at octet 24 has 262145 octets, more than 262,144"),
    (header() + record(0, 0, 1) + record(1000001, 0, 1), "span-too-long 2", "record 2 is more than 1,000,000 s"),
    (frames(2000)[:-1], "cut-record", "the file ends within the record"),
]


def test_captures():
    with files() as folder:
        for octets, line, part in CAPTURES:
            write(os.path.join(folder, "i.pcap"), octets)
            for words in (REPLAY, ["show", "--in", "i.pcap"]):
                for said, told in (both(words, folder)[1:], *in_file(words, folder, 3)):
                    check(said.splitlines()[-1].startswith(b"capture " + line.encode()), line, said[-100:])
                    check(f"lispr: capture {line}" in told and part in told, line, words, told)
        shell = f'exec "{LISPR}" show --in <(cat i.pcap)'
        status, _, told = run(["bash", "-c", shell], folder)
        check(status == 3 and "the capture is refused" in told, "a capture from a pipe", told)
    return len(CAPTURES)


def block(kind, body=b"", again=None):
    size = len(body) + 12
    return struct.pack("<II", kind, size) + body + struct.pack("<I", again or size)


def section(version=1):
    return block(0x0A0D0D0A, struct.pack("<IHHQ", 0x1A2B3C4D, version, 0, 0))


def interface(link=101, options=b""):
    return block(1, struct.pack("<HHI", link, 0, 0) + options)


def packet(size=0, time=0, number=0, kept=None):
    fields = struct.pack("<IIIII", number, time >> 32, time % 2**32, size if kept is None else kept, size)
    return block(6, fields + bytes(size))


BLOCKS = [
    (header(), "bad-magic", "i.pcap is in the pcap format: replay it without --format ng"),
    (struct.pack(">IHHIIII", 0xA1B23C4D, 2, 4, 0, 0, 262144, 1), "bad-magic", "pcap format: replay it without"),
    (bytes(28), "bad-magic", "in the pcap format is replayed without --format ng"),
    (b"\x1f\x8b\x08\0" + bytes(24), "bad-magic", "i.pcap is compressed by gzip: gzip -dc i.pcap > FILE opens it"),
    (section() + b"abc", "cut-block 28", "ends within the block that begins at octet 28"),
    (section() + block(5, b"", 16), "bad-length 28", "at octet 28 has a wrong length, two that differ"),
    (section() + interface() + packet(kept=1), "bad-length 48", "at octet 48 has a wrong length"),
    (section() + block(1, bytes(2**20)), "too-long 28 1048588", "at octet 28, or its packet, has 1048588 octets: more"),
    (section() + interface() + packet(262148), "too-long 48 262148", "or its packet, has 262148 octets: more than"),
    (section() + block(2), "old-packet 28", "at octet 28 is an obsolete packet block"),
    (section(2), "bad-version 0", "at octet 0 is of another major version of pcapng than 1"),
    (section() + interface(options=b"\x09\0\x01\0\x14\0\0\0"), "bad-option 28", "at octet 28 has an option that"),
    (section() + interface() * 4096, "too-many-interfaces 81928", "at octet 81928 is one more than the 4,095"),
    (section() + interface() + packet(number=1), "bad-interface 48", "at octet 48 is of an interface that its section"),
    (section() + interface(9) + packet(), "bad-link-type 48", "at octet 48 is of an interface that is neither"),
    (section() + interface() + packet(time=2**32 * 10**6), "bad-moment 48", "at octet 48 has a time before 1970, or"),
    (section() + interface() + packet() + packet(time=10**12 + 1), "span-too-long 2", "frame 2 is more than"),
]


def test_blocks():
    """Each word of a pcapng file that is refused has a sentence of its own."""
    with files() as folder:
        for octets, line, part in BLOCKS:
            write(os.path.join(folder, "i.pcap"), octets)
            for said, told in (both([*REPLAY, "--format", "ng"], folder)[1:],
                               *in_file([*REPLAY, "--format", "ng"], folder, 3)):
                check(said.splitlines()[-1] == b"capture " + line.encode(), line, said[-100:])
                check(f"lispr: capture {line}" in told and part in told, line, told)
    return len(BLOCKS)


def test_kept():
    """An output that is there isn't emptied by --format ng for a capture that is none, and all else is as it was."""
    ng = [*REPLAY, "--format", "ng"]
    kept = "--out o.pcap stays as it was"
    with files() as folder:
        out = os.path.join(folder, "o.pcap")
        for octets in (header(), b"", b"\n\r\r", frames(1), b"\x1f\x8b\x08\0" + bytes(24)):
            write(os.path.join(folder, "i.pcap"), octets)
            alone = run([PROGRAM, *ng], folder)
            for command in (HELP, [LISPR]):
                write(out, "old")
                done = run([*command, *ng], folder)
                check(done[:2] == alone[:2] == (3, alone[1]) and kept in done[2], octets, alone, done)
                check(read(out) == b"old", octets, "the output is another one", read(out))
            os.remove(out)
            check(kept not in run([*HELP, *ng], folder)[2] and read(out)[:4] == b"\x4d\x3c\xb2\xa1", octets, "made")
            write(out, "")
            check(kept not in run([*HELP, *ng], folder)[2], octets, "an output without octets")
        write(out, "old")
        # What is refused before is refused as it was: settings, words, an output that is another name of an input.
        write(os.path.join(folder, "s.toml"), "x =")
        check(run([*HELP, *ng], folder)[:2] == (2, b"settings not-toml\n"), "settings")
        for words in ([*ng, "--split"], [*ng, "--format", "ng"], [*REPLAY[:-1], "i.pcap", "--format", "ng"],
                      [*REPLAY[:-1], "-x", "--format", "ng"]):
            check(run([*HELP, *words], folder)[:2] == (1, b"usage\n"), words)
        check(read(out) == b"old", "the output is another one", read(out))
    with files() as folder:
        # A pcapng file that is refused later has the packets before in its output, and a right one all.
        for octets, status in ((section() + b"abc", 3), (section() + interface(), 0)):
            write(os.path.join(folder, "i.pcap"), octets)
            write(os.path.join(folder, "o.pcap"), "old")
            done = run([LISPR, *ng], folder)
            check(done[0] == status and kept not in done[2], octets, done)
            check(read(os.path.join(folder, "o.pcap")) == header(0xA1B23C4D), octets, "not the output of the program")


def test_formats():
    """What is refused as pcapng isn't read as another format for its last line."""
    ng = [*REPLAY, "--format", "ng"]
    with files() as folder:
        for words in ([*REPLAY, "--format", "classic"], [*REPLAY, "--interfaces", "none"]):
            check(both(words, folder)[0] == 0, words)
        # Four octets, of which the first block lacks the others, and the header of a classic capture too.
        write(os.path.join(folder, "i.pcap"), b"\n\r\r\n")
        for words in (ng, [*ng, "--interfaces", "none"], [*ng, "--interfaces", "vlan"]):
            for said, told in (both(words, folder)[1:], *in_file(words, folder, 3)):
                check(said == b"capture cut-block 0\n", words, said)
                check("lispr: capture cut-block 0" in told, words, told)


# Audits: the files that are others, words behind, what is said, with which status, and what is told.

LIFTED = ["--nonces", "sent"]
AUDITS = [
    ({}, [], "audit same packets=1", 0, ""),
    ({}, LIFTED, "audit same packets=1", 0, ""),
    ({"o.pcap": header()}, [], "audit missing record=1", 6, "o.pcap doesn't have what this router sends; docs/GUIDE.md"),
    ({"o.pcap": frames(1)}, LIFTED, "audit differs record=1 place=3", 6, "o.pcap doesn't have what this router sends"),
    ({"i.pcap": header()}, [], "audit extra record=1", 6, "o.pcap doesn't have what this router sends"),
    ({"s.toml": "x =", "i.pcap": b"", "o.pcap": b""}, [], "settings not-toml", 2, "s.toml:1: x ="),
    ({"s.toml": "echo = true\n" + LOCATOR}, LIFTED, "settings bad-value echo", 2, "has but 24 bits of its nonce"),
    ({"s.toml": "echo = true\n" + LOCATOR}, LIFTED, "settings bad-value echo", 2, "s.toml:1: echo = true"),
    ({"s.toml": "echo = 3\n" + LOCATOR}, [], "settings bad-value echo", 2, "s.toml:1: echo = 3"),
    ({"i.pcap": b"abc", "o.pcap": b""}, [], "capture cut-header 3", 3, "that is the file of --in, i.pcap"),
    ({"i.pcap": section(), "o.pcap": b""}, LIFTED, "capture bad-magic", 3, "of a pcapng file editcap -F nsecpcap makes"),
    ({"o.pcap": b"abc"}, [], "sent cut-header 3", 3, "the file has 3 octets"),
    ({"o.pcap": b"abc"}, LIFTED, "sent cut-header 3", 3, "that is the file of --sent, o.pcap"),
    ({"o.pcap": section()}, [], "sent bad-magic", 3, "of a pcapng file editcap -F nsecpcap makes"),
    ({"o.pcap": header() + b"abc"}, [], "sent cut-record 24", 3, "the record that begins at octet 24"),
    ({"o.pcap": header() + record(0, 0, 262145)}, [], "sent too-long 24 262145", 3, "at octet 24 has 262145 octets"),
]


def test_audits():
    for changed, more, line, status, part in AUDITS:
        with files() as folder:
            shutil.copy(os.path.join(FIRST, "expected.pcap"), os.path.join(folder, "o.pcap"))
            for name, octets in changed.items():
                write(os.path.join(folder, name), octets)
            before = {name: read(os.path.join(folder, name)) for name in os.listdir(folder)}
            done = both([*AUDIT, *more], folder)
            for said, told in (done[1:], *in_file([*AUDIT, *more], folder, status)):
                check(said == line.encode() + b"\n" and part in told and (part or not told), line, said, told)
            check(done[0] == status, line, done)
            os.remove(os.path.join(folder, "report"))
            after = {name: read(os.path.join(folder, name)) for name in os.listdir(folder)}
            check(before == after, line, "files are others", sorted(after))
    with files() as folder:
        # A second name of an input is right: nothing is written.
        os.symlink("i.pcap", os.path.join(folder, "soft"))
        for sent in ("i.pcap", "./i.pcap", "soft"):
            done = run([LISPR, *AUDIT[:-1], sent], folder)
            check(done[:2] == (6, b"audit differs record=1 place=3\n"), sent, done)
        for words, part in ((AUDIT, "--sent o.pcap can't be read: No such file"), ([*AUDIT[:-1], "."], "Is a directory")):
            status, said, told = both(words, folder)
            check((status, said) == (4, b"") and part in told, words, status, told)
        shell = f'exec "{LISPR}" {" ".join(AUDIT[:-1])} <(head -c 20 i.pcap)'
        status, _, told = run(["bash", "-c", shell], folder)
        check(status == 3 and "the capture is refused" in told, "what was sent from a pipe", told)
    return len(AUDITS)


# The kinds of words, by the types of the faults that have them.
FAULTS = {"SettingsFault": "settings", "CaptureFault": "capture", "NgFault": "pcapng"}


def test_table():
    """The table has the words that the definitions have."""
    text, words = read(LINES).decode().replace("\n    named", " named"), {kind: set() for kind in FAULTS.values()}
    for name, fault in re.findall(r"^abbrev pub (\w+_text) : (\w+) → List ℕ$", text, re.MULTILINE):
        if fault in FAULTS:
            words[FAULTS[fault]] |= set(re.findall(rf"^{name} .*?codes \"([a-z-]+)", text, re.MULTILINE))
    known = {kind: {word.split(" ")[0] for word in table} for kind, table in SENTENCES.items()}
    check(words == known, "words of faults", words, known)


def full(folder):
    return {"stdout": os.open("/dev/full", os.O_WRONLY)}


def closed_pipe(folder):
    ours, theirs = os.pipe()
    os.close(ours)
    return {"stdout": theirs}


def closed(folder):
    return {"stdout": None, "preexec_fn": lambda: os.close(1)}


HOST = [
    ({"--settings": "no such"}, None, "--settings no such can't be read: No such file or directory"),
    ({"--settings": "."}, None, "--settings . can't be read: Is a directory"),
    ({"--in": "no"}, None, "--in no can't be read: No such file or directory"),
    ({"--in": "./"}, None, "--in ./ can't be read: Is a directory"),
    ({"--in": "s.toml/i"}, None, "--in s.toml/i can't be read: Not a directory"),
    ({"--in": "n" * 300}, None, "can't be read: File name too long"),
    ({"--in": "loop"}, None, "--in loop can't be read: Too many levels of symbolic links"),
    ({"--in": "socket"}, None, "--in socket can't be read: No such device or address"),
    ({"--out": "no/o"}, None, "--out no/o can't be made: No such file or directory"),
    ({"--out": "."}, None, "--out . can't be made: Is a directory"),
    ({"--out": "dangling"}, None, "--out dangling can't be made: No such file or directory"),
    ({"--out": "o" * 300}, None, "can't be made: File name too long"),
    ({"--out": "o/"}, None, "--out o/ can't be made: Is a directory"),
    ({"--out": "s.toml/o"}, None, "--out s.toml/o can't be made: Not a directory"),
    ({"--out": "/proc/none"}, None, "--out /proc/none can't be made: "),
    ({"--out": "/dev/full"}, None, "a read or a write failed"),
    ({}, full, "a read or a write failed"),
    ({}, closed_pipe, "the report can't be written: Broken pipe"),
    ({}, closed, "the report can't be written: Bad file descriptor"),
]


def test_host():
    with files() as folder:
        os.symlink("loop", os.path.join(folder, "loop"))
        os.symlink("no/where", os.path.join(folder, "dangling"))
        bound = socket.socket(socket.AF_UNIX)
        bound.bind(os.path.join(folder, "socket"))
        for named, report, part in HOST:
            values = {"--settings": "s.toml", "--in": "i.pcap", "--out": "o.pcap", **named}
            words = ["replay", *(word for pair in values.items() for word in pair)]
            before = sorted(os.listdir(folder))
            status, _, told = both(words, folder, **(report(folder) if report else {}))
            check(status == 4 and part in told, words, report, status, told)
            check(report or "made" not in part or sorted(os.listdir(folder)) == before, words, "made a file")
        done = run([LISPR, "show", "--in", "no"], folder)
        check(done[:2] == (4, b"") and "--in no can't be read" in done[2], "through the script", done)
        bound.close()
    return len(HOST)


# An output that is another name of an input.

def test_second_names():
    with files() as folder:
        whole = {name: read(os.path.join(folder, name)) for name in ("i.pcap", "s.toml")}
        for name, octets in whole.items():
            os.symlink(name, os.path.join(folder, "soft " + name))
            os.link(os.path.join(folder, name), os.path.join(folder, "hard " + name))
            for second in ("./" + name, "soft " + name, "hard " + name, os.path.join(folder, name)):
                for environment in (None, without_python(folder)):
                    words = [*REPLAY[:-1], second]
                    done = run([LISPR, *words], folder, env=environment)
                    check(done[:2] == (1, b"usage\n") and "is another name of " + name in done[2], words, done)
                    check(read(os.path.join(folder, name)) == octets, words, "the input is another one")
        done = run([LISPR, *REPLAY[:-1], "./i.pcap"], folder, **full(folder))
        check(done[0] == 4, "usage on a full device", done)
        done = run(["bash", "-c", f'"{LISPR}" {" ".join(REPLAY[:-1])} ./i.pcap 2>&-; echo $?'], folder)
        check(done[1] == b"usage\n1\n", "usage without standard error", done)
        for words, status in (([*REPLAY[:-1], "./i.pcap"], 1), (["show", "--in", "no"], 4), (["trial", "0"], 1)):
            ours, theirs = os.pipe()
            os.close(ours)
            check(run([LISPR, *words], folder, stderr=theirs)[0] == status, words, "nobody hears of it")
            os.close(theirs)
        done = both([*REPLAY[:-2], "--out", "./no", "--in", "no"], folder)
        check(done[0] == 1 and "--in stands twice" in done[2], done)
        done = both(["show", "--in", "i.pcap"], folder)
        check(done[0] == 0, done)


# Python that is missing or fails.

def without_python(folder, python=None):
    """An environment whose path has all that the script needs but Python, or this one."""
    path = os.path.join(folder, "bin")
    shutil.rmtree(path, ignore_errors=True)
    os.mkdir(path)
    for name in ("bash", "awk", "find", "sort", "xargs", "sha256sum", "cat", "readlink", "env", "stat", "cmp", "mkdir",
                 "mv", "rm"):
        os.symlink(shutil.which(name), os.path.join(path, name))
    if python:
        write(os.path.join(path, "python3"), python)
        os.chmod(os.path.join(path, "python3"), 0o755)
    return {"PATH": path}


PYTHONS = [
    None, "#!/bin/bash\necho none >&2\nexit 127\n", "#!/bin/bash\necho /no/where\n",
    # One that is too old: it has none of the modules.
    f'#!/bin/bash\n[ "$3" = -c ] && echo "$0" && exit\n[ $# -gt 4 ] && shift 6\n'
    f'exec {sys.executable} -I -S -c "import sys; sys.modules[\'run\'] = None; '
    f'sys.argv = sys.argv[1:]; __file__ = sys.argv[0]; exec(open(__file__).read())" "$@"\n',
]


def test_without_python():
    with files() as folder:
        for python in PYTHONS:
            environment = without_python(folder, python)
            for words, status in ((REPLAY, 0), (["show", "--in", "no"], 4), (["trial", "0"], 1)):
                done = run([LISPR, *words], folder, env=environment)
                check(done == (status, run([PROGRAM, *words], folder)[1], ""), python, words, done)


# Descriptors that are closed.

def test_closed():
    with files() as folder:
        for number in range(3):
            for words in (REPLAY, ["show", "--in", "no"], ["trial", "2"]):
                ends = []
                for program in (PROGRAM, LISPR):
                    path = os.path.join(folder, "o.pcap")
                    write(path, b"")
                    shell = f'exec {number}>&-; "$0" "$@"; echo "status $?" >status'
                    done = run(["bash", "-c", shell, program, *words], folder)
                    ends.append((done[1], read(path), read(os.path.join(folder, "status"))))
                check(ends[0] == ends[1], number, words, ends)


# Progress.

class Terminal:
    """A terminal, and what came to it."""

    def __init__(self):
        self.ours, self.theirs = pty.openpty()
        fcntl.ioctl(self.theirs, termios.TIOCSWINSZ, struct.pack("HHHH", 24, 70, 0, 0))
        self.octets = b""
        threading.Thread(target=self.listen, daemon=True).start()

    def listen(self):
        with contextlib.suppress(OSError):
            while True:
                self.octets += os.read(self.ours, 4096)

    def text(self):
        time.sleep(0.2)
        return self.octets.decode()


def slow_run(folder, wait, words, command=LISPR, **more):
    """A run whose output is taken out of a pipe after some seconds; its status."""
    path = os.path.join(folder, "pipe")
    if not os.path.exists(path):
        os.mkfifo(path)
    process = subprocess.Popen([command, *words[:-1], "pipe"], cwd=folder, **more)
    with open(path, "rb") as pipe:
        pipe.read(65536)
        time.sleep(wait)
        pipe.read()
    return process.wait(SECONDS)


def test_progress():
    with files() as folder:
        write(os.path.join(folder, "i.pcap"), frames(20000))
        report, terminal = os.path.join(folder, "report"), Terminal()
        with open(report, "wb") as out:
            status = slow_run(folder, 3.5, REPLAY, stdout=out, stderr=terminal.theirs)
        told = terminal.text()
        check(status == 0 and read(report).endswith(b"written=20000 entries=1\n"), "slow", status)
        part = r"\rlispr: \d+ s, \d+ % of i.pcap read, [\d,]+ frames a second"
        for part in (part, r"\rlispr: 1 s, ", r"\rlispr: (?!1 )\d+ s, "):
            check(re.search(part, told), part, told)
        check(re.search(r"\r +\r$", told) and "\n" not in told, "the line stays", told)
        check(max(map(len, told.split("\r"))) < 70, "wide lines", told)


def quiet(gap):
    """Settings of locators that are probed, and a capture of two frames so many seconds apart."""
    table = '[[mapping]]\niid = 0\nprefix = "10.2.{0}.0/24"\n[[mapping.locator]]\naddress = "198.51.100.{0}"\n'
    site = '[[attachment]]\nvlan = 0\niid = 0\n[[database]]\niid = 0\nprefix = "10.1.0.0/16"\n'
    capture = read(os.path.join(FIRST, "capture.pcap"))
    second, = struct.unpack_from("<I", capture, 24)
    late = struct.pack("<I", second + gap) + capture[28:]
    return "probe = true\n" + LOCATOR + site + "".join(map(table.format, range(256))), capture + late, second


def test_progress_of_quiet_time():
    """Between two frames the line has the second that is worked, by the packets that were sent."""
    with files() as folder:
        gap = 60_000
        settings, capture, second = quiet(gap)
        write(os.path.join(folder, "s.toml"), settings)
        write(os.path.join(folder, "i.pcap"), capture)
        terminal = Terminal()
        with open(os.path.join(folder, "report"), "wb") as out:
            status = run([LISPR, *REPLAY], folder, stdout=out, stderr=terminal.theirs)[0]
        told = terminal.text()
        seconds = [int(found) for found in re.findall(r"s, i\.pcap read, worked to (\d+) \(\d\d:\d\d:\d\d UTC\)", told)]
        check(status == 0 and seconds and seconds == sorted(seconds), status, told)
        check(all(second < found <= second + gap for found in seconds) and "100 %" not in told, seconds, told)


def test_progress_of_a_pipe():
    with files() as folder:
        write(os.path.join(folder, "i.pcap"), frames(20000))
        terminal = Terminal()
        words = [word if word != "i.pcap" else "/dev/stdin" for word in REPLAY]
        with subprocess.Popen(["cat", "i.pcap"], cwd=folder, stdout=subprocess.PIPE) as feeder:
            status = slow_run(folder, 1.8, words, stdin=feeder.stdout, stdout=subprocess.DEVNULL,
                              stderr=terminal.theirs)
        told = terminal.text()
        check(status == 0 and re.match(r"\rlispr: 1 s *\r", told), "from a pipe", status, told)


def test_no_progress():
    with files() as folder:
        write(os.path.join(folder, "i.pcap"), frames(20000))
        with open(os.path.join(folder, "told"), "wb") as told:
            status = slow_run(folder, 1.8, REPLAY, stdout=subprocess.DEVNULL, stderr=told)
        check(status == 0 and read(os.path.join(folder, "told")) == b"", "told without a terminal")
        terminal = Terminal()
        status = slow_run(folder, 1.8, REPLAY, stdout=terminal.theirs, stderr=terminal.theirs)
        check(status == 0 and "lispr: " not in terminal.text(), "told into the report")


# Signals.

def children(pid):
    found = []
    for name in filter(str.isdigit, os.listdir("/proc")):
        with contextlib.suppress(OSError):
            if int(read(f"/proc/{name}/stat").rsplit(b")", 1)[1].split()[1]) == pid:
                found.append(int(name))
    return found


def started(pid):
    """The program that a script has started, in a list."""
    found = []
    for child in children(pid):
        with contextlib.suppress(OSError):
            found += [child] if os.readlink(f"/proc/{child}/exe") == PROGRAM else []
    return found


def state(pid):
    try:
        return read(f"/proc/{pid}/stat").rsplit(b")", 1)[1].split()[0].decode()
    except FileNotFoundError:
        return "gone"


def until(is_so):
    """Whether that is so within some seconds."""
    for _ in range(100):
        if is_so():
            return True
        time.sleep(0.1)
    return False


@contextlib.contextmanager
def waiting_run(ignored=()):
    """A run that waits for its capture, and the program that it started."""
    with files() as folder:
        os.remove(os.path.join(folder, "i.pcap"))
        os.mkfifo(os.path.join(folder, "i.pcap"))
        def prepare():
            # In a group of its own, that a stop isn't passed over.
            os.setpgid(0, 0)
            for number in ignored:
                signal.signal(number, signal.SIG_IGN)

        process = subprocess.Popen([LISPR, *REPLAY], cwd=folder, stdout=subprocess.PIPE, stderr=subprocess.PIPE,
                                   preexec_fn=prepare)
        check(until(lambda: started(process.pid)), "no program")
        program, = started(process.pid)
        try:
            yield folder, process, program
        finally:
            with contextlib.suppress(ProcessLookupError):
                process.send_signal(signal.SIGKILL)
            process.wait(SECONDS)


def test_signals():
    for number in (signal.SIGTERM, signal.SIGINT, signal.SIGHUP, signal.SIGQUIT, signal.SIGUSR1, signal.SIGKILL):
        with waiting_run() as (_, process, program):
            process.send_signal(number)
            done = process.communicate(timeout=SECONDS), process.returncode
            check(done == ((b"", b""), -number), number, done)
            check(until(lambda: state(program) in ("gone", "Z")), number, "the program goes on", state(program))
    with waiting_run() as (_, process, program):
        os.kill(program, signal.SIGSEGV)
        check(process.wait(SECONDS) == -signal.SIGSEGV, "a signal to the program", process.returncode)


def test_ignored_signals():
    with waiting_run((signal.SIGHUP, signal.SIGINT)) as (folder, process, program):
        process.send_signal(signal.SIGHUP)
        process.send_signal(signal.SIGINT)
        time.sleep(0.5)
        check(process.poll() is None and state(program) == "S", "ignored", process.returncode, state(program))
        write(os.path.join(folder, "i.pcap"), read(os.path.join(FIRST, "capture.pcap")))
        check(process.wait(SECONDS) == 0, "ignored", process.returncode)


def test_stops():
    with waiting_run() as (folder, process, program):
        pids = process.pid, program
        for number in (signal.SIGTSTP, signal.SIGTSTP):
            process.send_signal(number)
            check(until(lambda: [state(pid) for pid in pids] == ["T", "T"]), number, "not stopped")
            process.send_signal(signal.SIGCONT)
            check(until(lambda: [state(pid) for pid in pids] == ["S", "S"]), number, "not continued")
        os.kill(program, signal.SIGSTOP)
        check(until(lambda: [state(pid) for pid in pids] == ["S", "T"]), "the program alone")
        os.kill(program, signal.SIGCONT)
        write(os.path.join(folder, "i.pcap"), read(os.path.join(FIRST, "capture.pcap")))
        check(process.wait(SECONDS) == 0, "stopped", process.returncode)


def test_key():
    """Control-Z and control-C at a terminal."""
    with files() as folder:
        os.remove(os.path.join(folder, "i.pcap"))
        os.mkfifo(os.path.join(folder, "i.pcap"))
        pid, terminal = pty.fork()
        if pid == 0:
            os.chdir(folder)
            os.execv(LISPR, [LISPR, *REPLAY])
        check(until(lambda: started(pid)), "no program")
        program, = started(pid)
        # Nobody could let this group go on, so that nothing stops it.
        os.write(terminal, b"\x1a")
        time.sleep(0.5)
        check("T" not in (state(pid), state(program)), "control-Z", state(pid), state(program))
        os.write(terminal, b"\x03")
        _, status = os.waitpid(pid, 0)
        check(os.WIFSIGNALED(status) and os.WTERMSIG(status) == signal.SIGINT, "control-C", status)
        check(until(lambda: state(program) in ("gone", "Z")), "control-C", state(program))
        os.close(terminal)


# The build.

RT = """#!/bin/bash
[ "$1" = version ] && echo 'rattle-kit-9 logic 1' && exit
echo 'crate octets:'
echo 'logic=proved functions=1'
sleep 1
echo 'crate replay:'
echo 'fn a: proved'
echo 'logic=proved functions=2'
{}
"""
MADE = f"mkdir -p out && cp '{PROGRAM}' out/replay_cli; exit 1"


@contextlib.contextmanager
def unbuilt(folder, rt):
    """A copy of the sources whose program isn't built, and an environment with another `rt`."""
    copy = os.path.join(folder, "top")
    os.makedirs(os.path.join(copy, "tools"))
    shutil.copy(LISPR, copy)
    shutil.copytree(HERE, os.path.join(copy, "tools", "help"), ignore=shutil.ignore_patterns("__pycache__"))
    shutil.copy(os.path.join(TOP, "crates.txt"), copy)
    for line in read(os.path.join(TOP, "crates.txt")).decode().splitlines():
        name = line.split(":")[0]
        if os.path.isdir(os.path.join(TOP, "crates", name)):
            os.makedirs(os.path.join(copy, "crates", name))
            write(os.path.join(copy, "crates", name, "file"), name)
    write(os.path.join(folder, "rt"), RT.format(rt))
    os.chmod(os.path.join(folder, "rt"), 0o755)
    yield os.path.join(copy, "lispr"), {**os.environ, "PATH": f"{folder}:{os.environ['PATH']}"}
    shutil.rmtree(copy)


def test_build():
    with files() as folder:
        with unbuilt(folder, MADE) as (script, environment):
            done = run([script, *REPLAY], folder, env=environment)
            check(done == (0, read(os.path.join(FIRST, "expected.txt")), ""), "a build", done)
            check(run([script, "show", "--in", "no"], folder, env=environment)[0] == 4, "behind a build")
        with unbuilt(folder, MADE) as (script, environment):
            terminal = Terminal()
            done = run([script, "trial", "3"], folder, env=environment, stderr=terminal.theirs)
            told = terminal.text()
            for part in ("proving and building ", r"proved octets, \d+ to come, 0 min \d s so far",
                         r"proved replay, 1 to come, 0 min \d s so far"):
                check(re.search(part, told), part, told)
            check(done[0] == 0, "a build at a terminal", done)
        with unbuilt(folder, "echo wrong; exit 1") as (script, environment):
            done = run([script, *REPLAY], folder, env=environment)
            check(done[:2] == (4, b"") and "fn a: proved\n" in done[2] and "lispr: not built" in done[2], done)
            check(os.listdir(os.path.join(os.path.dirname(script), "out")) == [], "left behind a build that failed")


# A `sha256sum` and an `rt` that note that they ran.
NOTING = """#!/bin/bash
echo sum >>'{}'
exec {} "$@"
"""
# Longer than what has just changed isn't noted; how much longer a call may take than the program, on a slow machine.
LONG_AGO, MOST_MORE = 3.1, 0.15


class Sources:
    """A copy of the sources, and how often it was summed and built."""

    def __init__(self, folder, script, environment):
        self.folder, self.script, self.environment = folder, script, environment
        self.log = os.path.join(folder, "log")
        write(os.path.join(folder, "sha256sum"), NOTING.format(self.log, shutil.which("sha256sum")))
        os.chmod(os.path.join(folder, "sha256sum"), 0o755)
        self.crate = os.path.join(os.path.dirname(script), "crates", "octets")

    def called(self, *what):
        """Whether a call summed and built; it must run the program."""
        write(self.log, "")
        done = run([self.script, "trial", "3"], self.folder, env=self.environment)
        check(done[0] == 0, "a call", *what, done)
        words = read(self.log).decode().split()
        return "sum" in words, "built" in words

    def settle(self):
        """Calls until the sources stand as noted."""
        time.sleep(LONG_AGO)
        self.called("to note")
        check(self.called("noted") == (False, False), "summed though nothing changed")


def rewritten(path, octets):
    """Writes octets as many as were there, and leaves the time of the file as it was."""
    times = os.stat(path)
    with open(path, "r+b") as file:
        file.write(octets)
    os.utime(path, ns=(times.st_atime_ns, times.st_mtime_ns))
    after = os.stat(path)
    check((after.st_size, after.st_mtime_ns) == (times.st_size, times.st_mtime_ns), "it looks otherwise")


def test_sources():
    """The sources are summed where they may be others, and only there; built where they are."""
    with files() as folder:
        with unbuilt(folder, f"echo built >>'{folder}/log'; {MADE}") as (script, environment):
            sources = Sources(folder, script, environment)
            path, other = os.path.join(sources.crate, "file"), os.path.join(sources.crate, "other")
            inner = os.path.join(sources.crate, "out", "more")
            check(sources.called("first") == (True, True), "first")
            check(sources.called("at once") == (True, False), "what has just changed is noted")
            sources.settle()
            rewritten(path, b"OCTETS")
            check(sources.called("rewritten") == (True, True), "the same size and time")
            # Behind the call at once, with the same size and time.
            rewritten(path, b"octets")
            check(sources.called("rewritten at once") == (True, True), "the same size and time, at once")
            sources.settle()
            octets = read(path)
            os.remove(path)
            write(path, octets)
            check(sources.called("the same") == (True, False), "the same octets in another file")
            sources.settle()
            os.mkdir(os.path.dirname(inner))
            write(inner, "x")
            check(sources.called("an output")[1] is False, "an output of a crate")
            sources.settle()
            write(inner, "y")
            check(sources.called("an output") == (False, False), "an output of a crate that changes")
            write(other, "x")
            check(sources.called("one more") == (True, True), "one file more")
            sources.settle()
            os.rename(other, path)
            check(sources.called("one less") == (True, True), "one file less")
            sources.settle()
            # Notes that are damaged, or can't be made, and a program that is gone.
            for name in ("seen", "names", "python"):
                write(os.path.join(os.path.dirname(script), "out", f"lispr.{name}"), "x")
                check(sources.called(name)[1] is False, "damaged", name)
            os.remove(os.path.join(os.path.dirname(script), "out", "lispr"))
            check(sources.called("gone") == (True, True), "the program is gone")


def test_together():
    """Calls at once, of which the first of all notes the sources."""
    with files() as folder:
        for name in ("names", "seen", "python"):
            with contextlib.suppress(FileNotFoundError):
                os.remove(f"{PROGRAM}.{name}")
        calls = [subprocess.Popen([LISPR, "trial", "3"], cwd=folder, stdout=subprocess.PIPE, stderr=subprocess.STDOUT)
                 for _ in range(6)]
        said = {call.communicate(timeout=SECONDS)[0] for call in calls}
        check(said == {run([PROGRAM, "trial", "3"], folder)[1]}, "calls at once", said)
        left = [name for name in os.listdir(os.path.dirname(PROGRAM)) if re.search(r"\.\d+$", name)]
        check(not left, "left", left)


def test_quick():
    """A call takes little longer than the program, by the time of processors, which a busy machine doesn't double."""
    with files() as folder:
        program, script = (min(processor_time([name, *REPLAY], folder) for _ in range(20)) for name in (PROGRAM, LISPR))
        more = script - program
        check(more < MOST_MORE, "a call takes", more, "s more than the program")
    return f"{1000 * more:.0f} ms more than the program"


def processor_time(command, folder):
    """The seconds of processors that a command takes, with all that it starts."""
    before = resource.getrusage(resource.RUSAGE_CHILDREN)
    run(command, folder)
    after = resource.getrusage(resource.RUSAGE_CHILDREN)
    return after.ru_utime + after.ru_stime - before.ru_utime - before.ru_stime


def test_shell():
    if shutil.which("shellcheck"):
        names = run(["git", "ls-files", "lispr", "*.sh"], TOP)[1].decode().split()
        done = run(["shellcheck", *names], TOP)
        check(done[0] == 0, "shellcheck", done[1].decode())
        return len(names)
    return "not run"


def main():
    # The Python that runs this is the one that the script finds.
    os.environ["PATH"] = os.path.dirname(os.path.realpath(sys.executable)) + os.pathsep + os.environ["PATH"]
    for name, test in list(globals().items()):
        if name.startswith("test_") and (not sys.argv[1:] or name[5:] in sys.argv[1:]):
            count = len(wrong)
            begun = time.monotonic()
            more = test()
            texts = ["right" if len(wrong) == count else f"{len(wrong) - count} wrong"]
            texts += [str(more)] if more else []
            print(f"{name[5:].replace('_', ' ')}: {', '.join(texts)}, {time.monotonic() - begun:.1f} s", flush=True)
    sys.exit(bool(wrong))


if __name__ == "__main__":
    main()

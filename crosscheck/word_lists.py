"""Lists of words with the command that each gives, or None; and lists made from a number by changing lawful ones."""
from commands import Audit, Format, Replay, Show, Trial

# The names of a settings file, a capture and an output.
FILES = "s", "i", "o"
WHOLE = Replay(*FILES)
# An audit of the files that are there as a program begins.
AUDIT = Audit("s", "i", "i")
# What spells no number; the last are digits, but not those of ASCII.
NO_NUMBERS = ["", "00", "01", "+1", "-1", "-0", " 1", "1 ", "1\n", "1e3", "1.0", "1_0", "1,0", "0x1", "=1", "one",
              "٣", "1٣", "１", "²"]
# These are 1 modulo 2^16, 2^32 and 2^64, and a number of 30 digits.
TOO_LARGE = ["65537", "4294967297", "18446744073709551617", "1" + 29 * "0"]
NO_NAMES = ["", "-", "--", "---in", "-in", "in", "—in", "--i", "--In", "--IN", "--in ", " --in", "--in=", "--in=i",
            "--input", "--speed", "--help"]
# What names no format, and doesn't say what interfaces are.
NO_FORMATS = ["", "-", "--", "-ng", "0", "1", "n", "g", "Ng", "NG", "ng ", " ng", "ng\n", "ngg", "ng,vlan", "pcap",
              "pcapng", "Classic", "classi", "classics", "VLAN", "Vlan", "vla", "vlans", " vlan", "None", "non", "nones",
              "x", "--in"]
# What doesn't say whether large packets are split.
NO_SPLITS = ["", "-", "--", "-on", "0", "1", "o", "n", "of", "On", "ON", "Off", "OFF", "oN", "on ", " on", "on\n", "onn",
             "offf", "no", "yes", "true", "false", "none", "classic", "ng", "vlan", "on,off", "four", "оn", "--in"]
# What doesn't say where an audit's nonces come from.
NO_NONCES = ["", "-", "--", "-sent", "0", "1", "s", "sen", "ent", "sents", "Sent", "SENT", "sent ", " sent", "sent\n",
             "setting", "ettings", "settingss", "Settings", "SETTINGS", "settings ", "sent,settings", "seed", "list", "both",
             "none", "on", "off", "in", "ѕent", "--in", "--sent"]
# Pairs that name one of the formats.
FORMATS = [[], [["--format", "classic"]], [["--format", "ng"]], [["--interfaces", "none"]],
           [["--format", "classic"], ["--interfaces", "none"]], [["--format", "ng"], ["--interfaces", "none"]],
           [["--format", "ng"], ["--interfaces", "vlan"]]]
NAMES = ["--settings", "--in", "--out", "--format", "--interfaces", "--split", "--workers", "--round", "--sent", "--nonces"]
VALUES = [*FILES, "x", "0", "1", "20", "in", "classic", "ng", "none", "vlan", "on", "off", "sent", "settings"]
NUMBERS = [*NO_NUMBERS, *TOO_LARGE, "0", "1", "16", "17", "4096", "4097", "50001"]
WORDS = [*NUMBERS, *NO_NAMES, *NAMES, *VALUES, "replay", "show", "trial", "audit"]
LETTERS = "-= 019siI٣"
MOST_TRIED = 20

# The table.


def replay(*more, settings="s", source="i", output="o"):
    return ["replay", "--settings", settings, "--in", source, "--out", output, *more]


def audit(*more, settings="s", source="i", sent="i"):
    return ["audit", "--settings", settings, "--in", source, "--sent", sent, *more]


def lawful():
    """Word lists, and the command that each gives."""
    yield replay(), WHOLE
    yield "replay --out o --in i --settings s".split(), WHOLE
    yield "replay --in i --settings s --out o".split(), WHOLE
    yield "replay --in i --out o --settings s".split(), WHOLE
    for count in 0, 1, 2, 9, 10, 15, 16:
        yield replay("--workers", str(count)), WHOLE._replace(workers=count)
    for size in 1, 2, 9, 10, 256, 999, 4095, 4096:
        yield replay("--round", str(size)), WHOLE._replace(round=size)
    yield replay("--round", "7", "--workers", "0"), WHOLE._replace(round=7)
    yield replay("--round", "4096", "--workers", "16"), WHOLE._replace(workers=16, round=4096)
    yield "replay --workers 0 --out o --round 10 --in i --settings s".split(), WHOLE._replace(round=10)
    yield "replay --workers 3 --out o --round 10 --in i --settings s".split(), WHOLE._replace(workers=3, round=10)
    yield from of_a_format()
    yield from of_a_split()
    yield replay(settings="i"), Replay("i", "i", "o")
    yield replay(settings="./o", source="x y"), Replay("./o", "x y", "o")
    for output in "I", "S", "O", "./o", "./i", "i ", "ii", "s=s", "o--", "=", " ", "replay", "out", "0", "٣", "ö":
        yield replay(output=output), Replay("s", "i", output)
    yield from of_an_audit()
    for source in "i", "s", "show", "x y", "i=i", "i-", "ö":
        yield ["show", "--in", source], Show(source)
    for count in 1, 9, 10, MOST_TRIED, 49_999, 50_000:
        yield ["trial", str(count)], Trial(count)


def of_a_format():
    ng, vlans = WHOLE._replace(format=Format.NG), WHOLE._replace(format=Format.NG_VLANS)
    for more in "--format classic", "--interfaces none", "--format classic --interfaces none":
        yield replay(*more.split()), WHOLE
    for more in "--format ng", "--format ng --interfaces none", "--interfaces none --format ng":
        yield replay(*more.split()), ng
    for more in "--format ng --interfaces vlan", "--interfaces vlan --format ng":
        yield replay(*more.split()), vlans
    yield "replay --format ng --out o --in i --settings s".split(), ng
    yield "replay --interfaces vlan --out o --in i --format ng --settings s".split(), vlans
    yield replay(*"--format ng --workers 3 --interfaces vlan --round 10".split()), vlans._replace(workers=3, round=10)
    yield replay(settings="ng", source="vlan", output="none"), Replay("ng", "vlan", "none")


def of_a_split():
    split = WHOLE._replace(split=True)
    yield replay("--split", "off"), WHOLE
    yield replay("--split", "on"), split
    yield "replay --split on --out o --in i --settings s".split(), split
    yield "replay --settings s --split on --in i --out o".split(), split
    yield "replay --out o --in i --split off --settings s".split(), WHOLE
    for more in "--format ng --split on", "--split on --format ng", "--interfaces none --split on --format ng":
        yield replay(*more.split()), split._replace(format=Format.NG)
    for more in "--split on --format ng --interfaces vlan", "--interfaces vlan --split on --format ng":
        yield replay(*more.split()), split._replace(format=Format.NG_VLANS)
    for more in "--workers 3 --split on --round 10", "--round 10 --format classic --workers 3 --split on":
        yield replay(*more.split()), split._replace(workers=3, round=10)
    yield (replay(*"--interfaces vlan --round 1 --split on --workers 16 --format ng".split()),
           Replay(*FILES, Format.NG_VLANS, 16, 1, True))
    yield replay(settings="on", source="off", output="split"), Replay("on", "off", "split")
    yield replay("--split", "on", output="on"), Replay("s", "i", "on", split=True)


def of_an_audit():
    lifts = AUDIT._replace(lifts=True)
    yield audit(), AUDIT
    for words in ("--settings s --sent i --in i", "--in i --settings s --sent i", "--in i --sent i --settings s",
                  "--sent i --settings s --in i", "--sent i --in i --settings s"):
        yield ["audit", *words.split()], AUDIT
        yield ["audit", *words.split(), "--nonces", "sent"], lifts
        yield ["audit", "--nonces", "sent", *words.split()], lifts
        yield ["audit", *words.split()[:2], "--nonces", "settings", *words.split()[2:]], AUDIT
    yield audit("--nonces", "settings"), AUDIT
    yield audit("--nonces", "sent"), lifts
    for files in ("s", "i", "o"), ("a", "a", "a"), ("i", "s", "s"), ("sent", "settings", "nonces"), ("./s", "x y", "s=s"):
        yield audit(settings=files[0], source=files[1], sent=files[2]), Audit(*files)
    for sent in "I", "./x", "i ", "ii", "i--", "=", " ", "audit", "sent", "0", "٣", "ö":
        yield audit(sent=sent), Audit("s", "i", sent)


def of_no_command():
    yield from ([], [""], ["-"], ["--"], ["usage"], ["help"], ["--help"], ["-h"], ["--version"], [*FILES])
    for name in "REPLAY", "Replay", "replays", "repla", " replay", "replay ", "--replay", "show", "trial", "audit", "play", "":
        yield [name, *replay()[1:]]
    for name in "AUDIT", "Audit", "audits", "audi", " audit", "audit ", "--audit", "replay", "show", "trial", "":
        yield [name, *audit()[1:]]
    yield from ([name, "--in", "i"] for name in ("SHOW", "Show", "shows", "sho", "show ", "--show", "replay"))
    yield from ([name, "5"] for name in ("TRIAL", "Trial", "trials", "trail", " trial", "--trial", "replay", "show"))
    yield from (replay()[1:], audit()[1:])
    yield from (["replay", *replay()], ["audit", *audit()], ["audit", *replay()])
    yield ["replay", *1000 * ["--in", "i"]]


def of_three_files(words):
    """The words of a command with three files, of which something is wrong."""
    yield from (words[:size] for size in range(1, len(words)))
    for place in 1, 3, 5:
        front, (name, value), rest = words[:place], words[place:place + 2], words[place + 2:]
        put = [], [name], [value], [value, name], [f"{name}={value}"], [f"{name}=", value], [name, "=", value]
        yield from ([*front, *some, *rest] for some in put)
        yield from ([*front, name, wrong, *rest] for wrong in ("", "-", "--", "-x", "-1", name, f"-{value}"))
        yield from ([*words, name, again] for again in (value, "x"))


def of_no_replay():
    words = replay()
    yield from of_three_files(words)
    for name, value in (("--format", "ng"), ("--interfaces", "none"), ("--split", "on"), ("--split", "off"),
                        ("--workers", "0"), ("--round", "1")):
        for some in [name], [name, value, name, value], [f"{name}={value}"], [value, name], [name + "s", value]:
            yield [*words, *some]
            yield [*words[:1], *some, *words[1:]]
    for name in [*NO_NAMES, "--settings", "--n", "--formats", "--Split", "--spli", "--splits", "-split"]:
        yield [*words, name, "1"]
        yield [*words[:3], name, *words[4:]]
        yield [*words, "--workers", "0", "--round", "1", name, "1"]
    for more in "", "x", "-", "--", "0", "--help":
        yield [*words, more]
        yield [*words[:1], more, *words[1:]]
    yield from (replay(output="i"), replay(output="s"), replay(source="o"), replay(settings="o"))
    yield from (replay(source="s", output="s"), replay(source="ö", output="ö"))
    yield "replay --out i --in i --settings s".split()
    yield from (replay("--sent", "i"), replay("--nonces", "settings"), replay("--nonces", "sent", "--sent", "i"))
    yield "replay --settings s --in i --sent o".split()


def of_no_format():
    for word in [*NO_FORMATS, "none", "vlan"]:
        yield replay("--format", word)
        yield replay("--format", word, "--interfaces", "none")
        yield replay("--interfaces", "vlan", "--format", word)
    for word in [*NO_FORMATS, "classic", "ng"]:
        yield replay("--interfaces", word)
        yield replay("--format", "ng", "--interfaces", word)
    # Interfaces are VLANs in one of the formats alone.
    for more in "", "--format classic", "--workers 3", "--format classic --round 10":
        yield replay(*more.split(), "--interfaces", "vlan")
        yield replay("--interfaces", "vlan", *more.split())
    for more in "none", "vlan":
        yield replay("--format", "ng", "--interfaces", more, "--interfaces", "vlan")
        yield replay("--format", "classic", "--interfaces", more, "--format", "ng")


def of_no_split():
    for word in NO_SPLITS:
        yield replay("--split", word)
        yield replay("--split", word, "--format", "ng")
        yield replay("--workers", "3", "--split", word)
    for first in "on", "off":
        yield from (replay("--split", first, "--split", second) for second in ("on", "off"))
        yield replay("--split", first, "--split")
        yield ["replay", "--split", first]
        yield replay("--split", first, output="i")
        yield replay("--interfaces", "vlan", "--split", first)


def of_no_audit():
    words = audit()
    yield from of_three_files(words)
    for word in NO_NONCES:
        yield audit("--nonces", word)
        yield ["audit", "--nonces", word, *words[1:]]
    for first in "sent", "settings":
        yield from (audit("--nonces", first, "--nonces", second) for second in ("sent", "settings"))
        yield from (audit("--nonces", first, more) for more in ("", "x", "--nonces"))
        yield from (audit("--nonce", first), audit("--Nonces", first), audit(f"--nonces={first}"), audit(first, "--nonces"))
    for name, value in (("--out", "o"), ("--format", "classic"), ("--format", "ng"), ("--interfaces", "none"),
                        ("--split", "on"), ("--split", "off"), ("--workers", "0"), ("--round", "1")):
        yield audit(name, value)
        yield ["audit", name, value, *words[1:]]
    for name in [*NO_NAMES, "--sents", "--Sent", "--sen", "-sent", "--out"]:
        yield audit(name, "1")
        yield [*words[:5], name, *words[6:]]


def of_no_number():
    for value in [*NO_NUMBERS, *TOO_LARGE, "0", "4097", "5000", "10000"]:
        yield replay("--round", value)
    for value in [*NO_NUMBERS, *TOO_LARGE, *(str(int(value) - 1) for value in TOO_LARGE), "٠", "000", "17", "18", "20",
                  "100", "160", "256", "257"]:
        yield replay("--workers", value)
    for value in [*NO_NUMBERS, *TOO_LARGE, "0", "50001", "99999", "100000", "-", "--", "--in"]:
        yield ["trial", value]


def of_no_show_or_trial():
    for words in ([], ["i"], ["--in"], ["i", "--in"], ["--in", "i", "x"], ["--in", "i", "--in", "i"],
                  ["--in", "i", "--in", "x"], ["--", "--in", "i"]):
        yield ["show", *words]
    yield from (["show", "--in", value] for value in ("", "-", "--", "-i", "-1", "--in"))
    yield from (["show", name, "i"] for name in [*NO_NAMES, "--out", "--settings", "--sent", "--nonces"])
    for name, value in (("--settings", "s"), ("--out", "o"), ("--format", "ng"), ("--interfaces", "none"),
                        ("--split", "on"), ("--split", "off"), ("--workers", "0"), ("--round", "1"), ("--n", "5")):
        yield ["show", "--in", "i", name, value]
        yield ["show", name, value, "--in", "i"]
    for words in ([], ["trial"], ["i"], ["5", "5"], ["5", ""], ["", "5"], ["--", "5"], ["--n", "5"], ["--n=5"], ["n=5"],
                  ["5", "--in", "i"], ["--in", "i"], ["5", "--round", "1"], ["--workers", "0", "5"], ["trial", "5"],
                  ["5", "--split", "on"], ["--split", "off", "5"]):
        yield ["trial", *words]


def table():
    """Each word list, and what it gives."""
    yield from lawful()
    for part in (of_no_command, of_no_replay, of_no_format, of_no_split, of_no_audit, of_no_number,
                 of_no_show_or_trial):
        yield from ((words, None) for words in part())


# Words that are no UTF-8.


def no_texts():
    for octets in b"\xff", b"\x80", b"\xd9", b"\xc0\xae", b"\xed\xa0\x80", b"\xf5\x80\x80\x80":
        yield [octets]
        yield replay(output=octets)
        yield replay(output=b"o" + octets)
        yield replay("--round", b"1" + octets)
        yield replay("--format", b"ng" + octets)
        yield replay("--split", b"on" + octets)
        yield replay(b"--round" + octets, "1")
        yield audit(sent=octets)
        yield audit("--nonces", b"sent" + octets)
        yield ["show", "--in", octets]
        yield [b"show" + octets, "--in", "i"]
        yield ["trial", b"5" + octets]


# Lists from a number.


def started(r):
    """A lawful list; one of a replay or an audit mostly names the files that are there."""
    kind = r.random()
    if kind < 0.2:
        return ["trial", str(r.randint(1, MOST_TRIED))]
    if kind < 0.35:
        return ["show", "--in", r.choice(VALUES)]
    found = [["--settings", "s"], ["--in", "i"]]
    if kind < 0.55:
        found += [["--sent", r.choice("iiis")], *([["--nonces", r.choice(["sent", "settings"])]] * (r.random() < 0.6))]
        r.shuffle(found)
        return ["audit", *(word for pair in found for word in pair)]
    found += [["--out", r.choice("ooox")]]
    found += [["--workers", str(r.choice([0, 1, 9, 10, 16, r.randint(0, 16)]))]] * (r.random() < 0.4)
    found += [["--round", str(r.choice([1, 9, 10, 256, 4096, r.randint(1, 4096)]))]] * (r.random() < 0.4)
    found += r.choice(FORMATS) if r.random() < 0.5 else []
    found += [["--split", r.choice(["on", "on", "off"])]] * (r.random() < 0.4)
    r.shuffle(found)
    return ["replay", *(word for pair in found for word in pair)]


def respelled(r, word):
    """The word with one letter more, less or changed, or in the other case."""
    at = r.randrange(len(word) + 1)
    return r.choice([word[:at] + r.choice(LETTERS) + word[at:], word[:at] + r.choice(LETTERS) + word[at + 1:],
                     word[:at] + word[at + 1:], word.swapcase()])


def changed(r, words):
    """The words with one more, fewer, in the place of another, respelled or joined; or pairs turned round, or added."""
    at, other, pair = r.randrange(len(words)), r.randrange(len(words)), 1 + r.randrange(len(words)) // 2 * 2
    front, word, rest = words[:at], words[at], words[at + 1:]
    return r.choice([
        front + rest, front, [*front, respelled(r, word), *rest], [*front, "=".join([word, *rest[:1]]), *rest[1:]],
        [*front, r.choice(WORDS), *rest], [*front, r.choice(WORDS), word, *rest], [*front, words[other], *rest],
        [*front, words[other], word, *rest], words[:1] + words[pair:] + words[1:pair],
        [*words[:-1], r.choice(NUMBERS)], [*words, r.choice(NAMES), r.choice(VALUES)],
        [*words, r.choice(NO_NAMES), r.choice(VALUES)]])


def made(r):
    """A lawful list with up to three changes."""
    words = started(r)
    for _ in range(r.choice([0, 1, 1, 1, 1, 2, 3])):
        words = changed(r, words) if words else words
    return words

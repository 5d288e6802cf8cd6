"""The lines of a report: the kinds of frames, and the sentences of last lines."""
import re

DROPS = ["refused", "not-tunnel", "fragment", "encrypted", "not-ours", "dest-version-newer", "source-version-older",
         "congestion-mark", "ttl-expired", "no-attachment", "multicast", "not-site", "miss", "no-action",
         "send-request", "drop-no-reason", "drop-policy", "drop-auth", "no-locator", "too-big", "unsolicited", "unfit",
         "foreign", "no-reply-path", "unexpected"]
REFUSED, MISSES = "drop 1 refused", frozenset(("drop 13 miss", "drop 15 send-request"))
ANY, ADDRESS = "(?:0|[1-9][0-9]{0,19})", "[0-9a-f.:]+"
NUMBER = f"({ANY})"
# The line of a frame: its number, the seconds and nanoseconds of its moment, its n, and its verdict without a port.
FRAME = re.compile(rf"^{NUMBER} ([0-9]{{1,11}})\.([0-9]{{9}}) n={NUMBER} "
                   rf"(encapsulated {ADDRESS} {ADDRESS}(?= )|[^e\n][^\n]*)(?: {ANY})?\n", re.MULTILINE)
# The kinds of frames whose verdicts end with their name, and those that say more.
BARE = {"own", "local", "native", "control probe-reply"} | {
    f"drop {number} {word}" for number, word in enumerate(DROPS, 1) if word != "refused"}
VALUED = {kind: re.compile(f"{kind} {values}") for kind, values in (
    ("encapsulated", f"({ADDRESS}) ({ADDRESS})"),
    ("delivered", NUMBER),
    ("control reply", f"learned={NUMBER} passed={NUMBER}"),
    ("control request", f"answered={NUMBER}"),
    ("control solicit", f"asked={NUMBER}"),
    (REFUSED, f"(link|ip|udp|lisp|message) {NUMBER} ([a-z][a-z-]*)"))}
SUMS = {"control reply": ("learned", "passed"), "control request": ("answered",), "control solicit": ("asked",)}

END = re.compile(f"end frames={NUMBER} written={NUMBER} entries={NUMBER}")
CAPTURE_LINE = re.compile(f"capture [a-z-]+( {NUMBER})*")
# By their word, or by their word and how many numbers stand behind it. A report doesn't tell of which format its capture
# was, so a sentence is one for both.
CAPTURE_FAULTS = {
    "bad-magic": "it isn't of the format that it was read as",
    "bad-version 0": "its version isn't 2.4",
    "bad-version 1": "the section at octet {} isn't of version 1",
    "bad-link": "it is neither of Ethernet nor of raw IP",
    "cut-header": "it has {} octets, fewer than a header",
    "cut-record": "it ends within the record that begins at octet {}",
    "bad-fraction": "the record at octet {} has a fraction of a whole second or more",
    "cut-block": "it ends within the block that begins at octet {}",
    "bad-length": "the block at octet {} has a wrong length, two that differ, or a packet that doesn't fit",
    "too-long": "the record or block at octet {} has {} octets, more than it may have",
    "old-packet": "the block at octet {} is an obsolete packet block",
    "bad-option": "the interface that is described at octet {} has an option that is wrong",
    "too-many-interfaces": "the interface that is described at octet {} is one too many",
    "bad-interface": "the packet at octet {} is of an interface that its section doesn't have",
    "bad-link-type": "the packet at octet {} is of an interface that is neither Ethernet nor raw IP",
    "bad-moment": "the packet at octet {} is from before 1970, or from 2^32 s after that on",
    "span-too-long": "record {} is more than 1,000,000 s past all before it",
    "too-many-records": "it has more records or blocks than are read"}
SETTINGS_FAULTS = {
    "not-toml": "the file is no TOML", "too-long": "the file is too long", "unknown-key": "there is no such key as {}",
    "missing": "the key {} is missing", "bad-value": "the value of {} isn't one that it may have",
    "duplicate": "{} stands there twice", "too-many": "{} has too many items"}


def kind_of(verdict):
    """The kind of a frame by its verdict without a port, or None."""
    if verdict in BARE:
        return verdict
    return next((kind for kind, pattern in VALUED.items() if pattern.fullmatch(verdict)), None)


def values_of(kind, verdict):
    """What stands behind the kind."""
    return VALUED[kind].fullmatch(verdict).groups() if kind in VALUED else ()


def fault_sentence(sentences, text):
    """The sentence of a fault's word and the values behind it, or None."""
    word, _, rest = text.partition(" ")
    sentence = sentences.get(word) or sentences.get(f"{word} {len(rest.split())}")
    if sentence is None:
        return None
    count = sentence.count("{}")
    values = rest.split(" ", count - 1) if rest else []
    return sentence.format(*values) if len(values) == count else None


def last_sentence(line):
    """What a last line says, in a sentence, or None where it is no last line."""
    end = END.fullmatch(line)
    if end:
        frames, written, entries = (f"{int(number):,}" for number in end.groups())
        return (f"The capture was read to its end (status 0). Frames: {frames}; packets written: {written}; "
                f"entries of the journal: {entries}.")
    if line == "usage":
        return "The words of the command were of no form (status 1). Nothing was replayed."
    front, _, rest = line.partition(" ")
    if front == "settings":
        why = fault_sentence(SETTINGS_FAULTS, rest)
        return why and f"The settings were refused (status 2): {why}. Nothing was replayed."
    why = fault_sentence(CAPTURE_FAULTS, rest) if CAPTURE_LINE.fullmatch(line) else None
    return why and f"The capture was refused (status 3): {why}."


def cut_sentence(octets):
    """What is said of a report that ends within a line."""
    text = octets[:80].decode(errors="backslashreplace")
    return f"There is no last line: the report ends within a line, “{text}”, which isn't counted."

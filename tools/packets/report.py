"""The report of a replay, read line by line."""
import functools
import re
from typing import NamedTuple

DROPS = ["refused", "not-tunnel", "fragment", "encrypted", "not-ours", "dest-version-newer", "source-version-older",
         "congestion-mark", "ttl-expired", "no-attachment", "multicast", "not-site", "miss", "no-action",
         "send-request", "drop-no-reason", "drop-policy", "drop-auth", "no-locator", "too-big", "unsolicited", "unfit",
         "foreign", "no-reply-path", "unexpected"]
FRAME = re.compile(r"([1-9][0-9]*) ([0-9]{1,11})\.([0-9]{9}) n=[0-9]+ (.+)\n")
ENDS = re.compile("end |capture |settings |usage|sent ")
ADDRESS, NUMBER = "([0-9a-f.:]+)", "([0-9]+)"
# Of each kind of verdict what stands behind its words.
VERDICTS = {kind: re.compile(kind + values) for kind, values in (
    ("encapsulated", f" {ADDRESS} {ADDRESS} {NUMBER}"), ("delivered", f" {NUMBER}"), ("own", ""), ("local", ""),
    ("native", ""), ("control reply", f" learned={NUMBER} passed={NUMBER}"), ("control request", f" answered={NUMBER}"),
    ("control solicit", f" asked={NUMBER}"), ("control probe-reply", ""),
    ("drop", f" {NUMBER} ([a-z-]+)(?: (link|ip|udp|lisp|message) {NUMBER} ([a-z-]+))?"))}
MOST_TEXTS = 65_536


class NoReport(Exception):
    """Why this isn't the report of a replay, as a sentence."""


class Verdict(NamedTuple):
    """What became of a frame: its number, its moment in nanoseconds, the kind of its line, and the values behind it; the
    number of a drop, 0 of other verdicts."""
    number: int
    moment: int
    kind: str
    values: tuple
    drop: int


@functools.lru_cache(MOST_TEXTS)
def verdict_in(text):
    """The kind of a verdict, the values behind it, and the number of a drop; None where there is no such verdict."""
    words = text.split(" ", 2)
    kind = " ".join(words[:2]) if words[0] == "control" else words[0]
    found = VERDICTS[kind].fullmatch(text) if kind in VERDICTS else None
    if not found or not is_lawful(kind, found.groups()):
        return None
    return kind, found.groups(), int(found[1]) if kind == "drop" else 0


def verdict_of(match, number):
    """The verdict of the line of a frame, as the form of such lines found it."""
    if not match or int(match[1]) != number:
        raise NoReport(f"line {number} isn't that of frame {number}")
    found = verdict_in(match[4])
    if found is None:
        raise NoReport(f"line {number} has no verdict that there is")
    return Verdict(number, int(match[2]) * 10**9 + int(match[3]), *found)


def is_lawful(kind, values):
    """Whether a drop has the word of its number, and a place where it is a refusal."""
    if kind != "drop":
        return True
    number = int(values[0])
    return 1 <= number <= len(DROPS) and DROPS[number - 1] == values[1] and (number == 1) == (values[2] is not None)


def verdicts_of(file):
    """The verdicts of a report, up to its last line or to where it was cut."""
    number = 0
    for line in file:
        match = FRAME.fullmatch(line)
        if match is None and (ENDS.match(line) or not line.endswith("\n")):
            return
        number += 1
        yield verdict_of(match, number)

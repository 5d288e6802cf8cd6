"""A reader of the words behind the program's name, of its own: the command that they give, or None."""
import re
from enum import Enum
from typing import NamedTuple

NUMBER = re.compile(r"0|[1-9][0-9]*")
SPLITS = {"on": True, "off": False}
# Whether nonces are lifted out of what was sent.
NONCES = {"sent": True, "settings": False}
MOST_WORKERS, MOST_ROUND, MOST_MAPPINGS = 16, 4096, 50_000


class Format(Enum):
    """The format of a capture, with the words of `--format` and `--interfaces`."""

    CLASSIC = "classic", "none"
    NG = "ng", "none"
    NG_VLANS = "ng", "vlan"


class Replay(NamedTuple):
    settings: str
    input: str
    output: str
    format: Format = Format.CLASSIC
    workers: int = 0
    round: int = 256
    split: bool = False


class Show(NamedTuple):
    input: str


class Trial(NamedTuple):
    count: int


class Audit(NamedTuple):
    settings: str
    input: str
    sent: str
    lifts: bool = False


def number(word, least, most):
    """The number that a word spells, or None where it spells none within the limits."""
    is_within = NUMBER.fullmatch(word) and least <= int(word) <= most
    return int(word) if is_within else None


def is_value(word):
    return word != "" and word[0] != "-"


def pairs(words):
    """The values by their names, or None where the words aren't pairs of a name and its value, each name once."""
    names, values = words[::2], words[1::2]
    are_pairs = len(names) == len(values) and len(set(names)) == len(names) and all(map(is_value, values))
    return dict(zip(names, values)) if are_pairs else None


def format_of(*words):
    """The format that two words name, or None where they name none."""
    return next((format for format in Format if format.value == words), None)


def replay_of(words):
    match pairs(words):
        case {"--settings": settings, "--in": source, "--out": output, **others}:
            format = format_of(others.pop("--format", "classic"), others.pop("--interfaces", "none"))
            workers = number(others.pop("--workers", "0"), 0, MOST_WORKERS)
            size = number(others.pop("--round", "256"), 1, MOST_ROUND)
            split = SPLITS.get(others.pop("--split", "off"))
            if not others and None not in (format, workers, size, split) and output not in (settings, source):
                return Replay(settings, source, output, format, workers, size, split)
    return None


def show_of(words):
    match pairs(words):
        case {"--in": source, **others} if not others:
            return Show(source)
    return None


def trial_of(words):
    count = number(words[0], 1, MOST_MAPPINGS) if len(words) == 1 else None
    return None if count is None else Trial(count)


def audit_of(words):
    match pairs(words):
        case {"--settings": settings, "--in": source, "--sent": sent, **others}:
            lifts = NONCES.get(others.pop("--nonces", "settings"))
            return None if others or lifts is None else Audit(settings, source, sent, lifts)
    return None


def command_of(words):
    """The command that the words give, or None where they are of no form."""
    readers = {"replay": replay_of, "show": show_of, "trial": trial_of, "audit": audit_of}
    return readers[words[0]](words[1:]) if words[:1] and words[0] in readers else None

"""The words of the commands: their forms, and which of them is wrong."""
import os
import re

from pairs import value_of
from text import shown

# Each form, with what is done behind it, in lines.
FORMS = {
    "replay": ("replay --settings F --in F --out F",
               "[--format classic|ng] [--interfaces none|vlan] [--split on|off]",
               "[--workers W] [--round N]",
               "the capture of --in is replayed"),
    "show": ("show --in F", "its messages are shown"),
    "trial": ("trial N", "an input of N mappings is made and replayed, N from 1 to 50,000"),
    "audit": ("audit --settings F --in F --sent F [--nonces settings|sent]",
              "the capture of --sent is held against what a replay of --in sends"),
}
# What must be there; what may be, one of two words; and the numbers that may be, each with its least and greatest.
NEEDED = {"replay": ("--settings", "--in", "--out"), "show": ("--in",), "audit": ("--settings", "--in", "--sent")}
CHOICES = {"replay": {"--format": ("classic", "ng"), "--interfaces": ("none", "vlan"), "--split": ("on", "off")},
           "show": {}, "audit": {"--nonces": ("settings", "sent")}}
NUMBERS = {"replay": {"--workers": (0, 16), "--round": (1, 4096)}, "show": {}, "audit": {}}
MAPPINGS = 1, 50_000
# The options whose files are read.
READ = "--settings", "--in", "--sent"
NUMBER = re.compile(r"0|[1-9][0-9]*")


def are_text(words):
    return not any("\udc80" <= char <= "\udcff" for word in words for char in word)


def number_fault(what, word, least, greatest):
    """Why a word is no number within the limits, or None."""
    if NUMBER.fullmatch(word) and len(word) < 20 and least <= int(word) <= greatest:
        return None
    return f"{what} is a number from {least:,} to {greatest:,}, in digits without leading zeros: {shown(word)} isn't"


def choice_fault(name, word, first, second):
    """Why a word is neither of two, or None."""
    return None if word in (first, second) else f"{name} is {first} or {second}, and not {shown(word)}"


def name_fault(command, name, earlier):
    """Why a word is no option's name where it stands, or None."""
    known = NEEDED[command] + tuple(CHOICES[command]) + tuple(NUMBERS[command])
    if name in earlier:
        return f"{name} stands twice"
    if name in known:
        return None
    front, equals, value = name.partition("=")
    if equals and front in known:
        return f"{shown(name)}: the value is a word of its own, {front} {shown(value)}"
    return f"{shown(name)} is no option of {command}"


def value_fault(name, value):
    """Why a word is no option's value, or None."""
    if value == "-" and name in READ:
        return f"a value doesn't begin with -: standard input is {name} /dev/stdin, and a file of that name is ./-"
    if value is None:
        return f"{name} has no value"
    if value == "":
        return f"the value of {name} is empty"
    if value.startswith("--"):
        return f"{name} has no value: behind it comes {shown(value)}"
    if value.startswith("-"):
        return f"a value doesn't begin with -: a file of that name is {shown('./' + value)}"
    return None


def meaning_fault(command, name, value):
    """Why a value is none of those that an option takes, or None."""
    if name in CHOICES[command]:
        return choice_fault(name, value, *CHOICES[command][name])
    if name in NUMBERS[command]:
        return number_fault(name, value, *NUMBERS[command][name])
    return None


def options_fault(command, words):
    """What is wrong with options, one after another, or None."""
    earlier = []
    for i in range(0, len(words), 2):
        name, value = words[i], words[i + 1] if i + 1 < len(words) else None
        fault = name_fault(command, name, earlier) or value_fault(name, value) or meaning_fault(command, name, value)
        if fault:
            return fault
        earlier.append(name)
    lacking = [name for name in NEEDED[command] if name not in earlier]
    return f"{lacking[0]} lacks" if lacking else None


def interfaces_fault(words):
    """That interfaces are to be VLANs in a format that has none, or None."""
    if value_of("--interfaces", words) == "vlan" and value_of("--format", words) != "ng":
        return "--interfaces vlan goes with --format ng alone: a classic capture has no interfaces"
    return None


def same_fault(words):
    """Which file is to be read and made, or None."""
    output = value_of("--out", words)
    for name in ("--in", "--settings"):
        if output is not None and value_of(name, words) == output:
            return f"{name} and --out are the same file, {shown(output)}"
    return None


def trial_fault(words):
    if not words:
        return "trial lacks its number"
    if len(words) > 1:
        return f"trial has one number alone: {shown(words[1])} is one word more"
    return number_fault("N", words[0], *MAPPINGS)


def words_fault(words):
    """What is wrong with words, where that is plain, or None."""
    if not words:
        return None
    if not are_text(words):
        return "a word is no UTF-8 text"
    command, rest = words[0], words[1:]
    if command not in FORMS:
        return f"{shown(command)} is no command"
    if command == "trial":
        return trial_fault(rest)
    return options_fault(command, rest) or interfaces_fault(words) or same_fault(words)


def forms(words, top):
    """The forms, and where more is said; of a command that is plain, its own form alone."""
    named = words[0] if words and words[0] in FORMS else None
    lines = []
    for name, (first, *others) in FORMS.items():
        if named in (None, name):
            lines += [f"  lispr {first}", *(f"      {other}" for other in others)]
    more = f"more: {shown(os.path.join(top, 'docs', 'REFERENCE.md'))}"
    return ["words:", *lines, more]

#!/usr/bin/env python3
"""Prints docs/LIMITS.md: the limits, times and ports of the router, as they stand in definitions and in code.

usage: limits.py

The numbers are the definitions of specs/Limits.antt of each crate, and such ones of other files of specs whose names begin
with `most_`; what they mean is the comment above them. A constant of src/limits.rt stands beside the definition to which a
clause of `limits_are` ties it.
"""
import re
import sys
from pathlib import Path
from typing import NamedTuple

TOP = Path(__file__).resolve().parent.parent
CRATES = TOP / "crates"

DEFINED = re.compile(r"(?:abbrev|unfoldable) pub (\w+) : ℕ")
NUMBER = re.compile(r"[0-9][0-9_]*$|0x[0-9a-f]+$")
CONSTANT = re.compile(r"pub const (\w+): \w+ = ([^;]+);")
TIED = re.compile(r"ensures (?:\w+ )?\{ ([A-Z][A-Z_0-9]*) ≡ (seconds )?(\w+) \}")
SOURCE = re.compile(r"\s*\(([^()]*(?:choice|RFC \d+)[^()]*)\)")

HEAD = """# Limits

`tools/limits.py` prints this page from the definitions of each crate and its constants. A number stands once in the
definitions, which contracts cite, and once in the code, as a constant. The law `limits_are` of the constant's crate
proves that both are one number; where a constant is a time in nanoseconds, that it is as many nanoseconds as the
defined seconds. A number without a constant is computed from others, or bounds a length that no code compares. Ranges
of settings are in [Reference](REFERENCE.md#settings).

`router_examples` states each chosen number once more as a worked clause, because a proof ties code to a definition and
would not see the same wrong number in both."""


class Limit(NamedTuple):
    """A number: the crate and file of its definition, its name, what it means, where it comes from, and how it is spelled."""
    crate: str
    file: str
    name: str
    meaning: str
    source: str
    spelled: str


class Constant(NamedTuple):
    """A constant that a law ties to a definition, and the crate in which both stand together."""
    crate: str
    name: str


# ### what stands in the repository

def lines_of(path):
    return path.read_text(encoding="utf-8").split("\n")


def comment_above(lines, at):
    """The comment that ends right above a line, as one text."""
    first = at
    while first > 0 and lines[first - 1].startswith("--"):
        first -= 1
    return " ".join(line.lstrip("- ") for line in lines[first:at])


def split_source(comment):
    """What a comment means, and where it says that the number comes from."""
    sources = SOURCE.findall(comment)
    return SOURCE.sub("", comment).strip(), "; ".join(sources)


def subject_of(lines):
    """The first line of a file of definitions: its subject, and the source of all that is below."""
    return split_source(lines[0].lstrip("- ").rstrip("."))


def limits_in(path):
    """The numbers that a file of definitions defines."""
    lines = lines_of(path)
    crate = path.relative_to(CRATES).parts[0]
    for at, line in enumerate(lines):
        found = DEFINED.match(line)
        if found and lines[at + 1].startswith(f"{found[1]} ="):
            meaning, source = split_source(comment_above(lines, at))
            spelled = lines[at + 1].partition("=")[2].strip()
            yield Limit(crate, path.stem, found[1], meaning, source or subject_of(lines)[1], spelled)


def all_limits():
    """The numbers of all crates, in order of crate and place."""
    for path in sorted(CRATES.glob("*/specs/**/*.antt")):
        for limit in limits_in(path):
            if path.stem == "Limits" or limit.name.startswith("most_"):
                yield limit


def tied_constants():
    """For the name of each definition the constants that a law ties to it."""
    tied = {}
    for path in sorted(CRATES.glob("*/src/limits.rt")):
        crate = path.relative_to(CRATES).parts[0]
        for constant, _, name in TIED.findall(path.read_text(encoding="utf-8")):
            tied.setdefault(name, []).append(Constant(crate, constant))
    return tied


# ### numbers

def named(name, crate, limits):
    """The number of that name: the one of the crate, where several crates have one."""
    found = [limit for limit in limits if limit.name == name]
    return next((limit for limit in found if limit.crate == crate), found[0] if len(found) == 1 else None)


def value_of(limit, limits):
    """The number of a definition, whose text adds, subtracts, multiplies and raises numbers and other definitions. None
    where it applies a function."""
    text = limit.spelled.replace("^", "**")
    for word in set(re.findall(r"\b[A-Za-z_]\w*", re.sub(r"0x[0-9a-f]+", "", text))):
        other = named(word, limit.crate, limits)
        value = value_of(other, limits) if other else None
        if value is None:
            return None
        text = re.sub(rf"\b{word}\b", str(value), text)
    return eval(text, {"__builtins__": {}})


def shown(limit, limits):
    """The number of a definition, in threes unless it is a port."""
    value = value_of(limit, limits)
    if value is None:
        return ""
    return str(value) if limit.name.endswith("_port") else f"{value:,}"


# ### the page

def constant_shown(constant, crate):
    """A constant, with its crate where that is another one than the definition's."""
    return f"`{constant.name}`" if constant.crate == crate else f"`{constant.name}` of `{constant.crate}`"


def row_of(limit, limits, tied):
    """The line of a number in the table of its crate."""
    constants = ", ".join(constant_shown(constant, limit.crate) for constant in tied.get(limit.name, []))
    computed = "" if NUMBER.match(limit.spelled) else f"`{limit.spelled}`"
    place = f"`{limit.name}`" if limit.file == "Limits" else f"`{limit.file}.{limit.name}`"
    source = "; ".join(text for text in (limit.source, computed) if text)
    return f"| {limit.meaning} | {shown(limit, limits)} | {place} | {constants} | {source} |"


def table_of(crate, limits, tied):
    """The heading and table of a crate."""
    own = [limit for limit in limits if limit.crate == crate]
    head = f"## `{crate}`\n\n| What | Number | Definition | Constant | Source |\n|---|---|---|---|---|\n"
    return head + "\n".join(row_of(limit, limits, tied) for limit in own)


def page():
    """The page as it is to stand."""
    limits = list(all_limits())
    tied = tied_constants()
    crates = sorted({limit.crate for limit in limits})
    return "\n\n".join([HEAD, *(table_of(crate, limits, tied) for crate in crates)]) + "\n"


def main():
    if len(sys.argv) != 1:
        print("usage: limits.py", file=sys.stderr)
        sys.exit(2)
    sys.stdout.write(page())


if __name__ == "__main__":
    main()

#!/usr/bin/env python3
"""Checks docs/STANDARDS.md: what it names stands where it says, and what cites a standard's section is named there.

usage: standards.py

A line of the page is well-formed: its sections ascend, and it says done, choice or left out. Each definition, function
and row that it names is there. And each definition of the specs whose comment cites a section of an RFC has a line
under that RFC; of a heading that cites one, any definition below it. What is wrong is printed, and the status is then 1.
"""
import re
import sys
from pathlib import Path
from typing import NamedTuple

TOP = Path(__file__).resolve().parent.parent
PAGE = TOP / "docs" / "STANDARDS.md"
CRATES = TOP / "crates"
ROWS = CRATES / "conformance" / "data"

CITED = re.compile(r"RFC (\d+),? sections? \d")
DEFINED = re.compile(r"\s*(?:(?:abbrev|unfoldable) pub|pub (?:record|data)) ([^\s:({]+)")
ROW = re.compile(r'^\[\[row\]\]\nname = "(.*)"$', re.MULTILINE)
ITEM = "fn|const|static|struct|enum|trait|type"


class Rule(NamedTuple):
    """A line of the page: its number, the RFC, the section as numbers, what is made of it, and what it names."""
    line: int
    rfc: str
    section: list
    here: str
    definitions: list
    code: list
    rows: list


class Citing(NamedTuple):
    """A comment that cites sections of RFCs: where it stands, which RFCs, and the definitions that are below it."""
    place: str
    rfcs: set
    names: list


# ### the page

def definitions_in(cell):
    """Pairs of a crate and a definition: `crate`: `File.name`, `File.name`; `crate`: .."""
    crate, pairs = None, []
    for name, colon in re.findall(r"`([^`]+)`(:?)", cell):
        if colon:
            crate = name
        else:
            pairs.append((crate, name))
    return pairs


def names_in(cell):
    """Pairs of a file and a name: `file: name`."""
    return [tuple(name.partition(": ")[::2]) for name in re.findall(r"`([^`]+)`", cell)]


def rule_of(line, rfc, cells):
    """The rule of a line of a table, whose section may begin with an RFC of its own."""
    section, _, here, definitions, code, rows = cells
    own = re.match(r"RFC (\d+)(?:, )?(.*)", section)
    if own:
        rfc, section = own.groups()
    numbers = [int(number) for number in re.findall(r"\d+", section)]
    return Rule(line, rfc, numbers, here, definitions_in(definitions), names_in(code), names_in(rows))


def rules_of(text):
    """The rules of the page: the lines of its tables that have six cells, but for their heads."""
    rfc, rules = None, []
    for line, words in enumerate(text.split("\n"), 1):
        if words.startswith("#"):
            rfc = next(iter(re.findall(r"RFC (\d+)", words)), None)
        cells = [cell.strip() for cell in words.split("|")[1:-1]]
        if len(cells) == 6 and cells[0] != "Section" and not cells[0].startswith("-"):
            rules.append(rule_of(line, rfc, cells))
    return rules


# ### what stands in the repository

def definitions_of(path):
    """The number of each line with a definition, and its name."""
    for line, words in enumerate(path.read_text(encoding="utf-8").split("\n"), 1):
        found = DEFINED.match(words)
        if found:
            yield line, f"{path.stem}.{found[1]}"


def comments_of(path):
    """The comments of a file: the numbers of the first line and of that behind the last, and the text."""
    lines = path.read_text(encoding="utf-8").split("\n")
    first = None
    for line, words in enumerate(lines, 1):
        if words.strip().startswith("--"):
            first = first or line
        elif first:
            yield first, line, " ".join(text.strip(" -") for text in lines[first - 1:line - 1])
            first = None


def citing_of(path):
    """The comments of a file that cite sections. That of a definition stands before it; others are headings, of the
    file or of a part of it, which ends with the next one."""
    crate = path.relative_to(CRATES).parts[0]
    defined = dict(definitions_of(path))
    lines = path.read_text(encoding="utf-8").split("\n")
    parts = [line for line, words in enumerate(lines, 1) if words.strip().startswith("-- ###")] + [len(lines) + 1]
    for first, behind, text in comments_of(path):
        end = len(lines) + 1 if first == 1 else next(part for part in parts if part > first)
        below = [defined[behind]] if behind in defined else [name for line, name in defined.items() if first < line < end]
        if CITED.search(text):
            yield Citing(f"{path.relative_to(TOP)}:{first}", set(CITED.findall(text)), [(crate, name) for name in below])


def spec_files():
    return sorted(CRATES.glob("*/specs/**/*.antt"))


def text_of(path):
    """The text of a file, empty where there is none."""
    return path.read_text(encoding="utf-8") if path.is_file() else ""


def has_code(file, names):
    """A file of code has these functions, constants or types."""
    return "/src/" in file and all(re.search(rf"\b(?:{ITEM}) {name}\b", text_of(CRATES / file)) for name in names.split(", "))


def has_row(file, name):
    return name in ROW.findall(text_of(ROWS / file))


# ### what is wrong

def form_faults(rules):
    """Lines that say nothing of the three, or that stand before a lesser section."""
    for rule in rules:
        if not re.match(r"(done$|done: |choice: |left out: )", rule.here):
            yield f"line {rule.line}: says neither done, nor a choice, nor why it is left out"
        if not rule.here.startswith("left out") and not (rule.definitions and rule.code):
            yield f"line {rule.line}: names no definition, or no code"
    for rule, following in zip(rules, rules[1:]):
        if rule.rfc == following.rfc and rule.section > following.section:
            yield f"line {following.line}: its section stands behind a greater one"


def missing(rules):
    """Names that don't stand where a line says."""
    known = {(path.relative_to(CRATES).parts[0], name) for path in spec_files() for _, name in definitions_of(path)}
    for rule in rules:
        for crate, name in rule.definitions:
            if (crate, name) not in known:
                yield f"line {rule.line}: no definition `{crate}`: `{name}`"
        for file, names in rule.code:
            if not has_code(file, names):
                yield f"line {rule.line}: no code `{file}: {names}`"
        for file, name in rule.rows:
            if not has_row(file, name):
                yield f"line {rule.line}: no row `{file}: {name}`"


def what_cites(citing):
    """A definition by its name, and what is below a heading by its place."""
    if len(citing.names) == 1:
        crate, name = citing.names[0]
        return f"`{crate}`: `{name}`"
    return f"a definition below {citing.place}"


def unlisted(rules):
    """Definitions that cite a section, and have no line under its RFC."""
    listed = {(rule.rfc, *pair) for rule in rules for pair in rule.definitions}
    for path in spec_files():
        for citing in citing_of(path):
            for rfc in sorted(citing.rfcs):
                if not any((rfc, *pair) in listed for pair in citing.names):
                    yield f"RFC {rfc}: no line for {what_cites(citing)}"


def main():
    rules = rules_of(text_of(PAGE))
    faults = [*form_faults(rules), *missing(rules), *unlisted(rules)]
    for fault in faults:
        print(f"docs/STANDARDS.md, {fault}")
    if faults or not rules:
        print(f"standards: {len(rules)} rules, not as they should be")
        return 1
    print(f"standards: {len(rules)} rules, all found")
    return 0


if __name__ == "__main__":
    sys.exit(main())

#!/usr/bin/env python3
"""Checks the pages: links, names, sizes, lines, what is printed by a script, and what docs/STANDARDS.md names.

usage: pages.py

A link leads to a file that is there, and to a heading of it. A name in backquotes stands somewhere in the repository, or is
a path of it. A page has at most so many words, and its prose at most so many columns. docs/LIMITS.md is what
tools/limits.py prints. And tools/standards.py finds nothing to say of docs/STANDARDS.md. What is wrong is printed, and the
status is then 1.
"""
import re
import subprocess
import sys
from pathlib import Path

import limits
import standards

TOP = Path(__file__).resolve().parent.parent
# Pages, and how many words each may have; None where a page is as long as it must be.
PAGES = {"README.md": 1000, "docs/GUIDE.md": 7000, "docs/REFERENCE.md": 5500, "docs/BEHAVIOUR.md": 4500,
         "docs/STANDARDS.md": None, "docs/LIMITS.md": None, "docs/DESIGN.md": 4000, "docs/PROMISES.md": 4000,
         "docs/MAP.md": 2500, "docs/PROVING.md": 7000, "crosscheck/README.md": None,
         "crates/conformance/data/README.md": None}
MOST_COLUMNS = 120
# This page cites the toolchain's own words, which stand nowhere here.
CITES_OTHERS = "docs/PROVING.md"
# Words of other programs and formats, and a name that is an example.
OTHERS_WORDS = {"LINUX_SLL", "LINUX_SLL2", "feed", "rattle-kit-13f", "tar", "tcprewrite"}
LINK = re.compile(r"\[[^\]]*\]\(([^)\s]+)\)")
HEADING = re.compile(r"#+ (.*)")
QUOTED = re.compile(r"`([^`\n]+)`")
# One word: a name with its modules or fields, a path, or an option.
NAME = re.compile(r"(?:--)?[A-Za-z_][\w/.:-]*")
WORD = re.compile(r"[A-Za-z_][A-Za-z0-9_-]*")
FENCE = "```"


# ### a page

def text_of(page):
    return (TOP / page).read_text(encoding="utf-8")


def prose_of(text):
    """The lines of a page outside of fenced blocks, with their numbers."""
    inside = False
    for line, words in enumerate(text.split("\n"), 1):
        if words.lstrip().startswith(FENCE):
            inside = not inside
        elif not inside:
            yield line, words


def anchor_of(heading):
    """What a link calls a heading: lower case, with hyphens for blanks, and no other marks."""
    plain = re.sub(r"\[([^\]]*)\]\([^)]*\)", r"\1", heading).strip().lower()
    return re.sub(r"[^\w\- ]", "", plain).replace(" ", "-")


def anchors_of(text):
    """What links may call the headings of a page."""
    return {anchor_of(found[1]) for _, words in prose_of(text) if (found := HEADING.match(words))}


# ### what is wrong

def link_fault(page, target):
    """Why a link leads nowhere, or None. A link to another host isn't followed."""
    if re.match(r"\w+:", target):
        return None
    path, _, anchor = target.partition("#")
    file = (TOP / page).parent / path if path else TOP / page
    if not file.exists():
        return "no such file"
    if anchor and anchor not in anchors_of(file.read_text(encoding="utf-8")):
        return "no such heading"
    return None


def link_faults(page, text):
    for line, words in prose_of(text):
        for target in LINK.findall(words):
            fault = link_fault(page, target)
            if fault:
                yield f"{page}:{line}: {target}: {fault}"


def tracked_files():
    """The files of the repository, but for the pages themselves."""
    listed = subprocess.run(["git", "ls-files", "-z"], cwd=TOP, capture_output=True, check=True, text=True).stdout
    return [file for file in listed.split("\0") if file and file not in PAGES and (TOP / file).is_file()]


def words_there(files):
    """The words of the files and of their paths."""
    found = set()
    for file in files:
        found.update(WORD.findall(file))
        found.update(WORD.findall((TOP / file).read_text(encoding="utf-8", errors="replace")))
    return found


def is_there(name, words):
    """Each word of the name stands somewhere, or the name is a path, or another program's."""
    return name in OTHERS_WORDS or (TOP / name).exists() or all(word in words for word in WORD.findall(name))


def name_faults(page, text, words):
    if page == CITES_OTHERS:
        return
    for line, prose in prose_of(text):
        for name in QUOTED.findall(prose):
            if NAME.fullmatch(name) and not is_there(name, words):
                yield f"{page}:{line}: `{name}`: it stands nowhere"


def size_faults(page, text):
    most = PAGES[page]
    if most is not None and len(text.split()) > most:
        yield f"{page}: {len(text.split())} words, and may have {most}"


def column_faults(page, text):
    for line, words in prose_of(text):
        if len(words) > MOST_COLUMNS and not words.startswith("|") and not LINK.search(words):
            yield f"{page}:{line}: {len(words)} columns"


def faults_of(page, words):
    """All that is wrong with a page."""
    if not (TOP / page).is_file():
        return [f"{page}: no such page"]
    text = text_of(page)
    return [*link_faults(page, text), *name_faults(page, text, words), *size_faults(page, text),
            *column_faults(page, text)]


def limits_faults():
    if text_of("docs/LIMITS.md") != limits.page():
        yield "docs/LIMITS.md: not what tools/limits.py prints"


def main():
    words = words_there(tracked_files())
    faults = [fault for page in PAGES for fault in faults_of(page, words)]
    faults += limits_faults()
    for fault in faults:
        print(fault)
    print(f"pages: {len(PAGES)} pages, {len(faults)} faults")
    return standards.main() or bool(faults)


if __name__ == "__main__":
    sys.exit(main())

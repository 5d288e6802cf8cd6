#!/usr/bin/env python3
"""Finds lemmas that nothing uses: names of proofs/*.antt of all crates that stand nowhere but where they are defined.

usage: lemmas.py   (prints file, line and name of each; the status is 1 if there are any)
A file whose name ends with Facts stands for its readers, and nothing has to use it.
"""
import re
import sys
from pathlib import Path

TOP = Path(__file__).resolve().parent.parent
NAME = r"[^\s(){}\[\],.:;λ]+"
SIGNED = re.compile(rf"^ *(?:abbrev )?(?:pub )?({NAME}) (?:: |\{{.*\}} : )")


def files(*kinds):
    return [path for kind in kinds for path in sorted((TOP / "crates").glob(f"*/{kind}")) if "out" not in path.parts]


def depth(line):
    return len(line) - len(line.lstrip())


def end_of(lines, start, name):
    """The line behind a definition, which begins with its signature: its equations, and all that is deeper."""
    equation = re.compile(rf"^ *{re.escape(name)}(?: |$)")
    for number in range(start + 1, len(lines)):
        line = lines[number]
        if line.strip() and depth(line) <= depth(lines[start]):
            if depth(line) < depth(lines[start]) or not equation.match(line):
                return number
    return len(lines)


def unused():
    texts = {path: path.read_text().split("\n") for path in files("src/**/*.rt", "specs/**/*.antt", "proofs/**/*.antt")}
    uses = {}
    for path, lines in texts.items():
        for number, line in enumerate(lines):
            if not line.lstrip().startswith(("--", "//")):
                for word in set(re.findall(NAME, line)):
                    uses.setdefault(word, []).append((path, number))
    for path in files("proofs/*.antt"):
        lines = texts[path]
        for number, line in enumerate(lines):
            found = SIGNED.match(line)
            if not found or line.startswith("use ") or path.stem.endswith("Facts"):
                continue
            own = range(number, end_of(lines, number, found[1]))
            if all(other == path and at in own for other, at in uses[found[1]]):
                yield path.relative_to(TOP), number + 1, found[1]


def main():
    found = list(unused())
    for path, number, name in found:
        print(f"{path}:{number}: {name}")
    print(f"lemmas: {len(found)} without a use")
    sys.exit(1 if found else 0)


if __name__ == "__main__":
    main()

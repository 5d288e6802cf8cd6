#!/usr/bin/env python3
"""Holds what `contracts` prints against the sources, which are read here in another way: by braces, not by lines.

usage: contracts_test.py
Each `pub fn` of every crate must be printed once, with its signature and each of its clauses whole; `run` with the
clauses that docs/PROMISES.md relies on; each public definition with a comment, and with its own where one is above it.
Each `call`: `clause` of that page must be a clause of that call, and each name in backquotes must stand in the tree. No
line is longer than 120 columns, and an unknown crate or name is refused with one that is near. What is wrong is printed,
and the status is then 1.
"""
import functools
import importlib.machinery
import importlib.util
import re
import subprocess
import sys
from pathlib import Path

TOP = Path(__file__).resolve().parent.parent
PROGRAM, PAGE = TOP / "tools" / "contracts", TOP / "docs" / "PROMISES.md"
CRATES = sorted(path.parent for path in (TOP / "crates").glob("*/src"))
RUN_CLAUSES = ["status", "left", "shared", "front", "shared_front", "usage", "host", "kept", "steady", "complete"]
REFUSED = {("router_cor",): "router_core", ("router_core", "hear"): "Table::hear", ("replay", "runn"): "run",
           ("router_core", "Verdict"): "router_log", ("--definitions", "router_model", "stands"): "Stands",
           ("--definitions", "router_core", "Stands"): "router_model", ("--find", "isolatd"): "Isolated"}
FUNCTION = re.compile(r"^ *pub (?:const )?fn (\w+)", re.MULTILINE)
CLAUSE = re.compile(r"\s*(?://.*\n\s*)*((?:requires|ensures)\*?(?: \w+)?) (?=\{)")


@functools.cache
def printed(*words):
    """Status, output and errors of `contracts` by words."""
    run = subprocess.run([sys.executable, PROGRAM, *words], capture_output=True, text=True, encoding="utf-8")
    return run.returncode, run.stdout, run.stderr


def squeezed(text):
    return re.sub(r"\s+", " ", re.sub(r"^\s*//.*$", "", text, flags=re.MULTILINE)).strip()


# ### functions

def brace_end(text, at):
    """Where the block ends that opens at a place."""
    depth = 0
    for place in range(at, len(text)):
        depth += {"{": 1, "}": -1}.get(text[place], 0)
        if depth == 0:
            return place + 1
    raise ValueError(text[at:at + 60])


def signature_end(text, at):
    """Where a signature ends: before its first clause or its body."""
    return re.compile(r"\s*(?:\n\s*//.*)*\s+(?:requires|ensures)[ *]|\s*\{").search(text, at).start()


def clauses_at(text, at):
    """The clauses of a contract, each with its words: `ensures status`."""
    clauses, found = [], CLAUSE.match(text, at)
    while found:
        end = brace_end(text, found.end())
        clauses.append((found[1], text[found.end():end]))
        found = CLAUSE.match(text, end)
    return clauses


def functions_of(path):
    """The line of each public function of a file, its name, its signature and its clauses."""
    text = path.read_text(encoding="utf-8")
    for found in FUNCTION.finditer(text):
        end = signature_end(text, found.start())
        yield text.count("\n", 0, found.start()) + 1, found[1], text[found.start():end], clauses_at(text, end)


def blocks_of(output):
    """What is printed behind each line that is a place."""
    parts = re.split(r"^(crates/\S+:\d+)$", output, flags=re.MULTILINE)
    return list(zip(parts[1::2], parts[2::2]))


def function_faults(crate):
    output = blocks_of(printed(crate.name)[1])
    for path in sorted((crate / "src").rglob("*.rt")):
        for line, name, signature, clauses in functions_of(path):
            place = f"{path.relative_to(TOP)}:{line}"
            blocks = [squeezed(block) for at, block in output if at == place]
            if len(blocks) != 1:
                yield f"{place} {name}: printed {len(blocks)} times"
                continue
            wanted = [squeezed(signature)] + [f"{words} {squeezed(body)}" for words, body in clauses]
            yield from (f"{place} {name}: lacks {part}" for part in wanted if part not in blocks[0])
            if len(re.findall(r"\b(?:requires|ensures)\*? (?:\w+ )?\{", blocks[0])) != len(clauses):
                yield f"{place} {name}: another number of clauses than {len(clauses)}"


def run_faults():
    status, output, _ = printed("replay", "run")
    named = re.findall(r"^ +ensures (\w+) ", output, re.MULTILINE)
    if status or named != RUN_CLAUSES:
        yield f"run: clauses {named}"


# ### definitions

def definitions_of(path):
    """The line of each public definition of a file, its name, and the comment right above it."""
    text = path.read_text(encoding="utf-8")
    head = r"^((?:-- (?!###).*\n)*)(?:abbrev |unfoldable )?pub (?!use |mod )(?:record |data )?([^\s:({]+)"
    for found in re.finditer(head, text, re.MULTILINE):
        yield text.count("\n", 0, found.start(2)) + 1, found[2], found[1].replace("-- ", "")


def definition_faults(crate):
    parts = re.split(r"^(crates/\S+:\d+ \S+)$", printed("--definitions", crate.name)[1], flags=re.MULTILINE)
    comments = {place: squeezed(comment) for place, comment in zip(parts[1::2], parts[2::2])}
    for path in sorted((crate / "specs").rglob("*.antt")):
        for line, name, comment in definitions_of(path):
            found = comments.pop(f"{path.relative_to(TOP)}:{line} {name}", "")
            if not found or (comment and found != squeezed(comment)):
                yield f"{path.relative_to(TOP)}:{line} {name}: comment '{found}'"
    yield from (f"{place}: is no public definition" for place in comments)


# ### the page

def program():
    """The program as a module."""
    loader = importlib.machinery.SourceFileLoader("contracts", str(PROGRAM))
    module = importlib.util.module_from_spec(importlib.util.spec_from_loader("contracts", loader))
    loader.exec_module(module)
    return module


def clauses_by_name():
    """The clauses of each public call of all crates, by its name."""
    items_of, clauses = program().items_of, {}
    for crate in CRATES:
        for item in items_of(crate.name):
            found = re.findall(r"\bensures\*? (\w+) ", "\n".join(item.text))
            clauses[item.name] = clauses.get(item.name, set()) | set(found)
    return clauses


def sources():
    """The text of all that the page may name."""
    paths = [path for crate in CRATES for path in crate.rglob("*") if path.suffix in (".rt", ".antt", ".toml")]
    paths += [*(TOP / "crosscheck").glob("*.py"), *(TOP / ".ci").iterdir(), TOP / "lispr", TOP / "README.md"]
    return "\n".join(path.read_text(encoding="utf-8") for path in paths)


def page_faults():
    page, clauses, text = " ".join(PAGE.read_text(encoding="utf-8").split()), clauses_by_name(), sources()
    for call, names in re.findall(r"`([\w:]+)`: ((?:`\w+`(?:, )?)+)", page):
        lacking = set(re.findall(r"\w+", names)) - clauses.get(call, set())
        yield from (f"{PAGE.name}: {call} has no clause {name}" for name in lacking)
    for name in set(re.findall(r"`([^`]+)`", page)):
        stands = name in clauses if "::" in name else re.search(rf"(?<!\w){re.escape(name)}(?!\w)", text)
        if not stands and not (TOP / name.split()[0]).exists():
            yield f"{PAGE.name}: `{name}` stands nowhere"


# ### the rest

def length_faults(crate):
    for words in (crate.name,), ("--definitions", crate.name):
        status, output, errors = printed(*words)
        if status or errors:
            yield f"{words}: status {status} {errors}"
        yield from (f"{words}: {len(line)} columns: {line}" for line in output.split("\n") if len(line) > 120)


def refusal_faults():
    for words, near in REFUSED.items():
        status, output, errors = printed(*words)
        if status != 2 or output or near not in errors:
            yield f"{words}: status {status}, {errors.strip()}"


def whole_faults():
    """One whole definition, one search, a type, and the list of crates."""
    wanted = {("--definitions", "router_core", "most_kept"): "most_kept = 12000000",
              ("--definitions", "router_model", "Parts.Stands"): "pub whole : parts ≡ parts_in settings journal",
              ("--find", "isolated"): "hearing.rt", ("router_core", "Table"): "Table::hear",
              ("desk", "Desk::say"): "ensures told {", (): "router_core\n"}
    for words, part in wanted.items():
        status, output, _ = printed(*words)
        if status or part not in output:
            yield f"{words}: status {status}, without {part}"


def main():
    sys.dont_write_bytecode = True
    faults = [*run_faults(), *refusal_faults(), *whole_faults(), *page_faults()]
    for crate in CRATES:
        faults += [*function_faults(crate), *definition_faults(crate), *length_faults(crate)]
    print("\n".join(faults) if faults else f"contracts: {len(CRATES)} crates are printed as they stand")
    return 1 if faults else 0


if __name__ == "__main__":
    sys.exit(main())

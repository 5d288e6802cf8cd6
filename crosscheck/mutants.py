#!/usr/bin/env python3
"""Changes the plain router at one place at a time, and has each changed router judged by the rows: one must refuse it.

usage: mutants.py [STEP [WORKERS]]
A change is another operator, a number one more or one less, the other truth, an operand of `and` or `or`, a `not` or a
condition of a comprehension that is left out, or one side of a conditional expression always. Each changed router runs
the rows of crates/conformance/data, limits.py and limits_ng.py that reach the place, until one ends otherwise, fails or
takes seconds longer. What no row can refuse stands in mutants.toml, each group with the reason: mostly the changed
router is the same router. With STEP 100 each hundredth change is made, and without it each. There are as many workers as
processors, if no number is given; on four a whole run takes some ten minutes. It prints each change that no row refuses
and that isn't listed, as it would have to be listed, each listed one that a row refuses, and those of which there is
none; then a line for each file and one for all. It ends with status 1 where it prints such a change, and 2 where the
words are wrong.

Changed is all that replays, shows or audits, and that reads the words for it: what rows judge. Left out are the makers of
captures and the judges, and here what these alone call, for no row says anything of them; and texts, of which each that
is said stands in a row anyway. A few rows that take seconds each are run for the functions alone whose limit they meet.
"""
import ast
import gc
import json
import multiprocessing
import os
import re
import resource
import signal
import sys
import tempfile
import time
import tomllib
import types
from typing import NamedTuple

import changing
import limits
import limits_ng
import rows
from row_runs import BadRow, Run, files_of_rows, rows_of

HERE = os.path.dirname(os.path.abspath(__file__))
LISTED = os.path.join(HERE, "mutants.toml")
# The router's files, each behind those that it needs, and the judges, which need them all.
ROUTER = ("commands", "wire", "lisp", "messages", "settings", "journal", "sites", "choice", "nonces", "sending", "noting",
          "captures", "captures_ng", "router", "splitting", "plain", "auditing", "rounds")
JUDGES = "trial", "rows"
# What makers and judges call alone.
LEFT = {"commands": ("Replay", "Audit"), "wire": ("contents", "existing", "udp_packet"), "sites": ("Site.at",),
        "plain": ("replayed",), "rounds": ("Stepwise", "first", "last", "at_random", "forced", "reported", "fault",
                                             "main")}
# Rows that take seconds, and the functions of the journal whose limits they meet: they are run for these alone.
SLOW = {"a locator more than may be asked for an echo": "may_start", "a peer more than may be solicited": "may_solicit",
        "an echo more than may be wanted": "may_want", "a mapping more than may be live": "may_learn",
        "a trial of 2,000 mappings": None}
# How many seconds a run may take longer than it took when its lines were seen; octets that it may have.
MORE_SECONDS, MOST_MEMORY = 2, 4 * 2**30
# Where the folders of runs are made, if it is there.
IN_MEMORY = "/dev/shm"
# What comes of a change that no row refuses, and of one that a row does.
STANDS, REFUSED = 0, 1


class Told(NamedTuple):
    """A run of a row: the row's name, and how many runs of it are before."""
    row: str
    position: int
    run: Run


class Work:
    """What all processes have of the one that starts them: the changes, the runs, and of each the lines and seconds."""
    changes, told, lines, seconds = [], [], [], []


def source(name):
    with open(os.path.join(HERE, f"{name}.py")) as file:
        return file.read()


TREES = {name: ast.parse(source(name)) for name in (*ROUTER, *JUDGES)}
PROGRAMS = {name: compile(tree, name, "exec") for name, tree in TREES.items()}


# What runs reach.


def all_runs():
    """All runs that the plain router can judge."""
    judge = rows.Plain()
    told = [*rows_of(files_of_rows()), *limits.rows(), *limits_ng.rows()]
    return [Told(row.name, i, run) for row in told for i, run in enumerate(row.runs) if judge.can(run)]


def forget():
    """Forgets what was computed before, so that each run reaches all of its lines."""
    for name in ROUTER:
        for value in vars(sys.modules[name]).values():
            if hasattr(value, "cache_clear"):
                value.cache_clear()


def lines_in(name):
    """The lines of a function of the journal."""
    functions = [node for node in ast.walk(TREES["journal"]) if isinstance(node, ast.FunctionDef) and node.name == name]
    return {("journal", line) for node in functions for line in range(node.lineno, node.end_lineno + 1)}


def reached(number):
    """The lines of the router that a run reaches, each a file and a number, and the seconds that it takes.

    Of a slow one these are the lines that it is for.
    """
    told, lines = Work.told[number], set()
    if told.row in SLOW:
        return lines_in(SLOW[told.row]), 100.0
    files = {os.path.join(HERE, f"{name}.py"): name for name in ROUTER}

    def at_line(frame, *_):
        lines.add((files[frame.f_code.co_filename], frame.f_lineno))
        return at_line

    forget()
    start = time.process_time()
    sys.settrace(lambda frame, *_: at_line if frame.f_code.co_filename in files else None)
    end = rows.ended(rows.Plain(), told.run)
    sys.settrace(None)
    if end != told.run.end():
        raise BadRow(f"{told.row} differs without a change")
    return lines, time.process_time() - start


def lines_of_names():
    """For each name that is made outside of functions the lines on which something depends on it."""
    lines, made = {}, {}
    for file in ROUTER:
        for name, line in changing.names_used(TREES[file]):
            lines.setdefault(name, set()).add((file, line))
        for statement in TREES[file].body:
            for name, _ in changing.names_used(statement) if changing.names_made(statement) else ():
                made.setdefault(name, set()).update(changing.names_made(statement))
    for _ in made:
        for name, others in made.items():
            lines[name] = lines[name].union(*(lines[other] for other in others))
    return lines


def lines_of(change, names):
    """The lines of which a run must reach one to be able to refuse a change; none where any run may."""
    line = changing.line_of(change.place)
    if line is not None:
        return {(change.file, line)}
    return set().union(*(names[name] for name in changing.names_made(change.place.around[1])))


def runs_for(change, names):
    """The numbers of the runs that can refuse a change: first one of each row, the shortest first."""
    lines = lines_of(change, names)
    able = [i for i, reached in enumerate(Work.lines) if not lines or not lines.isdisjoint(reached)]
    return sorted(able, key=lambda i: (Work.told[i].row in SLOW, Work.told[i].position, Work.seconds[i]))


# What judges a changed router.


def renewed(change):
    """The judge of rows over a router with a change: all of its files are loaded anew."""
    for name in (*ROUTER, *JUDGES):
        program = changing.changed(TREES[name], change) if name == change.file else PROGRAMS[name]
        module = sys.modules[name] = types.ModuleType(name)
        exec(program, module.__dict__)
    return sys.modules["rows"]


def is_refused(change, numbers):
    """Whether a run of a changed router ends otherwise or fails; one that takes too long ends the process."""
    resource.setrlimit(resource.RLIMIT_AS, (MOST_MEMORY, MOST_MEMORY))
    signal.setitimer(signal.ITIMER_PROF, MORE_SECONDS)
    try:
        judge = renewed(change)
        for i in numbers:
            signal.setitimer(signal.ITIMER_PROF, Work.seconds[i] + MORE_SECONDS)
            if judge.ended(judge.Plain(), Work.told[i].run) != Work.told[i].run.end():
                return True
        return False
    except BaseException:
        return True


def judged(number):
    """What rows make of a change, which has a process of its own: STANDS, REFUSED, or less where it was stopped."""
    change, numbers = Work.changes[number]
    process = os.fork()
    if process == 0:
        os._exit(REFUSED if is_refused(change, numbers) else STANDS)
    return os.waitstatus_to_exitcode(os.waitpid(process, 0)[1])


def pooled(workers, call, count):
    """What a call answers to each number below a count, by processes that are begun now."""
    with multiprocessing.get_context("fork").Pool(workers) as pool:
        return pool.map(call, range(count), 1)


# What is told.


def listed():
    """The changes that no row can refuse."""
    with open(LISTED, "rb") as file:
        groups = tomllib.load(file)["group"]
    return {tuple(change) for group in groups for change in group["changes"]}


def told_of(change):
    return "[" + ", ".join(json.dumps(part, ensure_ascii=False) for part in change) + "],"


def told_counts(ends, known):
    """How many changes there are, are refused, are listed, and are left."""
    places = len({id(change.place.node) for change in ends})
    among = sum(change.key() in known for change in ends)
    left = sum(end == STANDS and change.key() not in known for change, end in ends.items())
    return f"{len(ends)} changes at {places} places, {len(ends) - among - left} refused, {among} listed, {left} left"


def held(step, workers):
    """Judges the changes of each text of that number, and tells whether all are as they are listed."""
    every = {}
    for name in ROUTER:
        for change in changing.changes_of(name, TREES[name], LEFT.get(name, ())):
            every.setdefault(change.key(), []).append(change)
    some = {key: every[key] for key in list(every)[::step]}
    known, names = listed(), lines_of_names()
    Work.told = all_runs()
    gc.freeze()
    Work.lines, Work.seconds = zip(*pooled(workers, reached, len(Work.told)))
    Work.changes = [(change, runs_for(change, names)) for changes in some.values() for change in changes]
    ends = dict(zip([change for change, _ in Work.changes], pooled(workers, judged, len(Work.changes))))
    wrong = {
        "LEFT   ": [key for key in some if key not in known and any(ends[change] == STANDS for change in some[key])],
        "REFUSED": [key for key in some if key in known and all(ends[change] == REFUSED for change in some[key])],
        "NONE   ": sorted(known - every.keys())}
    for word, keys in wrong.items():
        print(*(f"{word} {told_of(key)}\n" for key in keys), sep="", end="")
    for name in ROUTER:
        print(f"{name}.py: {told_counts({change: end for change, end in ends.items() if change.file == name}, known)}")
    print(told_counts(ends, known))
    return not any(wrong.values())


def main():
    words = sys.argv[1:]
    if len(words) > 2 or not all(re.fullmatch("[1-9][0-9]*", word) for word in words):
        print("usage: mutants.py [STEP [WORKERS]]", file=sys.stderr)
        return 2
    step, workers = *map(int, words), *(1, os.cpu_count())[len(words):]
    with tempfile.TemporaryDirectory(dir=IN_MEMORY if os.path.isdir(IN_MEMORY) else None) as folder:
        tempfile.tempdir = folder
        return int(not held(step, workers))


if __name__ == "__main__":
    try:
        sys.exit(main())
    except BadRow as fault:
        sys.exit(f"{fault}")

#!/usr/bin/env python3
"""Runs the commands of the documents, and holds what they print against what stands below them.

usage: commands.py PROGRAM [PAGE.md ..]
Without pages these are README.md and docs/*.md. A fenced block of a page is told by its mark:

  sh           commands, which are run
  sh TOOL ..   the same, passed over where one of these programs is missing
  text         right behind commands, but for blank lines: all that these print on standard output
  sh-no-run    commands that aren't run here: they take too long, or need a network interface or a terminal

Other blocks, and lines that are indented, are no commands. The blocks of a page run in order in one shell, `bash -eu`,
at the top of a copy of the repository: what one sets holds in those behind it, and a command that fails ends the page.
In the copy `./lispr` runs PROGRAM with the help of tools/help; it builds nothing, and refuses no second name of a file.
Standard error isn't compared. Commands without a text behind them may print anything, and must not fail.

It prints each block that differs, by its page and line, with the first line in which it does, and the counts at the
end. A block that fails, or isn't reached, differs. The status is 1 where one differs, 2 where the words are wrong.
"""
import os
import shlex
import shutil
import signal
import subprocess
import sys
import tempfile
from pathlib import Path
from typing import NamedTuple, Optional

TOP = Path(__file__).resolve().parent.parent
FENCE, COMMANDS, PRINTED = "```", "sh", "text"
SECONDS = 900
SCRIPT = """#!/bin/sh
exec python3 -I -S -B -X utf8 {help} {program} "$@"
"""


class Block(NamedTuple):
    """A fenced block: the words of its mark, its lines, the number of the first, and that of the line behind it all."""
    mark: list
    lines: list
    line: int
    behind: int

    def text(self):
        return "".join(line + "\n" for line in self.lines)


class Step(NamedTuple):
    """Commands: the number of their first line, the programs they need, themselves, and what they must print or None."""
    line: int
    needs: list
    commands: str
    printed: Optional[str]


class End(NamedTuple):
    """What became of a step: what it printed, or None where it wasn't reached; and why it failed, or None."""
    printed: Optional[str]
    fault: Optional[str]


# ### the page

def blocks_of(lines):
    """The fenced blocks of a page, in order. One that isn't closed ends with the page."""
    at = 0
    while at < len(lines):
        start = at + 1
        if lines[at].startswith(FENCE):
            at = next((i for i in range(start, len(lines)) if lines[i].rstrip() == FENCE), len(lines))
            yield Block(lines[start - 1][len(FENCE):].split(), lines[start:at], start + 1, at + 2)
        at += 1


def is_printed_by(lines, block, following):
    """Whether a block is what the commands before it print."""
    return following.mark == [PRINTED] and not any(line.strip() for line in lines[block.behind - 1:following.line - 2])


def steps_of(text):
    """The commands of a page, in order."""
    lines = text.split("\n")
    blocks = list(blocks_of(lines))
    for block, *others in zip(blocks, blocks[1:] + [None]):
        if block.mark[:1] == [COMMANDS]:
            printed = next((other.text() for other in others if other and is_printed_by(lines, block, other)), None)
            yield Step(block.line, block.mark[1:], block.text(), printed)


def is_able(step):
    return all(map(shutil.which, step.needs))


# ### the run

def copy_of(folder, program):
    """A copy of the repository, without what was built, in which `./lispr` runs a program."""
    top = Path(folder) / "lispr"
    shutil.copytree(TOP, top, symlinks=True, ignore=shutil.ignore_patterns(".git", "out", "__pycache__"))
    names = {"help": str(top / "tools" / "help" / "main.py"), "program": os.path.abspath(program)}
    (top / "lispr").write_text(SCRIPT.format(**{key: shlex.quote(name) for key, name in names.items()}))
    return top


def file_of(step, folder, end=""):
    """Where a step prints, or what it says on standard error."""
    return Path(folder) / f"{step.line}{end}"


def script_of(steps, folder):
    """The steps of a page as one script, in which each prints into files of its own."""
    outputs = [(shlex.quote(str(file_of(step, folder))), step) for step in steps]
    return "".join(f"exec >{name} 2>{name}.err\n{step.commands}" for name, step in outputs)


def status_of(script, folder, top):
    """Runs a script at the top of the copy. Its status, or None where it isn't done in time."""
    path = Path(folder) / "script"
    path.write_text(script, encoding="utf-8")
    own = {"LC_ALL": "C.UTF-8", "TZ": "UTC", "TMPDIR": str(folder), "PYTHONDONTWRITEBYTECODE": "1"}
    with subprocess.Popen(["bash", "-eu", path], cwd=top, env={**os.environ, **own}, stdin=subprocess.DEVNULL,
                          start_new_session=True) as shell:
        try:
            return shell.wait(SECONDS)
        except subprocess.TimeoutExpired:
            return None
        finally:
            # With all that it started; also where this program is interrupted.
            if shell.returncode is None:
                os.killpg(shell.pid, signal.SIGKILL)


def text_of(path):
    """The text of a file, or None where there is none."""
    return path.read_text(encoding="utf-8", errors="replace") if path.exists() else None


def fault_of(status, said):
    """Why the step failed at which a page ended."""
    return f"it isn't done after {SECONDS} s" if status is None else f"status {status}\n{said}"


def ends_of(steps, program):
    """What becomes of the steps of a page, in order."""
    with tempfile.TemporaryDirectory() as folder:
        status = status_of(script_of(steps, folder), folder, copy_of(folder, program))
        ends = [End(text_of(file_of(step, folder)), None) for step in steps]
        reached = [i for i, end in enumerate(ends) if end.printed is not None]
        if status != 0 and reached:
            last = reached[-1]
            ends[last] = End(ends[last].printed, fault_of(status, text_of(file_of(steps[last], folder, ".err"))))
        return ends


# ### what is said

def first_difference(wanted, got):
    """The first line in which two texts differ."""
    pairs = zip(wanted.split("\n") + [None] * (1 + got.count("\n")), got.split("\n") + [None] * (1 + wanted.count("\n")))
    line, wanted, got = next((i, *pair) for i, pair in enumerate(pairs, 1) if pair[0] != pair[1])
    return f"line {line}\nwanted {shown(wanted)}\ngot    {shown(got)}"


def shown(line):
    """A line with its blanks, or that there is none."""
    return "no more" if line is None else repr(line)


def difference(step, end):
    """In what a step differs, or nothing."""
    if end.printed is None:
        return "not reached"
    if end.fault is not None:
        return end.fault
    if step.printed is None or step.printed == end.printed:
        return ""
    return first_difference(step.printed, end.printed)


def judged(page, program):
    """How many commands a page has, how many differ, and how many are passed over. Says which differ."""
    steps = list(steps_of(page.read_text(encoding="utf-8")))
    able = list(filter(is_able, steps))
    found = [(step, difference(step, end)) for step, end in zip(able, ends_of(able, program) if able else [])]
    wrong = [(step, text) for step, text in found if text]
    for step, text in wrong:
        print(f"{os.path.relpath(page, TOP)}:{step.line}: " + text.rstrip("\n").replace("\n", "\n    "), flush=True)
    return len(steps), len(wrong), len(steps) - len(able)


def main():
    program, *words = sys.argv[1:] or [""]
    pages = list(map(Path, words)) or [TOP / "README.md", *sorted((TOP / "docs").glob("*.md"))]
    if not os.path.isfile(program) or not os.access(program, os.X_OK) or not all(page.is_file() for page in pages):
        print("usage: commands.py PROGRAM [PAGE.md ..]", file=sys.stderr)
        return 2
    blocks, differ, skipped = map(sum, zip(*(judged(page.resolve(), program) for page in pages)))
    print(f"{blocks} blocks, {differ} differ" + f", {skipped} skipped" * bool(skipped))
    return int(differ > 0)


if __name__ == "__main__":
    sys.exit(main())

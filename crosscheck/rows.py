#!/usr/bin/env python3
"""Judges rows with known answers, octet by octet, by the plain router or by a program.

usage: rows.py [PROGRAM] [ROWS.toml ..] | rows.py --print [ROWS.toml ..]
With no files these are all of crates/conformance/data, and behind them the rows of limits.py and limits_ng.py. The
names of shared.toml there can be used in each file. A program is run with the words of each run in a folder that has
its files. It prints a line a row, and of one that differs what is wanted and what came; and it ends with status 1 where
one does. With --print it prints the rows whole: their words, settings, frames and what they must end with.

Left out are runs of which a call of the desk fails; with a program those on a steady desk too, and with the plain
router a trial of more than 2,000 mappings.
"""
import functools
import os
import subprocess
import sys
import tempfile

import auditing
import limits
import limits_ng
import plain
import rounds
import trial
from captures_ng import reader_of
from commands import Audit, Replay, Show, Trial, command_of
from differing import difference, output_lines
from rounds import Unforced, forced
from row_runs import BadRow, files_of_rows, rows_of
from wire import existing

MOST_TRIED = 2000


class Program:
    """A program that is run."""

    def __init__(self, path):
        self.path = os.path.abspath(path)

    def can(self, run):
        return not run.fails and not run.is_steady

    def end(self, run, folder):
        done = subprocess.run([self.path, *run.words], cwd=folder, capture_output=True)
        return done.returncode, done.stdout.decode(errors="replace")


class Plain:
    """The plain router. Of a desk it knows which files are there: on a steady one all are."""

    def can(self, run):
        command = command_of(run.words)
        return not run.fails and not (type(command) is Trial and command.count > MOST_TRIED)

    def end(self, run, folder):
        command = command_of(run.words)
        if command is None:
            return 1, "usage\n"
        if type(command) is Trial:
            return 0, tried(command.count, folder)
        call, read, made = files_of(command)
        paths = [os.path.join(folder, name) for name in (*read, *made)]
        for path in paths[:len(read)] if run.is_steady else []:
            open(path, "ab").close()
        try:
            return plain.ended(call, *paths)
        except FileNotFoundError:
            return 4, ""
        except Unforced as choice:
            return None, f"{choice}\n"


def files_of(command):
    """The call that answers a command, the names of the files that it reads, and of those that it makes."""
    match command:
        case Replay(settings, source, output):
            return replay_of(command), (settings, source), (output,)
        case Audit(settings, source, sent, lifts):
            return functools.partial(auditing.audit, lifts=lifts), (settings, source, sent), ()
        case Show(source):
            return plain.show, (source,), ()


def replay_of(command):
    """The call that replays: with workers each data packet must have one number that it may have."""
    how = {"read": reader_of(command.format), "split": command.split}
    if command.workers == 0:
        return lambda *paths: plain.replay(*paths, **how)
    return lambda *paths: rounds.replay(*paths, command.round, forced, **how)


def tried(count, folder):
    """The line of a trial, by a replay of its input; the files of that go."""
    source, captured = trial.write(count, folder)
    output = os.path.join(folder, "trial.pcap")
    line = trial.replayed(count, plain.said(plain.replay, source, captured, output), output)
    for path in source, captured, output:
        os.remove(path)
    return line


def ended(judge, run):
    """What the judge's run ends with: a status, a report, and the file `out` or None."""
    with tempfile.TemporaryDirectory() as folder:
        for name, octets in run.files.items():
            with open(os.path.join(folder, name), "wb") as file:
                file.write(octets)
        output = os.path.join(folder, "out")
        return *judge.end(run, folder), existing(output)


# What is said.


def differences(run, end):
    """In what a run's end differs from what is wanted."""
    wanted, got = run.end(), end
    if wanted == got:
        return ""
    text = f"  in {' '.join(run.words)!r}\n"
    text += difference("report", wanted[1].split("\n"), got[1].split("\n"))
    text += difference("out", output_lines(wanted[2]), output_lines(got[2]))
    return text + difference("status", [str(wanted[0])], [str(got[0])])


def judged(judge, row):
    """How many runs of a row are left out, and in what the others differ."""
    able = [run for run in row.runs if judge.can(run)]
    return len(row.runs) - len(able), "".join(differences(run, ended(judge, run)) for run in able)


def file_text(name, octets):
    return octets.decode(errors="backslashreplace") if name == "settings" else octets.hex()


def run_text(run):
    """A run to be read: its words, its files and its end, octets in hexadecimal."""
    parts = [f"words {' '.join(run.words)}\n"]
    parts += [f"-- {name}\n{file_text(name, octets)}\n" for name, octets in run.files.items()]
    lines = "\n".join(output_lines(run.output))
    return "".join(parts) + f"-- report, status {run.status}\n{run.report}-- out\n{lines}\n"


def main():
    words = sys.argv[1:]
    is_print = words[:1] == ["--print"]
    paths = [word for word in words[is_print:] if word.endswith(".toml")]
    programs = [word for word in words[is_print:] if not word.endswith(".toml")]
    rows = [*rows_of(paths)] if paths else [*rows_of(files_of_rows()), *limits.rows(), *limits_ng.rows()]
    if is_print:
        print("\n".join(f"== {row.file}: {row.name} ==\n" + "".join(map(run_text, row.runs)) for row in rows), end="")
        return
    judge = Program(programs[0]) if programs else Plain()
    failed = runs = unjudged = 0
    for row in rows:
        left, found = judged(judge, row)
        word = "DIFFERS" if found else "ok     " if left < len(row.runs) else "left   "
        print(f"{word} {row.file}: {row.name}" + f"\n  {row.shows}\n{found}".rstrip("\n") * bool(found), flush=True)
        failed, runs, unjudged = failed + bool(found), runs + len(row.runs), unjudged + left
    print(f"{len(rows)} rows, {failed} differ; {runs} runs, {unjudged} left out")
    sys.exit(failed > 0)


if __name__ == "__main__":
    try:
        main()
    except BadRow as fault:
        sys.exit(f"{fault}")

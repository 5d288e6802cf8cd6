#!/usr/bin/env python3
"""Spoils what rows want, one thing at a time, and has each spoiled row judged: all of them must differ.

usage: spoiled.py [CONFORMANCE] [ROWS.toml ..]
Spoiled are the status, each digit of the report and of the texts of `each`, the report's end, each octet of each packet
and its moment, each packet (it is left out), and whether there is an output. CONFORMANCE is the built program of that
crate, which reads the spoiled rows of a file; without it they are judged by the plain router, as rows.py does. It
prints a line a file, behind the spoiled rows that don't differ, and ends with status 1 where there is one.
"""
import json
import os
import re
import subprocess
import sys
import tempfile

from row_runs import SHARED, files_of_rows, octets_of, runs_of, tables_of
from rows import Plain, differences, ended


def spoiled_digits(text):
    for found in re.finditer(r"\d", text):
        place = found.start()
        yield text[:place] + str((int(text[place]) + 1) % 10) + text[place + 1:]


def spoiled_octets(value, packets):
    """The octets with each of them turned over."""
    parts = {"like": value} if isinstance(value, str) else value
    for place, octet in enumerate(octets_of(value, packets)):
        yield {**parts, "change": [*parts.get("change", []), [place, f"{octet ^ 0xFF:02x}"]]}


def spoiled_pairs(pairs, texts, octets=lambda value: ()):
    """The list of pairs with one of them spoiled: its text, or its octets."""
    for i, (text, value) in enumerate(pairs):
        for other in texts(text):
            yield [*pairs[:i], [other, value], *pairs[i + 1:]]
        for other in octets(value):
            yield [*pairs[:i], [text, other], *pairs[i + 1:]]


def spoiled_outputs(row, packets):
    octets = lambda value: spoiled_octets(value, packets)
    if "packets" in row:
        pairs = row["packets"]
        yield {key: value for key, value in row.items() if key != "packets"}
        for i in range(len(pairs)):
            yield {**row, "packets": pairs[:i] + pairs[i + 1:]}
        for other in spoiled_pairs(pairs, lambda moment: [f"{int(moment.partition('.')[0]) + 1}"], octets):
            yield {**row, "packets": other}
    elif "output" in row:
        yield {key: value for key, value in row.items() if key != "output"}
        for other in octets(row["output"]):
            yield {**row, "output": other}
    else:
        yield {**row, "packets": []}


def spoiled(row, packets):
    yield {**row, "status": row.get("status", 0) + 1}
    report = row["report"]
    for other in [report + "x", *([report[:-1]] if report else []), *spoiled_digits(report)]:
        yield {**row, "report": other}
    if "{}" in report:
        for other in spoiled_pairs(row.get("each", []), spoiled_digits):
            yield {**row, "each": other}
    yield from spoiled_outputs(row, packets)


# What judges them: each answers which of the spoiled rows, by their numbers, don't differ, or None for a row left out.


class ByPlain:
    """The plain router, which runs a row once: its wants are spoiled, and not what it begins with."""

    def __init__(self, texts, packets):
        self.texts, self.packets, self.judge = texts, packets, Plain()

    def unseen(self, row, others):
        runs = list(runs_of(row, self.texts, self.packets))
        if not all(map(self.judge.can, runs)):
            return None
        ends = [ended(self.judge, run) for run in runs]
        return [i for i, other in enumerate(others) if not any(
            differences(run, end) for run, end in zip(runs_of(other, self.texts, self.packets), ends, strict=True))]


def toml(value):
    if isinstance(value, dict):
        return "{ " + ", ".join(f"{key} = {toml(part)}" for key, part in value.items()) + " }"
    if isinstance(value, list):
        return "[" + ", ".join(map(toml, value)) + "]"
    return json.dumps(value, ensure_ascii=False)


class ByProgram:
    """The program `conformance`, over a file of all the spoiled rows, each with its number as its name."""

    def __init__(self, program, texts, packets):
        self.program = os.path.abspath(program)
        self.front = "".join(
            f"[{kind}]\n" + "".join(f"{json.dumps(name)} = {toml(text)}\n" for name, text in table.items())
            for kind, table in (("settings", texts), ("packet", packets)))

    def unseen(self, _, others):
        tables = [{**other, "name": str(i)} for i, other in enumerate(others)]
        rows = ("[[row]]\n" + "".join(f"{key} = {toml(value)}\n" for key, value in table.items()) for table in tables)
        with tempfile.TemporaryDirectory() as folder:
            path = os.path.join(folder, "spoiled.toml")
            with open(path, "w") as file:
                file.write(self.front + "".join(rows))
            said = subprocess.run([self.program, SHARED, path], capture_output=True, text=True).stdout
        seen = set(re.findall(r"^.*spoiled\.toml: FAILED: (\d+)$", said, re.M))
        return [i for i in range(len(others)) if str(i) not in seen]


def counts(path, make):
    """How many spoiled rows of a file there are, how many don't differ, and how many rows are left out."""
    texts, packets, rows = tables_of(path)
    shared_texts, shared_packets, _ = tables_of(SHARED)
    packets = {**shared_packets, **packets}
    judge, tried, same, left = make({**shared_texts, **texts}, packets), 0, 0, 0
    for row in rows:
        others = list(spoiled(row, packets))
        unseen = judge.unseen(row, others)
        if unseen is None:
            left += 1
            continue
        for i in unseen:
            print(f"SAME    {row['name']}: {others[i]}")
        tried, same = tried + len(others), same + len(unseen)
    return tried, same, left


def main():
    paths = [word for word in sys.argv[1:] if word.endswith(".toml")] or files_of_rows()
    programs = [word for word in sys.argv[1:] if not word.endswith(".toml")]
    make = (lambda *names: ByProgram(programs[0], *names)) if programs else ByPlain
    unseen = 0
    for path in paths:
        tried, same, left = counts(path, make)
        left_out = f", {left} rows left out" if left else ""
        print(f"{'SAME   ' if same else 'ok     '} {os.path.basename(path)}: {tried} spoiled, {same} the same{left_out}",
              flush=True)
        unseen += same
    sys.exit(unseen > 0)


if __name__ == "__main__":
    main()

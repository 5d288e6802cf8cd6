#!/usr/bin/env python3
"""Writes what the crate `conformance` is run with: its words, and what it must print where no row differs.

usage: row_files.py [--check]
`args` and `stdout` of the crate are made of the files in its `data`, and no program is run. With --check nothing is
written, and the status is 1 where one of them is another text.
"""
import os
import sys

from row_runs import DATA, SHARED, BadRow, files_of_rows, rows_of

CRATE = os.path.dirname(DATA)


def texts():
    """The two files by their names."""
    paths = files_of_rows()
    lines = [f"{row.file}: ok: {row.name}\n" for row in rows_of(paths)]
    return {"args": "".join(f"{os.path.basename(path)}\n" for path in [SHARED, *paths]),
            "stdout": "".join(lines) + f"{len(lines)} rows, 0 failed\n"}


def is_there(path, text):
    if not os.path.exists(path):
        return False
    with open(path) as file:
        return file.read() == text


def main():
    try:
        wanted = texts()
    except BadRow as fault:
        sys.exit(f"{fault}")
    others = [name for name, text in wanted.items() if not is_there(os.path.join(CRATE, name), text)]
    if sys.argv[1:] == ["--check"]:
        sys.exit(f"not as the rows are: {', '.join(others)}" if others else 0)
    for name in others:
        with open(os.path.join(CRATE, name), "w") as file:
            file.write(wanted[name])
    print(f"{wanted['stdout'].count(chr(10)) - 1} rows")


if __name__ == "__main__":
    main()

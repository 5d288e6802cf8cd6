"""The line at which a text is no TOML any more, by Python's own reader where it has one.

That reader takes a second for each MiB. So of a long text only pieces are given to it: a piece is a table of the top
with all below it, and one whose lines are all plain, with no key twice in a table, is TOML.
"""
import re

MOST_READ = 1 << 18
END = r"[ \t]*(?:#[^\x00-\x08\x0a-\x1f\x7f]*)?\r?"
NAME = r"[A-Za-z0-9_-]+"
TOP = re.compile(rf"\[\[({NAME})\]\]{END}")
BELOW = re.compile(rf"\[\[{NAME}\.{NAME}\]\]{END}")
TEXT = r'"[^"\\\x00-\x1f\x7f]*"|' + r"'[^'\x00-\x1f\x7f]*'"
PAIR = re.compile(rf"[ \t]*({NAME})[ \t]*=[ \t]*(?:{TEXT}|0|[1-9][0-9]*|true|false){END}")
BLANK = re.compile(END)
MANY_LINES = '"""', "'''"


def read_fault(text):
    """The line at which Python's own reader stops, from 1, or None."""
    import tomllib
    try:
        tomllib.loads(text)
    except ValueError as error:
        found = re.search(r"line (\d+)", str(error))
        return int(found.group(1)) if found else text.rstrip().count("\n") + 1
    except RecursionError:
        pass
    return None


def is_plain(line, keys):
    """Whether a line is plain; the keys of its table are noted, which begin anew with a table."""
    if BLANK.fullmatch(line):
        return True
    if TOP.fullmatch(line) or BELOW.fullmatch(line):
        keys.clear()
        return True
    pair = PAIR.fullmatch(line)
    if not pair or pair.group(1) in keys:
        return False
    keys.add(pair.group(1))
    return True


def is_begin(line):
    """Whether a piece begins with this line."""
    return line.startswith("[[") and TOP.fullmatch(line) is not None


def piece_fault(lines):
    """The line of the first piece that isn't TOML, from 1, or None."""
    begin, keys, at = 0, set(), 0
    while at < len(lines):
        if is_begin(lines[at]):
            begin = at
        if is_plain(lines[at], keys):
            at += 1
            continue
        end = next((i for i in range(at + 1, len(lines)) if is_begin(lines[i])), len(lines))
        fault = read_fault("\n".join(lines[begin:end]))
        if fault is not None:
            return begin + fault
        at = end
    return None


def fault_line(text):
    """The line at which a text is no TOML any more, or None where that can't be known."""
    try:
        found = None
        if len(text) > MOST_READ and not any(mark in text for mark in MANY_LINES):
            found = piece_fault(text.split("\n"))
        return found if found is not None else read_fault(text)
    except ImportError:
        return None

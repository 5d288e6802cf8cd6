"""The line of a settings file where a key is, or should be."""
import json
import re

from keys import is_for_top
from text import shown
from toml_lines import fault_line

MOST_SHOWN = 100
BLANK = re.compile(r"(?:[ \t\r\n]|#[^\n]*)*")
SPACES = re.compile(r"[ \t]*")
KEY = re.compile(r'[A-Za-z0-9_-]+|"(?:[^"\\\n]|\\.)*"|\'[^\'\n]*\'')
SCALAR = re.compile(r'"""(?:[^\\]|\\.)*?"""+|\'\'\'.*?\'\'\'+|"(?:[^"\\\n]|\\.)*"|\'[^\'\n]*\'|[^,\]}#\n]+', re.DOTALL)


class Lost(Exception):
    """The text goes on in no way that is known here."""


def joined(path, part):
    return f"{path}.{part}" if path else str(part)


def bare(part):
    """A part of a key without its quotes."""
    if part[0] == '"':
        try:
            return json.loads(part, strict=False)
        except ValueError:
            return part[1:-1]
    return part[1:-1] if part[0] == "'" else part


class Reader:
    """Reads TOML that is right as far as it goes, and notes the lines of one key and of the tables that it is in."""

    def __init__(self, text, wanted):
        self.text, self.wanted, self.at = text, wanted, 0
        self.line, self.counted = 1, 0
        self.lines, self.last = {}, {}
        self.first = None

    def count_lines(self):
        self.line += self.text.count("\n", self.counted, self.at)
        self.counted = self.at

    def note(self, path):
        self.count_lines()
        if path == self.wanted or self.wanted.startswith(path + "."):
            self.lines.setdefault(path, self.line)

    def skip(self, pattern):
        self.at = pattern.match(self.text, self.at).end()

    def has(self, mark):
        """Goes past the mark, where it stands here."""
        found = self.text.startswith(mark, self.at)
        self.at += len(mark) if found else 0
        return found

    def take(self, mark):
        if not self.has(mark):
            raise Lost

    def key(self):
        """The parts of a key, which dots join."""
        parts = []
        while not parts or self.has("."):
            self.skip(SPACES)
            found = KEY.match(self.text, self.at)
            if not found:
                raise Lost
            parts.append(bare(found.group()))
            self.at = found.end()
            self.skip(SPACES)
        return parts

    def table(self):
        """The path of the table whose header comes."""
        self.count_lines()
        self.first = self.first or self.line
        self.take("[")
        is_item = self.has("[")
        *front, name = self.key()
        path = ""
        for part in front:
            path = joined(path, part)
            path = joined(path, self.last[path]) if path in self.last else path
        path = joined(path, name)
        self.note(path)
        if is_item:
            self.last[path] = self.last.get(path, -1) + 1
            path = joined(path, self.last[path])
            self.note(path)
        self.take("]]" if is_item else "]")
        return path

    def pair(self, table):
        path, start = table, self.at
        for part in self.key():
            path = joined(path, part)
            self.at, end = start, self.at
            self.note(path)
            self.at = end
        self.take("=")
        self.skip(SPACES)
        self.value(path)

    def value(self, path):
        if self.has("["):
            self.items(path)
        elif self.has("{"):
            self.members(path)
        else:
            found = SCALAR.match(self.text, self.at)
            if not found:
                raise Lost
            self.at = found.end()

    def items(self, path):
        count = 0
        self.skip(BLANK)
        while not self.has("]"):
            self.note(joined(path, count))
            self.value(joined(path, count))
            count += 1
            self.skip(BLANK)
            self.has(",")
            self.skip(BLANK)

    def members(self, path):
        self.skip(BLANK)
        while not self.has("}"):
            self.pair(path)
            self.skip(BLANK)
            self.has(",")
            self.skip(BLANK)

    def read(self):
        table = ""
        self.skip(BLANK)
        while self.at < len(self.text) and self.wanted not in self.lines:
            if self.text[self.at] == "[":
                table = self.table()
            else:
                self.pair(table)
            self.skip(BLANK)


def place_of(key, text):
    """The line where a key is, and True; or where the nearest table begins that it is in, and False; or None. Behind
    these the line of the first table so far, or None."""
    reader = Reader(text, key)
    try:
        reader.read()
    except (Lost, RecursionError):
        pass
    if not reader.lines:
        return None
    nearest = max(reader.lines, key=len)
    return reader.lines[nearest], nearest == key, reader.first


def line_text(name, text, number):
    """A line of a file, as compilers name it."""
    line = text.split("\n")[number - 1].strip()[:MOST_SHOWN]
    return f"{shown(name)}:{number}: {shown(line) if line else ''}".rstrip()


def key_texts(name, text, word, key):
    """Where a key is, or where it should be, in a list."""
    is_missing = word == "missing"
    place = place_of(key, text)
    if place is None:
        count = text.rstrip().count("\n") + 1
        return [f"{shown(name)}:{count}: it should be behind this line"] if is_missing else []
    number, is_there, first = place
    more = "" if is_there or not is_missing else "  (it should be in the table that begins here)"
    texts = [line_text(name, text, number) + more]
    if word == "unknown-key" and is_there and first and is_for_top(key):
        texts.append(f"move it up, before the first table: {line_text(name, text, first)}")
    return texts


def fault_texts(name, text):
    """Where a text is no TOML, in a list."""
    number = fault_line(text)
    return [line_text(name, text, number)] if number else []


def place_texts(line, name):
    """Where in a settings file the fault of a last line is, in a list."""
    _, word, *key = line.split(" ", 2)
    if word == "too-long":
        return []
    try:
        with open(name, "rb") as file:
            octets = file.read()
    except OSError:
        return []
    try:
        text = octets.decode()
    except UnicodeDecodeError as error:
        return [f"{shown(name)}:{octets.count(10, 0, error.start) + 1}: this line is no UTF-8"]
    return key_texts(name, text, word, key[0]) if key else fault_texts(name, text)

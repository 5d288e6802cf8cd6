"""Rows of whole runs, read of their files: crates/conformance/data/README.md says the form."""
import glob
import os
import struct
import tomllib
from typing import NamedTuple

DATA = os.path.join(os.path.dirname(os.path.dirname(os.path.abspath(__file__))), "crates", "conformance", "data")
SHARED = os.path.join(DATA, "shared.toml")
KEYS = {"name": str, "shows": str, "words": (str, list), "settings": (str, list), "link": str, "unit": str,
        "frames": list, "each": list, "tail": (str, dict), "capture": (str, dict), "sent": (list, str, dict), "desk": str,
        "fails": list, "status": int, "report": str, "packets": list, "output": (str, dict)}
REPLAY = "replay --settings settings --in in --out out"
LINKS, UNITS, DESKS = {"raw": 101, "ethernet": 1}, {"us": 1000, "ns": 1}, ("memory", "steady")
SECOND, START = 10**9, 1_700_000_000 * 10**9


class BadRow(Exception):
    """A row that says no run."""


class Run(NamedTuple):
    """The words and files that a run begins with, on a desk; and the status, report and file that it must end with."""
    words: list
    files: dict
    status: int
    report: str
    output: bytes | None
    is_steady: bool = False
    fails: tuple = ()

    def end(self):
        return self.status, self.report, self.output


class Row(NamedTuple):
    file: str
    name: str
    shows: str
    runs: list


def files_of_rows():
    """All files of rows in order of their names, but for the one whose names they share."""
    return sorted(set(glob.glob(os.path.join(DATA, "*.toml"))) - {SHARED})


def need(test, fault):
    if not test:
        raise BadRow(fault)


# Octets, moments and captures.


def words_octets(text, packets):
    try:
        return b"".join(bytes.fromhex(packets.get(word, word)) for word in text.split())
    except ValueError:
        raise BadRow(f"{text!r} has a word that is no packet and no hexadecimal") from None


def octets_of(value, packets):
    """The octets that a text or a table of `like`, `size` and `change` means."""
    if isinstance(value, str):
        return words_octets(value, packets)
    need(isinstance(value, dict) and "like" in value and value.keys() <= {"like", "size", "change"},
         f"octets are {value}")
    octets = words_octets(value["like"], packets)
    size = value.get("size", len(octets))
    octets = bytearray(octets[:size].ljust(size, b"\0"))
    for place, text in value.get("change", []):
        new = words_octets(text, packets)
        need(place + len(new) <= len(octets), f"no octet {place} to change")
        octets[place:place + len(new)] = new
    return bytes(octets)


def moment_of(text):
    """The nanoseconds of a moment, from the start of all rows on."""
    need(isinstance(text, str), f"moment {text} is no text")
    whole, _, fraction = text.partition(".")
    need(whole.isdecimal() and (fraction + "0").isdecimal() and len(fraction) <= 9, f"{text!r} is no moment")
    return int(whole) * SECOND + int(fraction.ljust(9, "0"))


def capture_of(frames, link="raw", unit="ns"):
    """A capture of pairs of a moment in nanoseconds and octets; so is an output, of raw packets in nanoseconds."""
    parts = [struct.pack("<IHHIIII", 0xA1B23C4D if unit == "ns" else 0xA1B2C3D4, 2, 4, 0, 0, 262144, LINKS[link])]
    for moment, octets in frames:
        second, rest = divmod(START + moment, SECOND)
        need(rest % UNITS[unit] == 0, f"{moment} ns is finer than the unit")
        parts.append(struct.pack("<IIII", second, rest // UNITS[unit], len(octets), len(octets)) + octets)
    return b"".join(parts)


def timed(pairs, packets):
    return [(moment_of(moment), octets_of(value, packets)) for moment, value in pairs]


# Rows.


def listed(value):
    return [value] if isinstance(value, str) else value


def check(row):
    """Refuses a row with a key that none has, without one that each has, or with keys that don't go together."""
    need(row.keys() <= KEYS.keys(), f"no row has {', '.join(sorted(row.keys() - KEYS.keys()))}")
    need({"name", "shows", "report"} <= row.keys(), "name, shows or report is missing")
    for key, value in row.items():
        need(isinstance(value, KEYS[key]), f"{key} is of another type")
    need(row.get("words") != [] and row.get("each") != [], "an empty list would run nothing")
    need(sum(key in row for key in ("frames", "each", "capture")) <= 1, "more than one of frames, each and capture")
    need("tail" not in row or row.keys() & {"frames", "each", "capture"}, "a tail of no capture")
    need(not {"packets", "output"} <= row.keys(), "both packets and output")
    need(row.get("link", "raw") in LINKS and row.get("unit", "us") in UNITS, "link or unit is none")
    need(row.get("desk", "memory") in DESKS, "desk is none")
    need("fails" not in row or row.get("desk") != "steady", "no call of a steady desk fails")


def input_of(row, frame, packets):
    """The file `in`, or None where there is none."""
    link, unit = row.get("link", "raw"), row.get("unit", "us")
    if frame is not None:
        octets = capture_of([(0, octets_of(frame, packets))], link, unit)
    elif "frames" in row:
        octets = capture_of(timed(row["frames"], packets), link, unit)
    elif "capture" in row:
        octets = octets_of(row["capture"], packets)
    else:
        return None
    return octets + octets_of(row.get("tail", ""), packets)


def sent_of(row, packets):
    """The file `sent`, or None where there is none."""
    sent = row.get("sent")
    if isinstance(sent, list):
        return capture_of(timed(sent, packets))
    return None if sent is None else octets_of(sent, packets)


def output_of(row, packets):
    """The file `out`, or None where there must be none."""
    if "packets" in row:
        return capture_of(timed(row["packets"], packets))
    return octets_of(row["output"], packets) if "output" in row else None


def runs_of(row, texts, packets):
    """The runs of a row: one for each list of words and each frame of `each`."""
    check(row)
    output = output_of(row, packets)
    for words in listed(row.get("words", REPLAY)):
        for said, frame in row.get("each", [("", None)]):
            files = {"in": input_of(row, frame, packets), "sent": sent_of(row, packets)}
            if "settings" in row:
                files["settings"] = "".join(texts.get(text, text) for text in listed(row["settings"])).encode()
            report = row["report"] if frame is None else row["report"].replace("{}", said, 1)
            yield Run(words.split(), {name: octets for name, octets in files.items() if octets is not None},
                      row.get("status", 0), report, output, row.get("desk") == "steady", tuple(row.get("fails", ())))


def tables_of(path):
    """A file's texts of settings, its packets, and its rows as tables."""
    with open(path, "rb") as file:
        top = tomllib.load(file)
    need(top.keys() <= {"settings", "packet", "row"}, f"{path}: no file has such a key")
    return top.get("settings", {}), top.get("packet", {}), top.get("row", [])


def rows_of(paths, shared=SHARED):
    """The rows of files, which may use the names of the shared file beside their own. No name is there twice."""
    shared_texts, shared_packets, _ = tables_of(shared)
    seen = set()
    for path in paths:
        own_texts, own_packets, rows = tables_of(path)
        texts, packets = {**shared_texts, **own_texts}, {**shared_packets, **own_packets}
        for number, row in enumerate(rows, 1):
            name = row.get("name", f"row {number}")
            try:
                need(name not in seen, "another row has this name")
                runs = list(runs_of(row, texts, packets))
            except BadRow as fault:
                raise BadRow(f"{os.path.basename(path)}: {name}: {fault}") from None
            seen.add(name)
            yield Row(os.path.basename(path), name, row["shows"], runs)

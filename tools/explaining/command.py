"""The words of `explain`, and the run of each sub-command."""
import argparse
import os
import sys
import tempfile

import settings as rules
from sites import Site

from explaining import cache, frame, listing
from explaining.capture import cut, frames_of, octets_of, settled, way_of
from explaining.moments import Asking, place_of
from explaining.play import Play
from explaining.report import Report
from explaining.texts import Differs, Fault, Refused

DIFFERS, WRONG = 1, 2


class Words(argparse.ArgumentParser):
    """A parser that takes whole words, and tells a fault of them in one sentence."""

    def __init__(self, **given):
        super().__init__(allow_abbrev=False, **given)

    def error(self, message):
        self.exit(WRONG, f"explain: {message}\n{self.format_usage()}")


def add_files(parser):
    parser.add_argument("--settings", required=True, metavar="F", help="the settings file")
    parser.add_argument("--in", dest="capture", required=True, metavar="F", help="the capture")
    parser.add_argument("--format", choices=("classic", "ng"),
                        help="pcap or pcapng; without it the first four octets of the capture tell")
    parser.add_argument("--interfaces", choices=("none", "vlan"), default="none",
                        help="vlan: untagged frames of interface N of a pcapng file are of VLAN N")
    parser.add_argument("--split", choices=("on", "off"), default="off", help="on: large IPv4 packets are split in two")
    parser.add_argument("--program", metavar="F", help="the proved program; without it the script lispr at the top")


def add_place(parser):
    parser.add_argument("--at", metavar="PLACE",
                        help="behind a frame by its number, or at a moment: seconds with a point (1700000000.5), "
                             "2023-11-14T22:13:20 in UTC, or 22:13:20 on the day of the first frame; without it the end")


def parser():
    top = Words(prog="explain", description="Explains a replay: a frame, the map-cache at a moment, or the journal. What it "
                "says is held against the lines of the proved program; where one differs, both are printed, with status 1.")
    kinds = top.add_subparsers(dest="command", required=True, parser_class=Words)
    one = kinds.add_parser("frame", help="why a frame met its verdict",
                           description="What a frame is, which rule settled it, and all that the rule rests on.")
    one.add_argument("number", type=positive, metavar="N", help="the number of the frame, as the report counts")
    table = kinds.add_parser("cache", help="the map-cache at a moment",
                             description="The map-cache as one reads it on a router, and the requests that are open.")
    add_place(table)
    table.add_argument("--iid", type=int, metavar="IID", help="of this instance alone")
    table.add_argument("prefix", nargs="?", metavar="PREFIX", help="an address: mappings that cover it; a prefix: those "
                       "that cover it or lie within it")
    table.add_argument("--json", action="store_true", help="as JSON")
    entries = kinds.add_parser("journal", help="the entries of the journal, by number",
                               description="The entries by number, and the frame or second that made each; n= of a line "
                               "counts those that were there before its frame.")
    add_place(entries)
    entries.add_argument("--iid", type=int, metavar="IID", help="of this instance alone")
    entries.add_argument("prefix", nargs="?", metavar="PREFIX", help="of EIDs that an address or a prefix picks, as for cache")
    entries.add_argument("--first", type=positive, metavar="N", default=1, help="from this entry on")
    entries.add_argument("--last", type=positive, metavar="N", help="up to this entry")
    for kind in (one, table, entries):
        add_files(kind)
    return top


def positive(word):
    if not word.isdecimal() or int(word) < 1:
        raise argparse.ArgumentTypeError(f"a number from 1 on is needed, and not {word!r}")
    return int(word)


# The run.


class Run:
    """The files of a question, and the router that answers it."""

    def __init__(self, words, folder):
        self.words, self.folder = words, folder
        self.path = settled(words.capture, folder)
        self.octets = octets_of(self.path)
        self.way = way_of(self.octets, words.capture, words.format, words.interfaces, words.split == "on")
        self.site = self.site_of(words.settings)

    def site_of(self, path):
        """The site of the settings; where these are at fault the program tells it."""
        try:
            with open(path, "rb") as file:
                return Site(file.read())
        except OSError as error:
            raise Fault(f"{path} can't be read: {error.strerror}") from None
        except rules.Fault as fault:
            with self.report(self.path) as report:
                text = next(report.lines()).text
            if text != f"settings {fault}":
                raise Differs(f"proved {text}\nplain  settings {fault}") from None
            raise Refused(f"the settings are refused: {text}") from None

    def report(self, path):
        return Report(self.words.program, self.words.settings, path, self.way)

    def played(self, count, see, wanted=None):
        """The router behind so many of the capture's frames (None for all), and what is seen of each step; with a wanted
        frame of that one, and of those that changed the journal."""
        path = self.path if count is None else cut(self.path, self.octets, self.way, count, self.folder)
        play = Play(self.site)
        with self.report(path) as report:
            for step in play.steps(frames_of(octets_of(path), self.way, self.site), report.lines(), wanted):
                see(play, step)
        return play


def frame_lines(run):
    """The explanation of a frame."""
    number, lines = run.words.number, []

    def see(play, step):
        if step.frame.number == number:
            lines.extend(frame.explained(play, step))
    play = run.played(number, see, number)
    if not lines:
        raise Fault(f"there is no frame {number}: the capture has {play.frames:,}{play.fault_text()}")
    return lines


def cache_lines(run):
    counts = cache.Counts()
    return Asking(place_of(run), lambda *parts: cache.lines(run.words, counts, *parts), counts.see).answered(run)


def journal_lines(run):
    return Asking(place_of(run), lambda *parts: listing.lines(run.words, *parts)).answered(run)


LINES = {"frame": frame_lines, "cache": cache_lines, "journal": journal_lines}


def main():
    words = parser().parse_args()
    try:
        with tempfile.TemporaryDirectory(prefix="explain-") as folder:
            lines = LINES[words.command](Run(words, folder))
        print(*lines, sep="\n", flush=True)
    except Differs as differs:
        print(differs)
        print("explain: the plain router says otherwise than the proved program, so nothing is explained", file=sys.stderr)
        return DIFFERS
    except Fault as fault:
        print(f"explain: {fault}", file=sys.stderr)
        return WRONG
    except BrokenPipeError:
        os.dup2(os.open(os.devnull, os.O_WRONLY), sys.stdout.fileno())
    except KeyboardInterrupt:
        return 130
    return 0

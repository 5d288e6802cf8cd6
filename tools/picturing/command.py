"""The words of `picture`, and its run."""
import argparse
import os
import shutil
import sys
import tempfile

from picturing.page import page_of, settled
from picturing.report import Malformed, taken

WRONG, INPUT = 1, "-"


class Words(argparse.ArgumentParser):
    """A parser that takes whole words, and tells a fault of them in one sentence."""

    def error(self, message):
        self.exit(WRONG, f"picture: {message}\n{self.format_usage()}")


def parser():
    words = Words(prog="picture", allow_abbrev=False, description="Draws the report of a replay as one page, which needs "
                  "neither a server nor a network, on the standard output. With settings and capture it also shows which "
                  "prefixes were met by drops, and the map-cache over time.")
    words.add_argument("report", metavar="REPORT", help="the report, or - for the standard input")
    words.add_argument("--settings", metavar="F", help="the settings of the replay")
    words.add_argument("--in", dest="capture", metavar="F", help="the capture of the replay")
    words.add_argument("--format", choices=("classic", "ng"),
                       help="pcap or pcapng; without it the first four octets of the capture tell")
    words.add_argument("--interfaces", choices=("none", "vlan"), default="none", help="as for the replay")
    words.add_argument("--split", choices=("on", "off"), default="off", help="as for the replay")
    return words


def report_of(file):
    """The report of a file, whose parts of the time are those that are drawn."""
    report = taken(file)
    settled(report)
    return report


def drawn(words):
    """The page that is asked for."""
    name = "the standard input" if words.report == INPUT else os.path.basename(words.report)
    if words.settings is None:
        with (os.fdopen(0, "rb") if words.report == INPUT else open(words.report, "rb")) as file:
            return page_of(name, report_of(file), None)
    # What is imported there isn't needed without settings, and takes time.
    from picturing.played import facts
    with tempfile.TemporaryDirectory(prefix="picture-") as folder:
        path = kept(words.report, folder)
        with open(path, "rb") as file:
            report = report_of(file)
        return page_of(name, report, facts(words, path, report, folder))


def kept(path, folder):
    """A file with the report, which is read twice."""
    if path != INPUT:
        return path
    copy = os.path.join(folder, "report")
    with os.fdopen(0, "rb") as file, open(copy, "wb") as whole:
        shutil.copyfileobj(file, whole)
    return copy


def write(page):
    try:
        with os.fdopen(1, "wb") as file:
            file.write(page.encode(errors="backslashreplace"))
    except OSError as why:
        raise Malformed(f"the page can't be written: {why.strerror}") from None


def main():
    words = parser().parse_args()
    if (words.settings is None) != (words.capture is None):
        parser().error("--settings and --in go together")
    try:
        write(drawn(words))
    except OSError as why:
        return told(f"{why.filename or words.report}: {why.strerror}")
    except Malformed as why:
        return told(f"{words.report}: {why}")
    return 0


def told(why):
    print(f"picture: {why}", file=sys.stderr)
    return WRONG

"""The page of a report: what it shows, as JSON, and the files that draw it."""
import html
import json
import os
from string import Template

from picturing.colours import style
from picturing.sums import LEAST_PARTS, MOST_PARTS

HERE = os.path.dirname(os.path.realpath(__file__))
SCRIPTS = "texts", "marks", "axes", "charts", "tables", "sections", "list", "played", "start"
# The parts of a page that only settings and a capture give.
PLAYED = "prefixes", "sizes"


def text_of(name):
    with open(os.path.join(HERE, name), encoding="utf-8") as file:
        return file.read()


def order_of(kind):
    number = kind.split(" ")[1] if kind.startswith("drop ") else 0
    return int(number), kind


def kind_fact(kind, listed):
    behind = listed.behind if any(listed.behind) else []
    return {"kind": kind, "count": listed.count, "first": listed.first, "last": listed.last, "lines": listed.lines,
            "behind": behind}


def locator_facts(locators):
    """The pairs of locators that stand in verdicts, with their sums."""
    return [[*verdict.split(" ")[1:3], *sent] for verdict, sent in locators.items()]


def settled(report):
    """Takes the width of the parts that are drawn."""
    if report.frames:
        report.parts.widen(report.latest, max(LEAST_PARTS, min(MOST_PARTS, report.frames)))


def data_of(name, report, played):
    """All that the page shows; `played` is what settings and the capture tell, or None."""
    misses, behind = report.misses, report.behind
    return {
        "name": name, "frames": report.frames, "first": report.first, "last": report.last,
        "parts": report.parts.series(),
        "kinds": [kind_fact(kind, report.kinds[kind]) for kind in sorted(report.kinds, key=order_of)],
        "sums": report.sums, "misses": {"asked": misses.asked, "silent": misses.silent, "untold": misses.untold},
        "locators": locator_facts(report.locators), "others": report.others,
        "behind": {"counts": behind.listed(), "greatest": behind.greatest, "frame": behind.frame},
        "lastLine": report.last_line, "sentence": report.sentence or missing_sentence(report), "played": played}


def missing_sentence(report):
    if report.frames == 0:
        return "The report is empty: it has no frame and no last line."
    return ("There is no last line: the run ended with status 4 or 5, or this is only a beginning of its report. "
            "What it has is a beginning of the report that the whole run would have given.")


def page_of(name, report, played):
    data = json.dumps(data_of(name, report, played), separators=(",", ":")).replace("<", "\\u003c")
    script = "".join(text_of(f"{one}.js") for one in SCRIPTS)
    sections = {one: text_of(f"{one}.html") if played else "" for one in PLAYED}
    return Template(text_of("page.html")).substitute(
        sections, name=html.escape(name), style=text_of("style.css") + style(), script=script, data=data)

#!/usr/bin/env python3
"""Holds the pages of `picture` against their reports, by the data in them, and in a headless Chromium where there is one.

usage: picture_test.py PROGRAM [FOLDER [FRAMES [LINES]]]
PROGRAM is the built router. It makes reports: of the examples; of a capture of so many frames (100,000) without workers
and with some; one with each kind of frame; one of so many lines (1,000,000); one whose capture has a fault; one that is
cut short; and some without frames. For each `picture` may take 256 MiB of memory. The report is counted here by other
code than that of `picture`, and so are, with settings and a capture, the drops by EID prefix (by `tools/packets`) and
the sizes of the map-cache (by the plain journal's scans). Its page is loaded in Chromium without a network, and asked
for its counts, for what its tables show behind clicks that sort and filter, and for what keys and the button do. Some
pages are drawn in both schemes and at two widths into FOLDER, or into a folder that goes at the end. Inputs that are no
reports, and settings and captures of other reports, must be refused. It prints one line a page, and ends with status 1
where something differs. Where there is no Chromium, or no tshark, a line says so.
"""
import base64
import collections
import html.parser
import ipaddress
import itertools
import json
import math
import os
import random
import re
import resource
import shutil
import subprocess
import sys
import tempfile
import time

TOP = os.path.dirname(os.path.dirname(os.path.abspath(__file__)))
PICTURE, EXAMPLES = os.path.join(TOP, "tools", "picture"), os.path.join(TOP, "examples")
sys.dont_write_bytecode = True
sys.path[:0] = [os.path.join(TOP, folder) for folder in ("crosscheck", "tools/packets")]

from frames import Settings, frame_of, instance_in  # noqa: E402
from journal import Journal  # noqa: E402
from messages import Eid  # noqa: E402
from picturing.colours import DROPS  # noqa: E402
from plain import turns  # noqa: E402
from captures import frames_of  # noqa: E402
from router import Router  # noqa: E402
from sites import Site  # noqa: E402

BROWSERS = "chromium", "chromium-browser", "google-chrome"
MOST_LISTED, MOST_ROWS, MOST_MEMORY, SECONDS = 10_000, 25, 256 * 2**20, 10
START, WIDTH, NARROW = 1_700_000_000, 1280, 420
KINDS = """own|local|native|encapsulated 192.0.2.1 198.51.100.7 61000|encapsulated 2001:db8::1 2001:db8::7 49152
delivered 100|control reply learned=2 passed=1|control request answered=3|control solicit asked=2|control probe-reply
drop 1 refused message 28 instance-too-large|drop 2 not-tunnel|drop 3 fragment|drop 4 encrypted|drop 5 not-ours
drop 6 dest-version-newer|drop 7 source-version-older|drop 8 congestion-mark|drop 9 ttl-expired|drop 10 no-attachment
drop 11 multicast|drop 12 not-site|drop 13 miss|drop 14 no-action|drop 15 send-request|drop 16 drop-no-reason
drop 17 drop-policy|drop 18 drop-auth|drop 19 no-locator|drop 20 too-big|drop 21 unsolicited|drop 22 unfit
drop 23 foreign|drop 24 no-reply-path|drop 25 unexpected""".replace("\n", "|").split("|")
FIRST = f"1 {START}.000000000 n=0 local\n"
REFUSED = {
    "no line": "hello\n", "an unknown verdict": f"1 {START}.000000000 n=0 lost\n",
    "a wrong word": f"1 {START}.000000000 n=0 drop 13 mist\n",
    "a wrong number": f"1 {START}.000000000 n=0 drop 26 miss\n",
    "a frame left out": FIRST + f"3 {START}.000000000 n=0 local\n", "a first frame of 2": FIRST.replace("1", "2", 1),
    "time that goes back": FIRST + f"2 {START - 1}.999999999 n=0 local\n",
    "a short fraction": f"1 {START}.0 n=0 local\n", "another count": FIRST + "end frames=2 written=0 entries=0\n",
    "two last lines": 2 * "end frames=0 written=0 entries=0\n",
    "a frame behind the end": "end frames=0 written=0 entries=0\n" + FIRST,
    "the report of show": "1 other\nend frames=1\n",
    "a trial": "trial 3 frames=4 written=3 entries=3 hash=8e6dbc18\n", "an empty line": "\n",
    "a long number": f"1 {START}.000000000 n={'9' * 5000} local\n", "no text": b"\xff\xfe\n"}
WITHOUT_FRAMES = {
    "": "empty", "usage\n": "of no form", "settings bad-value mapping.3.prefix\n": "mapping.3.prefix",
    "settings not-toml\n": "no TOML", "capture cut-header 7\n": "7 octets",
    "end frames=0 written=0 entries=4\n": "journal: 4", "1 17000": "isn't counted"}


# Reports.


def replayed(program, settings, capture, folder, *words):
    """The report of a replay."""
    out = os.path.join(folder, "out.pcap")
    done = subprocess.run([program, "replay", "--settings", settings, "--in", capture, "--out", out, *words],
                          stdout=subprocess.PIPE, check=True)
    return done.stdout.decode()


def examples(program, folder):
    for name in sorted(os.listdir(EXAMPLES)):
        example = os.path.join(EXAMPLES, name)
        is_ng = os.path.exists(os.path.join(example, "capture.pcapng"))
        files = [os.path.join(example, file) for file in ("settings.toml", "capture.pcapng" if is_ng else "capture.pcap")]
        words = ["--format", "ng"] if is_ng else []
        yield name, replayed(program, *files, folder, *words)
        yield f"{name}-rounds", replayed(program, *files, folder, *words, "--workers", "2", "--round", "4")


def large(program, folder, frames):
    """Of a capture of bench, without workers and with some."""
    maker = os.path.join(TOP, "bench", "workers.py")
    subprocess.run([sys.executable, maker, "--write", folder, str(frames), "1"], check=True)
    files = [os.path.join(folder, file) for file in ("settings.toml", "capture.pcap")]
    yield "large", replayed(program, *files, folder)
    yield "large-rounds", replayed(program, *files, folder, "--workers", "3", "--round", "1024")
    os.remove(files[1])


def made(count, seed, verdicts, pace):
    """A report of so many lines, some of whose n lie behind."""
    numbers, known, moment = random.Random(seed), 5, START * 10**9
    for number in range(1, count + 1):
        moment += numbers.randrange(2 * pace)
        known += numbers.random() < 0.1
        said = max(known - numbers.choice((0, 0, 0, 1, 2, 7, 40)), 0)
        yield f"{number} {moment // 10**9}.{moment % 10**9:09} n={said} {numbers.choice(verdicts)}\n"
    yield f"end frames={count} written=7 entries={known}\n"


def made_reports(many):
    yield "each-kind", "".join(made(3_000, 1, KINDS, 10**9))
    yield "many", "".join(made(many, 2, KINDS[:4] * 6 + KINDS, 10**6))
    to_many = [f"encapsulated 192.0.2.1 198.51.{i // 200}.{1 + i % 200} 50000" for i in range(600)]
    yield "locators", "".join(made(2_000, 3, to_many, 1))
    yield "fault", "".join(list(made(20, 4, KINDS, 10**10))[:-1]) + "capture cut-record 4321\n"
    yield "block", "".join(list(made(20, 7, KINDS, 10**10))[:-1]) + "capture bad-version 4321\n"
    yield "cut", "".join(made(500, 5, KINDS, 10**8))[:-60]
    yield "long-ago", "".join(made(50, 6, KINDS, 10**16))


# Counts of a report, by its words.


def kind_of(line):
    words = line.split(" ")[3:]
    return " ".join(words[:{"control": 2, "drop": 3}.get(words[0], 1)])


def known_of(line):
    return int(line.split(" ")[2][2:])


def growth(line, after):
    """By how much the journal grew behind a line, where the next line tells it of that line alone, else None."""
    if after.startswith("end"):
        return int(after.rsplit("=", 1)[1]) - known_of(line)
    seconds = [text.split(" ")[1].split(".")[0] for text in (line, after) if text[:1].isdigit()]
    return known_of(after) - known_of(line) if len(seconds) == 2 and seconds[0] == seconds[1] else None


def misses_of(lines):
    found = collections.Counter(asked=0, silent=0, untold=0)
    for line, after in zip(lines, lines[1:] + [""]):
        if " drop 13 " in line or " drop 15 " in line:
            found[{1: "asked", 0: "silent"}.get(growth(line, after), "untold")] += 1
    return dict(found)


def behind_of(frames):
    greatest, counts, most, frame = 0, collections.Counter(), 0, None
    for number, known in enumerate(map(known_of, frames), 1):
        behind, greatest = max(greatest - known, 0), max(greatest, known)
        counts[len(f"{behind:b}") if behind else 0] += 1
        if behind > most:
            most, frame = behind, number
    return {"counts": [counts[place] for place in range(max(counts, default=-1) + 1)], "greatest": most, "frame": frame}


def values_of(frames):
    """The sums of what control messages did."""
    values = collections.Counter()
    for line in frames:
        if " control " in line:
            values.update({name: int(value) for name, value in (word.split("=") for word in line.split(" ")[5:])})
    return {name: values[name] for name in ("learned", "passed", "asked", "answered")}


def counted(report):
    """What a page must count, of a report whose last line may be cut."""
    lines = report.split("\n")[:-1]
    frames = [line for line in lines if line[0].isdigit()]
    kinds = [kind_of(line) for line in frames]
    counts = dict(collections.Counter(kinds))
    pairs = (" ".join(line.split(" ")[4:6]) for line in frames if " encapsulated " in line)
    return {
        "frames": len(frames), "kinds": counts, "last": dict(zip(kinds, range(1, len(kinds) + 1))),
        "first": dict(zip(reversed(kinds), range(len(kinds), 0, -1))),
        "listed": {kind: min(count, MOST_LISTED) for kind, count in counts.items()}, **values_of(frames),
        "misses": misses_of(lines), "locators": dict(collections.Counter(pairs)), "behind": behind_of(frames),
        "lastLine": lines[-1] if len(lines) > len(frames) else None}


# The browser.


class Browser:
    """A headless Chromium, told over two pipes what to do."""

    def __init__(self, path, folder):
        commands, self.commands = os.pipe()
        self.answers, answers = os.pipe()
        words = [path, "--headless", "--disable-gpu", "--remote-debugging-pipe", "--hide-scrollbars", "--no-first-run",
                 "--disable-background-networking", "--disable-dev-shm-usage", "--proxy-server=127.0.0.1:9",
                 f"--user-data-dir={folder}/profile"]
        words += ["--no-sandbox"] if os.geteuid() == 0 else []

        def place_pipes():
            os.dup2(commands, 3)
            os.dup2(answers, 4)

        self.process = subprocess.Popen(words, pass_fds=(3, 4), preexec_fn=place_pipes, stdout=subprocess.DEVNULL,
                                        stderr=subprocess.DEVNULL)
        os.close(commands)
        os.close(answers)
        self.number, self.read, self.session = 0, b"", None
        target = self.call("Target.createTarget", url="about:blank")["targetId"]
        self.session = self.call("Target.attachToTarget", targetId=target, flatten=True)["sessionId"]
        self.call("Page.enable")
        self.call("Network.enable")
        self.requests = []

    def call(self, method, **values):
        """The result of a call."""
        self.number += 1
        message = {"id": self.number, "method": method, "params": values}
        message.update({"sessionId": self.session} if self.session else {})
        os.write(self.commands, json.dumps(message).encode() + b"\0")
        return self.until(lambda answer: answer.get("id") == self.number)["result"]

    def until(self, is_it):
        """The next message of which that is so; addresses that are asked for meanwhile are kept."""
        while True:
            while b"\0" not in self.read:
                part = os.read(self.answers, 1 << 20)
                if not part:
                    raise ConnectionError("Chromium ended")
                self.read += part
            text, self.read = self.read.split(b"\0", 1)
            message = json.loads(text)
            if message.get("method") == "Network.requestWillBeSent":
                self.requests.append(message["params"]["request"]["url"])
            if "error" in message:
                raise ConnectionError(message["error"])
            if is_it(message):
                return message

    def load(self, path, scheme="light", width=WIDTH):
        self.requests = []
        self.call("Emulation.setEmulatedMedia", features=[{"name": "prefers-color-scheme", "value": scheme}])
        self.call("Emulation.setDeviceMetricsOverride", width=width, height=900, deviceScaleFactor=1, mobile=False)
        self.call("Page.navigate", url=f"file://{path}")
        self.until(lambda message: message.get("method") == "Page.loadEventFired")

    def value(self, text):
        """What an expression of the page is."""
        answer = self.call("Runtime.evaluate", expression=text, returnByValue=True, awaitPromise=True)
        if "exceptionDetails" in answer:
            raise ValueError(answer["exceptionDetails"])
        return answer["result"].get("value")

    def draw(self, path):
        """Writes a picture of the whole page."""
        size = self.call("Page.getLayoutMetrics")["cssContentSize"]
        clip = {"x": 0, "y": 0, "width": size["width"], "height": size["height"], "scale": 1}
        shot = self.call("Page.captureScreenshot", format="png", captureBeyondViewport=True, clip=clip)
        with open(path, "wb") as file:
            file.write(base64.b64decode(shot["data"]))

    def end(self):
        os.close(self.commands)
        os.close(self.answers)
        try:
            self.process.wait(SECONDS)
        except subprocess.TimeoutExpired:
            self.process.kill()
            self.process.wait()


# What a page must show.

ROWS = """(id => [...document.querySelectorAll(`#${id} tbody tr`)].map(row =>
    [...row.cells].map(cell => cell.textContent)))"""
HEADS = '((id, i) => document.querySelectorAll(`#${id} th button`)[i].click())'


def text_of(number):
    return f"{number:,}"


def sum_faults(browser, counts):
    """Where the tables of verdicts and of locators don't have the counts, both with their most frames first."""
    verdicts = collections.Counter()
    for kind, count in counts["kinds"].items():
        verdicts["drop" if kind.startswith("drop ") else kind] += count
    locators = {" ".join(reversed(shortened(pair).split(" "))): count for pair, count in counts["locators"].items()}
    found = []
    for table, names, right in (("verdict-table", 1, verdicts), ("locator-table", 2, locators)):
        rows = browser.value(f"{ROWS}('{table}')")
        shown = {" ".join(row[:names]): int(row[names].replace(",", "")) for row in rows}
        most = sorted(right.values(), reverse=True)[:MOST_ROWS]
        is_right = shown.items() <= right.items() and list(shown.values()) == most
        found += [] if is_right else [f"{table}: {shown} instead of {dict(right)}"]
    return found


def drop_faults(browser, counts):
    """Where the table of drops, sorted by its number falling, then rising, then by frames, isn't that of the counts."""
    drops = sorted((int(kind.split(" ")[1]), kind.split(" ")[2], count, counts["first"][kind], counts["last"][kind])
                   for kind, count in counts["kinds"].items() if kind.startswith("drop "))
    right, found = [[str(number), word, *map(text_of, rest)] for number, word, *rest in drops], []
    for order, rows in (("falling", right[::-1]), ("rising", right)) if drops else ():
        browser.value(f"{HEADS}('drop-table', 0)")
        shown = [row[:3] + row[5:] for row in browser.value(f"{ROWS}('drop-table')")]
        found += [] if shown == rows else [f"drops, {order}: {shown[:2]} instead of {rows[:2]}"]
    if drops:
        browser.value(f"{HEADS}('drop-table', 2)")
        shown = [row[2] for row in browser.value(f"{ROWS}('drop-table')")]
        most = sorted((count for _, _, count, _, _ in drops), reverse=True)
        found += [] if shown == [text_of(count) for count in most] else [f"drops by frames: {shown}"]
    return found


def shortened(text):
    """A text whose IPv6 addresses are as RFC 5952 has them."""
    return re.sub("(?:[0-9a-f]{4}:){7}[0-9a-f]{4}", lambda found: str(ipaddress.ip_address(found[0])), text)


def utc(moment):
    seconds, fraction = moment.split(".")
    return time.strftime("%Y-%m-%d %H:%M:%S.", time.gmtime(int(seconds))) + fraction


def filter_faults(browser, frames):
    """Where the button doesn't copy a filter that has the frames that are listed."""
    browser.value("navigator.clipboard.writeText = async text => { window.copied = text; }")
    browser.value("document.getElementById('copy').click()")
    text = browser.value("window.copied")
    return [] if frames_in(text) == frames else [f"the filter: {text[:80]} instead of {frames[:5]}"]


def frames_in(text):
    """The frames of a filter."""
    found = re.fullmatch(r"frame\.number in \{(.*)\}", text)[1].split(", ")
    ends = [[int(end) for end in one.split("..")] for one in found]
    return [number for pair in ends for number in range(pair[0], pair[-1] + 1)]


def list_faults(browser, report, counts):
    """Where a click on the row of a kind doesn't list its frames, or a text doesn't choose among them."""
    drops = [kind for kind in counts["kinds"] if kind.startswith("drop ")][:3]
    others = [kind for kind in counts["kinds"] if not kind.startswith("drop ")][:3]
    lines, found = report.split("\n")[:counts["frames"]], []
    for kind in drops + others:
        table = "drop-table" if kind in drops else "verdict-table"
        browser.value(f"document.querySelector('#{table} tr[data-key=\"{kind}\"]').click()")
        first = itertools.islice((line for line in lines if kind_of(line) == kind), MOST_ROWS)
        rows, at = browser.value(f"{ROWS}('frame-table')"), 6 if counts["behind"]["greatest"] else 5
        shown = [f"{row[0].replace(',', '')} {row[1]} n={row[4].replace(',', '')} {row[at]}" for row in rows]
        found += [] if shown == list(map(shortened, first)) else [f"the list of {kind}: {shown[:2]}"]
        found += [f"UTC: {row[:3]}" for row in rows if row[2] != utc(row[1])][:1]
        found += filter_faults(browser, [int(line.split(" ")[0]) for line in lines if kind_of(line) == kind][:MOST_LISTED])
        is_cut = "only the first 10,000" in browser.value("document.getElementById('listed-note').textContent")
        found += [] if is_cut == (counts["kinds"][kind] > MOST_LISTED) else [f"the note of {kind}"]
    browser.value("(() => { const words = document.getElementById('words'); words.value = 'no such text';"
                  "words.dispatchEvent(new Event('input')); })()")
    return found + (["the text chooses nothing"] if browser.value(f"{ROWS}('frame-table')") else [])


TIPS = """(chart => {
    const svg = document.querySelector(`#${chart} div > svg`), tip = document.getElementById("tip");
    const press = key => svg.dispatchEvent(new KeyboardEvent("keydown", {key}));
    const last = [...svg.querySelectorAll("text")].map(text => text.textContent);
    press("Home");
    const first = [...tip.querySelectorAll("p, div")].map(node => node.innerText);
    press("ArrowRight");
    const second = tip.querySelector("p").textContent;
    press("Escape");
    return {texts: last, tip: first, second, hidden: tip.hidden, unit: svg.querySelector(".unit").textContent};
})"""
UNITS = "ns", "µs", "ms", "s", "min", "h", "d"


def unit_in(text):
    """The first unit of a span."""
    return text.split(" ")[1]


def chart_faults(browser):
    """Where the chart of verdicts has no unit, its tips are in another one than its axis, or keys don't go through it."""
    shown = browser.value(f"{TIPS}('verdict-chart')")
    axis = {unit_in(text) for text in shown["texts"] if re.fullmatch(r"[0-9.,]+ (ns|µs|ms|s|min|h|d)", text)}
    axis = axis or {unit_in(text) for text in shown["texts"] if " " in text and unit_in(text) in UNITS}
    tests = {
        "the unit of the y axis": re.fullmatch("frames in [0-9.,]+ (ns|µs|ms|s|min|h|d)", shown["unit"]),
        "UTC at the axis": any(re.search(r"\d\d:\d\d:\d\d.* UTC|\d{4}-\d\d-\d\d", text) for text in shown["texts"]),
        "the unit of tips": {unit_in(shown["tip"][0])} == axis == {unit_in(shown["tip"][0].split(" to ")[1])},
        "UTC of tips": shown["tip"][1].endswith(" UTC"), "the keys": shown["second"] != shown["tip"][0],
        "Escape": shown["hidden"]}
    return [f"{what}: {shown}" for what, good in tests.items() if not good]


CUT = """[...document.querySelectorAll(".scroll")].filter(({scrollWidth, clientWidth}) => scrollWidth > clientWidth)
    .map(({parentNode}) => parentNode.id)"""
LONGEST = """[...document.querySelectorAll("tbody")].map(body =>
    Math.max(...[...body.querySelectorAll("svg.bar")].map(({style}) => parseFloat(style.width))))
    .filter(width => width > 0 && Math.abs(width - 100) > 0.01)"""


def width_faults(browser):
    """Which tables are cut, or have no bar of full width."""
    return ([f"{table} is cut" for table in browser.value(CUT)]
            + [f"the greatest bar has {width} %" for width in browser.value(LONGEST)])


def page_faults(browser, report, counts):
    shown = browser.value("window.reportCounts")
    faults = [f"{name}: {shown.get(name)} instead of {right}" for name, right in counts.items()
              if shown.get(name) != right]
    mirror = json.loads(browser.value("document.getElementById('report-counts').textContent"))
    faults += [] if mirror == shown else ["the counts in the page's text"]
    faults += [f"asks for {url}" for url in browser.requests if not url.startswith("file:")]
    if counts["frames"]:
        faults += sum_faults(browser, counts) + drop_faults(browser, counts) + list_faults(browser, report, counts)
        faults += chart_faults(browser) + width_faults(browser) if counts["frames"] > 1 else []
        bars = browser.value("document.querySelectorAll('#verdict-chart rect.bar').length")
        faults += [] if bool(bars) == (counts["frames"] > 1) else [f"{bars} bars"]
        wide = browser.value("document.documentElement.scrollWidth > innerWidth")
        faults += ["it is wider than its window"] if wide else []
    return faults


# Runs.


def limit_memory():
    resource.setrlimit(resource.RLIMIT_AS, (MOST_MEMORY, MOST_MEMORY))


def picture(report, folder, name, *words):
    """Writes a report and its page: where the page is, the status, what was said, and how many seconds it took."""
    path, page = os.path.join(folder, f"{name}.txt"), os.path.join(folder, f"{name}.html")
    with open(path, "wb") as file:
        file.write(report if isinstance(report, bytes) else report.encode())
    start = time.time()
    with open(page, "wb") as file:
        done = subprocess.run([sys.executable, PICTURE, path, *words], stdout=file, stderr=subprocess.PIPE,
                              preexec_fn=limit_memory)
    return page, done.returncode, done.stderr.decode(), time.time() - start


def told(name, faults, what=""):
    """Says what became of a page, and whether it is right."""
    print(f"{name}: {'differs' if faults else 'right'}{what}", *faults[:5], sep="\n    ", flush=True)
    return not faults


class Page(html.parser.HTMLParser):
    """The data in a page, and what it names that lies outside it."""

    def __init__(self, path):
        super().__init__()
        self.inside, self.data, self.outside = False, None, []
        with open(path, encoding="utf-8") as file:
            self.feed(file.read())

    def handle_starttag(self, tag, attributes):
        self.inside = ("id", "report-data") in attributes
        self.outside += [value for name, value in attributes if name in ("src", "href")]

    def handle_data(self, data):
        if self.inside:
            self.data, self.inside = json.loads(data), False


def data_faults(path, counts):
    """Where the data in a page don't have the counts."""
    page = Page(path)
    data, kinds = page.data, {fact["kind"]: fact for fact in page.data["kinds"]}
    series = data["parts"]["series"]
    shown = {
        "frames": data["frames"], "kinds": {kind: sum(series[kind]) for kind in kinds}, "misses": data["misses"],
        **{name: {kind: fact[name] for kind, fact in kinds.items()} for name in ("first", "last")},
        "listed": {kind: len(fact["lines"]) for kind, fact in kinds.items()}, **data["sums"],
        "locators": {f"{source} {dest}": count for source, dest, count, _, _ in data["locators"]},
        "behind": data["behind"], "lastLine": data["lastLine"]}
    faults = [f"data, {name}: {shown[name]} instead of {right}" for name, right in counts.items() if shown[name] != right]
    return faults + [f"names {url}" for url in page.outside]


def check_page(browser, folder, name, report):
    page, status, said, took = picture(report, folder, name)
    if status:
        return told(name, [f"status {status}: {said}"])
    counts, start, size = counted(report), time.time(), os.path.getsize(page) / 2**20
    faults, what = data_faults(page, counts), f", {counts['frames']:,} frames, {took:.1f} s, page of {size:.1f} MiB"
    if browser:
        browser.load(page)
        faults += page_faults(browser, report, counts)
        what += f", {time.time() - start:.1f} s in Chromium"
    return told(name, faults, what)


def check_refused(folder):
    faults = []
    for what, report in REFUSED.items():
        page, status, said, _ = picture(report, folder, "refused")
        if status != 1 or os.path.getsize(page) or not said.startswith("picture: ") or said.count("\n") != 1:
            faults.append(f"{what}: status {status}, {said}")
    return told("refused inputs", faults, f", {len(REFUSED)} of them")


def check_without_frames(browser, folder):
    faults = []
    for report, words in WITHOUT_FRAMES.items():
        page, status, said, _ = picture(report, folder, "without")
        data = Page(page).data
        if status or words not in data["sentence"] and words not in str(data["lastLine"]) or data["frames"]:
            faults.append(f"{report!r}: status {status}, {said} {data['sentence']}")
        if browser:
            browser.load(page)
            text = browser.value("document.body.innerText")
            faults += [] if words in text and "There is no frame" in text else [f"{report!r}: {text[:200]}"]
    return told("reports without frames", faults, f", {len(WITHOUT_FRAMES)} of them")


# Colours.


def linear(value):
    return value / 12.92 if value <= 0.04045 else ((value + 0.055) / 1.055)**2.4


def light_of(colour):
    return [linear(int(colour[i:i + 2], 16) / 255) for i in (1, 3, 5)]


def luminance(colour):
    red, green, blue = light_of(colour)
    return 0.2126 * red + 0.7152 * green + 0.0722 * blue


def contrast(*colours):
    less, more = sorted(map(luminance, colours))
    return (more + 0.05) / (less + 0.05)


def seen(colour):
    """A colour as OKLab has it, in which distances are what an eye tells apart."""
    red, green, blue = light_of(colour)
    long, middle, short = ((a * red + b * green + c * blue)**(1 / 3) for a, b, c in (
        (0.4122214708, 0.5363325363, 0.0514459929), (0.2119034982, 0.6806995451, 0.1073969566),
        (0.0883024619, 0.2817188376, 0.6299787005)))
    return tuple(a * long + b * middle + c * short for a, b, c in (
        (0.2104542553, 0.7936177850, -0.0040720468), (1.9779984951, -2.4285922050, 0.4505937099),
        (0.0259040371, 0.7827717662, -0.8086757660)))


def distance(one, other):
    return math.dist(seen(one), seen(other))


def check_colours():
    """Each drop has a colour that is none of a verdict, is seen on its page, and is far from its neighbours."""
    with open(os.path.join(TOP, "tools", "picturing", "style.css")) as file:
        schemes = [dict(re.findall("--([a-z]+): (#[0-9a-f]{6})", part)) for part in file.read().split("@media")[:2]]
    faults = []
    for place, scheme in enumerate(schemes):
        colours = [pair[place] for pair in DROPS]
        verdicts = [scheme[name] for name in ("encapsulated", "delivered", "native", "control", "local", "own", "drop")]
        least = {
            "contrast": (min(contrast(one, scheme["card"]) for one in colours + verdicts), 2.8),
            "to verdicts": (min(distance(one, verdict) for one in colours for verdict in verdicts), 0.075),
            "neighbours": (min(map(distance, colours, colours[1:])), 0.15),
            "of one pattern": (min(distance(*pair) for i in range(5)
                                   for pair in itertools.combinations(colours[i::5], 2)), 0.11),
            "any two": (min(distance(*pair) for pair in itertools.combinations(colours, 2)), 0.07),
            "texts": (min(contrast(scheme[name], scheme[back]) for name in ("text", "quiet")
                          for back in ("page", "card", "hover")), 4.5)}
        faults += [f"{name}: {value:.3f} in scheme {place}" for name, (value, least) in least.items() if value < least]
    return told("colours", faults + ([] if len(DROPS) == 25 else [f"{len(DROPS)} colours"]), f", {len(DROPS)} of drops")


# Settings and captures.


def home_of(site, eid, plain, moment):
    """The longest prefix for an EID, by scans: of the site, else of the map-cache, else the EID."""
    if eid.iid is None:
        return eid
    entry = Journal.in_force(plain, moment, eid)
    return site.home(eid) or (entry.mapping.eid if entry else eid)


def eid_read(given, verdict, frame):
    """The instance and address for which a data packet was dropped, by the reader of packets; or None."""
    number, packet = int(verdict.split(" ")[1]), frame.packet
    arrives = packet and packet.dest in given.own
    if number in (1, 2, 3, 4, *range(21, 26)) or arrives and packet.kind != "tunnel packet":
        return None
    if arrives:
        iid, address = instance_in(packet.header), packet.inner_dest
    else:
        iid, address = given.instances.get(frame.vlan), packet.source if number == 12 else packet.dest
    return Eid.host(iid, ipaddress.ip_address(address).packed)


def worked(settings, capture):
    """The drops by prefix and number, and the router behind a capture, by the plain router's scans alone."""
    with open(settings, "rb") as file:
        octets = file.read()
    site, given, drops = Site(octets), Settings(octets), collections.Counter()
    router = Router(site)
    pairs = list(frames_of(capture))
    for (moment, link, frame), (_, _, verdict, _) in zip(pairs, turns(router, pairs)):
        eid = eid_read(given, verdict, frame_of(link, frame)) if verdict.startswith("drop") else None
        if eid:
            home = home_of(site, eid, router.journal, moment)
            drops[home.iid, f"{ipaddress.ip_address(home.octets())}/{home.length}", verdict.split(" ")[1]] += 1
    return drops, router


def played_faults(data, settings, capture):
    """Where the drops by prefix, or the sizes of the map-cache, aren't those of the plain router's scans."""
    (drops, router), played, parts = worked(settings, capture), data["played"], data["parts"]
    shown = collections.Counter({(row["iid"], row["prefix"], number): count for row in played["drops"]["rows"]
                                 for number, count in row["drops"].items()})
    faults = [] if shown == drops else [f"drops by prefix: {shown - drops} and not {drops - shown}"]
    start = int(data["first"].replace(".", ""))
    end = int(data["last"].replace(".", ""))
    for part, size in enumerate(played["cache"]["ends"]):
        moment = min(start + (part + 1) * parts["width"] - 1, end)
        journal = Journal(entry for entry in router.journal if entry.moment <= moment)
        right = sum(not entry.fixed for entry in Journal.live(journal, moment).values())
        faults += [] if size == right and played["cache"]["most"][part] >= size else [f"part {part}: {size}, not {right}"]
    return faults


def check_played(browser, program, folder):
    """The pages of the examples, with settings and captures."""
    results = []
    for name in sorted(os.listdir(EXAMPLES)):
        example = os.path.join(EXAMPLES, name)
        files = [os.path.join(example, file) for file in ("settings.toml", "capture.pcap")]
        if os.path.exists(files[1]):
            results.append(check_one_played(browser, folder, name, files, replayed(program, *files, folder)))
    return all(results)


def check_one_played(browser, folder, name, files, report):
    page, status, said, took = picture(report, folder, f"{name}-played", "--settings", files[0], "--in", files[1])
    if status:
        return told(f"{name}-played", [f"status {status}: {said}"])
    data = Page(page).data
    faults = data_faults(page, counted(report)) + played_faults(data, *files)
    if browser:
        browser.load(page)
        faults += chart_faults(browser) if data["parts"]["count"] > 1 else []
        faults += width_faults(browser) + prefix_faults(browser, data)
    return told(f"{name}-played", faults, f", {data['frames']:,} frames, {took:.1f} s, "
                f"{len(data['played']['drops']['rows'])} prefixes")


def prefix_faults(browser, data):
    """Where the table of prefixes isn't there with the most frames first, or a row doesn't list its frames."""
    rows, right = browser.value(f"{ROWS}('prefix-table')"), data["played"]["drops"]["rows"]
    counts = [int(row[3].replace(",", "")) for row in rows]
    most = sorted((sum(row["drops"].values()) for row in right), reverse=True)[:MOST_ROWS]
    faults = [] if counts == most else [f"prefixes: {counts} instead of {most}"]
    if rows:
        browser.value("document.querySelector('#prefix-table tbody tr').click()")
        listed = browser.value(f"{ROWS}('frame-table')")
        faults += [] if listed and all(row[-1].startswith(rows[0][0]) for row in listed) else [f"listed: {listed[:2]}"]
    return faults


def check_liars(program, folder):
    """Reports that aren't of their settings and captures, and words that are wrong: status 1, and both lines."""
    example = os.path.join(EXAMPLES, "site")
    files = [os.path.join(example, file) for file in ("settings.toml", "capture.pcap")]
    report, words = replayed(program, *files, folder), ["--settings", files[0], "--in", files[1]]
    dropped = next(line for line in report.split("\n") if " drop 17 " in line)
    other = os.path.join(EXAMPLES, "cache", "capture.pcap")
    wrong = {
        "another drop": (report.replace(dropped, dropped.replace("17 drop-policy", "18 drop-auth")), words, "plain  "),
        "another moment": (report.replace(".000000000 ", ".000000001 ", 1), words, "plain  "),
        "another n": (report.replace(" n=", " n=1", 1), words, ""),
        "another capture": (report, [*words[:3], other], "plain  "),
        "another count": (report.replace("written=", "written=9"), words, "plain  "),
        "no capture": (report, words[:2], "go together"), "no file": (report, [*words[:3], example + "/none"], "none"),
        "no settings": (report, ["--settings", files[1], *words[2:]], ""), "a word": (report, ["--lose"], "--lose")}
    faults = []
    for what, (text, given, part) in wrong.items():
        page, status, said, _ = picture(text, folder, "liar", *given)
        if status != 1 or os.path.getsize(page) or not said.startswith("picture: ") or part not in said:
            faults.append(f"{what}: status {status}, {said}")
    return told("reports of others", faults, f", {len(wrong)} of them")


# Addresses.

ADDRESSES = {
    "2001:0db8:0000:0000:0001:0000:0000:0001": "2001:db8::1:0:0:1", "2001:0db8:0000:0001:0001:0001:0001:0001":
    "2001:db8:0:1:1:1:1:1", "2001:0000:0000:0001:0000:0000:0000:0001": "2001:0:0:1::1",
    "0000:0000:0000:0000:0000:0000:0000:0000": "::", "0000:0000:0000:0000:0000:0000:0000:0001": "::1",
    "2001:0db8:0000:0000:0000:0000:0000:0000": "2001:db8::", "fe80:0000:0000:0000:0abc:0000:0000:00de":
    "fe80::abc:0:0:de", "0000:0000:0000:0000:0000:ffff:c000:0201": "::ffff:192.0.2.1"}
SOUGHT = {"2001:db8:f::7": True, "2001:0db8:000f:0000:0000:0000:0000:0007": True, "2001:DB8:F:0::7": True,
          "2001:db8:f::": True, "000f:0000": True, "2001:db8:f::8": False, "61000": True}


def check_addresses(browser, folder):
    """Addresses of the page as RFC 5952 has them (its section 4), and what finds one."""
    full = "2001:0db8:000f:0000:0000:0000:0000:0007"
    report = f"1 {START}.000000000 n=0 encapsulated 2001:0db8:000f:0000:0000:0000:0000:0001 {full} 61000\n"
    page, status, said, _ = picture(report, folder, "addresses")
    browser.load(page)
    faults = [f"status {status}: {said}"] if status else []
    numbers = random.Random(1)
    groups = [":".join(f"{numbers.choice((0, 0, 1, numbers.randrange(65536))):04x}" for _ in range(8)) for _ in range(300)]
    right = ADDRESSES | {one: str(ipaddress.ip_address(one)) for one in groups if not one.startswith("0000:0000:0000")}
    shown = browser.value(f"{json.dumps(list(right))}.map(shortened)")
    faults += [f"{one}: {text}" for (one, wanted), text in zip(right.items(), shown) if text != wanted]
    for words, is_there in SOUGHT.items():
        rows = browser.value("(words => { const field = document.getElementById('words'); field.value = words; "
                             "field.dispatchEvent(new Event('input')); return document.querySelectorAll("
                             f"'#frame-table tbody tr').length; }})({json.dumps(words)})")
        faults += [] if bool(rows) == is_there else [f"{words}: {rows} rows"]
    return told("addresses", faults, f", {len(right)} of them")


def check_filter(browser, folder):
    """Whether tshark takes a filter that the page makes."""
    if not shutil.which("tshark"):
        print("filter: left out, there is no tshark")
        return True
    text = browser.value("filterText([1, 2, 4, 5, 6, 9])")
    capture = os.path.join(EXAMPLES, "site", "capture.pcap")
    done = subprocess.run(["tshark", "-r", capture, "-Y", text, "-T", "fields", "-e", "frame.number"],
                          capture_output=True, text=True)
    there = [number for number in done.stdout.split() if int(number) not in (1, 2, 4, 5, 6, 9)]
    return told("filter", [done.stderr] if done.returncode or there or not done.stdout else [], f", {text}")


# All.


def draw(browser, folder, pictures):
    for name in ("each-kind", "limits-played", "large-rounds", "locators"):
        for scheme, width in itertools.product(("light", "dark"), (WIDTH, NARROW)):
            browser.load(os.path.join(folder, f"{name}.html"), scheme, width)
            browser.draw(os.path.join(pictures, f"{name}-{scheme}-{width}.png"))


def check_narrow(browser, folder):
    """A window of 420 pixels is never wider."""
    faults = []
    for name in ("each-kind", "limits-played"):
        browser.load(os.path.join(folder, f"{name}.html"), "light", NARROW)
        width = browser.value("document.documentElement.scrollWidth")
        faults += [f"{name}: {width} pixels"] if width > NARROW else []
    return told("narrow pages", faults)


def check_all(browser, program, folder, frames, many):
    results = [check_colours(), check_refused(folder), check_liars(program, folder), check_without_frames(browser, folder),
               check_played(browser, program, folder)]
    for reports in (examples(program, folder), large(program, folder, frames), made_reports(many)):
        results += [check_page(browser, folder, name, report) for name, report in reports]
    if browser:
        results += [check_addresses(browser, folder), check_filter(browser, folder), check_narrow(browser, folder)]
    return all(results)


def main():
    if len(sys.argv) < 2:
        sys.exit(__doc__)
    program, pictures, frames, many = sys.argv[1:] + [None, 100_000, 1_000_000][len(sys.argv) - 2:]
    path = next(filter(None, map(shutil.which, BROWSERS)), None)
    with tempfile.TemporaryDirectory(ignore_cleanup_errors=True) as folder:
        browser = Browser(path, folder) if path else None
        try:
            is_right = check_all(browser, os.path.abspath(program), folder, int(frames), int(many))
            if browser:
                draw(browser, folder, pictures or folder)
            else:
                print("pages in a browser: left out, there is no Chromium")
        finally:
            if browser:
                browser.end()
    sys.exit(0 if is_right else 1)


if __name__ == "__main__":
    main()

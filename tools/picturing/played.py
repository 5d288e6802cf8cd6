"""What settings and the capture tell besides: for which EID prefix each packet was dropped, and the map-cache over time.

The plain router takes the frames that changed the journal and decides those that were dropped; what it says is held
against the lines of the report.
"""
from collections import Counter
from itertools import islice

import settings as rules
from explaining.capture import frames_of, octets_of, settled, way_of
from explaining.play import Play
from explaining.report import End, parsed
from explaining.texts import Differs, Fault, prefix
from journal import Learned, ends
from lisp import header_of
from messages import Eid
from plain import frame_line
from sites import Site
from wire import Packet, Refused, link_payload

from picturing.report import Malformed
from picturing.sums import SECOND

MOST_EIDS, CONTROL = 10_000, range(21, 26)
# Drops of packets that leave the site, and of those that came through a tunnel; 9 is of either.
LEAVING, ARRIVING, NOT_SITE = frozenset((9, *range(10, 21))), frozenset((5, 6, 7, 8, 9)), 12


class Front:
    """What stands behind the last line that a report has where it was cut short."""
    known, written, text = None, None, ""


class Held(Play):
    """A play that is held against a report, which may be cut short."""

    def close(self, last):
        if not isinstance(last, Front):
            super().close(last)

    def see(self, step):
        """Holds the moment of a frame against its line, and decides it where it was dropped and changed nothing."""
        front = f"{step.frame.number} {moment_text(step.frame.moment)} "
        if not step.line.text.startswith(front):
            raise Differs(f"proved {step.line.text}\nplain  {front}")
        if step.line.verdict.startswith("drop "):
            self.work(step)
            if not step.is_changing():
                self.decide(step)

    def decide(self, step):
        """Holds the line of a frame that changed nothing against the plain router's."""
        verdict, _, _ = self.router.judged(step.frame.moment, step.frame.link, step.frame.octets)
        ours = frame_line(step.frame.number, step.frame.moment, len(self.journal), verdict)
        if ours != step.line.text:
            raise Differs(f"proved {step.line.text}\nplain  {ours}")


# The EIDs of dropped packets.


def inside(packet):
    """The instance of a packet that came through a tunnel, and the packet in it; None where it isn't one."""
    if packet.protocol != 17 or packet.fragment:
        return None
    _, dest, _, datagram = packet.udp()
    if dest != 4341:
        return None
    return header_of(datagram[8:]).iid, Packet(datagram[16:], packet.base + packet.at + 16)


def eid_of(site, frame, drop):
    """The EID for which a data packet was dropped, None where there is none; of a VLAN without an instance that is None."""
    try:
        vlan, place, octets = link_payload(frame.link, frame.octets)
        packet = Packet(octets, place)
        if site.is_own(packet.dest):
            found = inside(packet) if drop in ARRIVING else None
            return found and Eid.host(found[0], found[1].dest)
    except Refused:
        return None
    if drop not in LEAVING:
        return None
    return Eid.host(site.attachments.get(vlan), packet.source if drop == NOT_SITE else packet.dest)


def prefix_of(play, moment, eid):
    """The longest prefix that covers an EID, and of what it is; the EID itself where there is none."""
    if eid.iid is None:
        return eid, "none"
    home = play.site.home(eid)
    if home is not None:
        return home, "site"
    entry = play.journal.in_force(moment, eid)
    if entry is None:
        return eid, "none"
    return entry.mapping.eid, "static" if entry.fixed else "learned"


class Dropped:
    """The drops by EID prefix: of each how many by their numbers, the first and the last frame."""

    def __init__(self, report):
        self.rows, self.places, self.others, self.without = [], {}, 0, 0
        self.listed = {kind: [] for kind in report.kinds if kind.startswith("drop ")}
        self.room = {kind: len(report.kinds[kind].lines) for kind in self.listed}

    def see(self, play, step):
        words = step.line.verdict.split(" ", 3)
        if words[0] != "drop":
            return
        kind, drop = " ".join(words[:3]), int(words[1])
        eid = None if drop in CONTROL else eid_of(play.site, step.frame, drop)
        place = None if eid is None else self.place(*prefix_of(play, step.frame.moment, eid))
        if eid is None:
            self.without += 1
        elif place is None:
            self.others += 1
        else:
            self.count(self.rows[place], drop, step.frame.number)
        if len(self.listed[kind]) < self.room[kind]:
            self.listed[kind].append(place)

    def place(self, eid, origin):
        """Where the row of a prefix stands; None past the first ones."""
        key = eid, origin
        if key not in self.places:
            if len(self.rows) == MOST_EIDS:
                return None
            self.places[key] = len(self.rows)
            self.rows.append({"iid": eid.iid, "prefix": prefix(eid), "origin": origin, "drops": Counter(),
                              "first": None, "last": None})
        return self.places[key]

    def count(self, row, drop, number):
        row["drops"][drop] += 1
        row["first"], row["last"] = row["first"] or number, number

    def facts(self):
        return {"rows": self.rows, "others": self.others, "without": self.without, "listed": self.listed}


# The map-cache over time.


class Size:
    """How many learned mappings there are, step by step: the greatest number in each part of the time, and at its end."""

    def __init__(self, parts, changes):
        self.most, self.ends = [0] * parts.count(), [0] * parts.count()
        self.now, self.place, self.greatest, self.when = 0, 0, 0, None
        for moment, by in changes:
            self.reach((moment - parts.start) // parts.width)
            self.take(moment, self.now + by)
        self.reach(parts.count() - 1)

    def reach(self, place):
        """The parts up to another one begin with what there is."""
        for later in range(self.place + 1, place + 1):
            self.most[later] = self.ends[later] = self.now
        self.place = place

    def take(self, moment, now):
        self.now, self.ends[self.place] = now, now
        self.most[self.place] = max(self.most[self.place], now)
        if now > self.greatest:
            self.greatest, self.when = now, moment


def changes_of(entries, end):
    """When learned mappings come and go up to a moment, by instance: one goes where its time ends, or another is learned."""
    changes, spans = {}, {}
    for entry in entries:
        eid = entry.mapping.eid
        if eid in spans:
            close(changes, eid, spans[eid], entry.moment)
        if not entry.fixed:
            spans[eid] = entry.moment, ends(entry)
    for eid, span in spans.items():
        close(changes, eid, span, end + 1)
    return {iid: sorted(change for change in found if change[0] <= end) for iid, found in changes.items()}


def close(changes, eid, span, moment):
    """Adds the time of what was learned of an EID, which ends at a moment at the latest."""
    start, until = span
    if until > start:
        changes.setdefault(eid.iid, []).extend([(start, 1), (min(until, moment), -1)])


def moment_text(moment):
    return None if moment is None else f"{moment // SECOND}.{moment % SECOND:09}"


def cache_facts(play, parts, end):
    """The sizes of the map-cache over the parts of the time, and of each instance how many mappings it had."""
    changes = changes_of(play.journal.of(Learned), end)
    statics = Counter(eid.iid for eid in play.site.static)
    whole = Size(parts, sorted(change for found in changes.values() for change in found))
    instances = []
    for iid in sorted({*changes, *statics, *play.site.limits}):
        size = Size(parts, changes.get(iid, ()))
        instances.append({"iid": iid, "static": statics[iid], "learned": size.now, "most": size.greatest,
                          "when": moment_text(size.when), "limit": play.site.limit(iid).mappings})
    return {"static": len(play.site.static), "most": whole.most, "ends": whole.ends, "instances": instances}


# The whole.


def site_of(path):
    with open(path, "rb") as file:
        octets = file.read()
    try:
        return Site(octets)
    except rules.Fault as fault:
        raise Fault(f"{path} is refused: settings {fault}") from None


def lines_of(file):
    """The lines of a report, and what stands in the place of a last one where it has none."""
    for text in file:
        if not text.endswith("\n"):
            break
        line = parsed(text[:-1])
        yield line
        if isinstance(line, End):
            return
    yield Front()


def played(words, file, report, folder):
    """The play of a report's frames, and what was dropped."""
    site, path = site_of(words.settings), settled(words.capture, folder)
    octets = octets_of(path)
    way = way_of(octets, words.capture, words.format, words.interfaces, words.split == "on")
    frames, play, dropped = frames_of(octets, way, site), Held(site), Dropped(report)
    for step in play.steps(frames if report.last_line else islice(frames, report.frames), lines_of(file)):
        play.see(step)
        dropped.see(play, step)
    return play, dropped


def facts(words, path, report, folder):
    """What a page shows besides, None of a report without frames."""
    if not report.frames:
        return None
    if report.behind.greatest:
        raise Malformed("some n lies behind that of a line before it, so the replay had workers; with --settings and --in a "
                        "report without workers is needed")
    try:
        with open(path, encoding="utf-8", newline="\n") as file:
            play, dropped = played(words, file, report, folder)
    except Differs as differs:
        raise Malformed(f"the plain router says otherwise than this report, so nothing is drawn\n{differs}") from None
    except Fault as fault:
        raise Malformed(fault) from None
    return {"drops": dropped.facts(), "cache": cache_facts(play, report.parts, report.latest)}

"""Mappings of a router's map-cache: where each came from, when it ends, and which of its locators can be used."""
from typing import NamedTuple

from journal import ECHO_COUNTS, ECHO_ON, PROBE_COUNTS, PROBE_OPEN, Bits, Learned, ends
from messages import Locator

from explaining.texts import SECOND, address, duration, family, placed, utc

UNTOLD = 0xFFFFFFFF
MINUTE, MOST_MINUTES = 60 * SECOND, 0xFFFFFFFE
ACTIONS = {0: "No-Action", 1: "Natively-Forward", 2: "Send-Map-Request", 3: "Drop/No-Reason", 4: "Drop/Policy-Denied",
           5: "Drop/Auth-Failure", 6: "not assigned, taken as Drop/No-Reason", 7: "not assigned, taken as Drop/No-Reason"}


class State(NamedTuple):
    """A locator of a mapping: why it can't be used, or nothing; its part of the flows and of how many, where it has one."""
    locator: Locator
    why_not: list
    first: int = 0
    part: int = 0
    whole: int = 0

    def share(self):
        if self.why_not:
            return ""
        if not self.whole:
            return "a locator of lesser priority is used before it"
        return "all flows" if self.part == self.whole else f"{self.part} of {self.whole} shares of the flows"


def origin(play, entry):
    """Where a mapping came from."""
    return "static, of the settings" if entry.fixed else f"learned from {play.maker(entry)}"


def lasting(entry, moment):
    """How long a mapping is still there."""
    if entry.fixed:
        return "never ends"
    minutes = "1,440 minutes, for a TTL that is left open" if entry.mapping.ttl == UNTOLD else f"{entry.mapping.ttl:,} min"
    left = ends(entry) - moment
    if left > 0:
        return f"TTL {minutes}, ends in {duration(left)}"
    enough = (moment - entry.moment) // MINUTE + 1
    longer = f"; with a TTL of {enough:,} min it would be in force" if enough <= MOST_MINUTES else ""
    return f"TTL {minutes}, ended {duration(-left)} ago, at {utc(ends(entry))}{longer}"


def gone_text(play, entry, moment):
    """What became of a mapping that isn't there any more."""
    eid = placed(entry.mapping.eid)
    if entry.mapping.ttl == 0:
        return f"taken away: {eid}, by a record with a TTL of 0 from {play.maker(entry)} (entry {play.index_of(entry) + 1})"
    return f"ended: {eid}, {origin(play, entry)} (entry {play.index_of(entry) + 1}), {lasting(entry, moment)}"


def mapping_lines(play, entry, moment):
    """A mapping in full, without its locators."""
    mapping = entry.mapping
    lines = [f"{placed(mapping.eid)}, {origin(play, entry)} (entry {play.index_of(entry) + 1}), {lasting(entry, moment)}"]
    if mapping.version:
        lines.append(f"Map-Version {mapping.version}")
    if not mapping.locators:
        lines.append(f"no locators, ACT {mapping.action} ({ACTIONS[mapping.action]})")
    return lines


# Locators.


def bits_of(journal, eid, i):
    """The last status bits that told of a mapping's locator since it was learned, or None."""
    for entry in reversed(journal):
        if type(entry) is Learned and entry.mapping.eid == eid:
            return None
        if type(entry) is Bits and entry.eid == eid and i < entry.width:
            return entry
    return None


def down_by(play, entry, i):
    """What says that a mapping's locator is down."""
    bits = bits_of(play.journal, entry.mapping.eid, i)
    if bits is not None:
        return f"the Locator-Status-Bits of {play.maker(bits)} say that it is down (RFC 9300, section 10)"
    if entry.fixed:
        return "the settings say that it is down (up = false)"
    return "its record has R = 0, no route to it (RFC 9301, section 5.4)"


def silent(play, to, moment):
    """Which probe says that a locator isn't there."""
    probes = [(entry, answered) for entry, answered in play.journal.probes() if entry.address == to]
    judged = [(entry, answered) for entry, answered in probes if answered or moment - entry.moment >= PROBE_OPEN]
    entry = judged[-1][0]
    since = entry.moment + PROBE_OPEN
    return (f"the probe of {play.maker(entry)} wasn't answered, so it is down from {utc(since)} until a later probe is "
            f"answered, or until {utc(entry.moment + PROBE_COUNTS)} (RFC 9301, section 7.1)")


def deaf(play, to):
    """Which echo says that a locator doesn't hear."""
    start = play.journal.echoes()[to].start
    return (f"it was asked for an echo behind {play.maker(start)}, and sent packets without one, so it isn't used from "
            f"{utc(start.moment + ECHO_ON)} to {utc(start.moment + ECHO_COUNTS)} (RFC 9300, section 10.1)")


def why_not(play, entry, i, locator, moment):
    """All reasons for which packets can't be sent to a mapping's locator."""
    to, site, journal, now = locator.address, play.site, play.journal, play.journal.now(moment)
    reasons = []
    if site.is_own(to):
        reasons.append("it is an own locator of this router")
    if locator.priority == 255:
        reasons.append("its priority is 255, which must not be used (RFC 9301, section 5.4)")
    if site.ours(len(to)) is None:
        reasons.append(f"no own locator of {family(len(to))} is up")
    if not journal.status(entry.mapping.eid)[i]:
        reasons.append(down_by(play, entry, i))
    if to in journal.down(moment):
        reasons.append(silent(play, to, now))
    if to in journal.deaf(moment):
        reasons.append(deaf(play, to))
    return reasons


def states(play, entry, moment):
    """The locators of a live mapping, each with its share; they are those that the plain router would use."""
    found = [State(locator, why_not(play, entry, i, locator, moment))
             for i, locator in enumerate(entry.mapping.locators)]
    usable = [state.locator for state in found if not state.why_not]
    if usable != play.router.usable(moment, entry.mapping):
        raise AssertionError("reasons of locators aren't the plain router's")
    return shared(found)


def shared(found):
    """States with their parts of the flows: by weight, among those of least priority; equal parts where weights are."""
    least = min((state.locator.priority for state in found if not state.why_not), default=None)
    among = [state for state in found if not state.why_not and state.locator.priority == least]
    equal = len({state.locator.weight for state in among}) == 1
    parts = {id(state): 1 if equal else state.locator.weight for state in among}
    whole, first, told = sum(parts.values()), 0, []
    for state in found:
        part = parts.get(id(state), 0)
        if id(state) in parts:
            state = state._replace(first=first, part=part, whole=whole)
        told.append(state)
        first += part
    return told


def locator_text(locator):
    return f"{address(locator.address)} priority {locator.priority} weight {locator.weight}"


def state_lines(found):
    """A line for each locator: whether it can be used and its share, or why not."""
    return [f"{locator_text(state.locator)}: "
            + (f"can't be used: {'; '.join(state.why_not)}" if state.why_not else f"can be used: {state.share()}")
            for state in found]

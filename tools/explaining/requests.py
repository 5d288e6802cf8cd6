"""Map-Requests: which are open, since when, how often they were sent, and why none is made."""
from journal import AGAIN, OPEN, SECOND, Answered, Asked, Learned

from explaining.texts import address, counted, duration, family, placed, utc

SHOWN = 3


def open_text(play, entry, moment):
    """A request that is open: since when, how often it was sent, when again, and when it is over."""
    sent = play.journal.times()[entry.nonce]
    text = (f"a Map-Request for {placed(entry.eid)} is open since {play.maker(entry)}, {duration(moment - entry.moment)} "
            f"ago, with nonce {entry.nonce:016x}; it was sent {counted(1 + sent, 'time')}")
    if sent < len(AGAIN):
        due = -(-(entry.moment + AGAIN[sent]) // SECOND) * SECOND
        text += f", goes again at the second {utc(due)} at the earliest"
    return f"{text}, and is over at {utc(entry.moment + OPEN)}"


def wanting(play, eid, moment):
    """Why no Map-Request is made for an EID, or None where one is."""
    site, journal = play.site, play.journal
    if site.resolver is None:
        return "no Map-Request is made: the settings have no resolver"
    if not site.reaches_resolver():
        return (f"no Map-Request is made: no own locator of {family(len(site.resolver))} is up, by which the resolver "
                f"{address(site.resolver)} is reached")
    covering = [entry for entry in journal.open_requests(moment).values() if entry.eid.covers(eid)]
    if covering:
        return f"no further Map-Request is made: {open_text(play, covering[-1], moment)}"
    count, limit = journal.open_in(moment, eid.iid), site.limit(eid.iid).requests
    if count >= limit:
        return (f"no Map-Request is made: {counted(count, 'request')} of instance {eid.iid} are open, and its limit is "
                f"{limit:,}")
    return None


def earlier(play, eid, moment):
    """What became of the last requests for an EID that are no longer open."""
    journal, lines = play.journal, []
    still = {id(entry) for entry in journal.open_requests(moment).values()}
    past = [entry for entry in journal.of(Asked) if entry.eid.covers(eid) and id(entry) not in still]
    for entry in past[-SHOWN:]:
        answer = answer_of(play, entry)
        text = f"earlier: the Map-Request for {placed(entry.eid)} of {play.maker(entry)} "
        lines.append(text + (f"was answered by {play.maker(answer)}{taught(play, entry, answer)}" if answer else
                             f"wasn't answered, and was over at {utc(entry.moment + OPEN)}"))
    return lines


def taught(play, asked, answer):
    """Which mapping of an answer covers the EID that was asked for, or why none of its records was learned."""
    covering = [entry for entry in play.made_with(answer) if type(entry) is Learned and entry.mapping.eid.covers(asked.eid)]
    if covering:
        return f" with {placed(covering[-1].mapping.eid)}"
    if any(eid.covers(asked.eid) for eid in play.site.static):
        return f", whose record was passed over, as `explain frame {play.origins[play.index_of(answer)]}` tells"
    # A record covers the EID, else the reply would have been dropped.
    limit = play.site.limit(asked.eid.iid).mappings
    return (f", whose record was passed over: as many mappings of instance {asked.eid.iid} as its limit allows, "
            f"{limit:,}, were live")


def answer_of(play, asked):
    """The answer to a request, or None: the first one with its nonce behind it, unless the nonce was used again."""
    index = play.index_of(asked)
    for entry in play.journal[index + 1:]:
        if type(entry) in (Asked, Answered) and entry.nonce == asked.nonce:
            return entry if type(entry) is Answered else None
    return None

"""Limits of instances made from a number: so small that runs reach them, at times with little left for those without."""
from settings import MOST_MAPPINGS, MOST_OPEN

FEW = [0, 1, 1, 2, 2, 3]
# What the limits leave of all that there may be, at the edge of that; less than nothing is too many.
LEFT = [-1, 0, 1, 2, 3, 5, 8]
LAWFUL = LEFT[1:]
# Instances that no frame is of, each in a VLAN of its own number; fewer couldn't have all requests.
IDLE = range(1000, 1017)


def parts(total, count):
    """About equal numbers with that sum."""
    return [total // count + (i < total % count) for i in range(count)]


def idle(r, stated, statics, left):
    """The limits of the idle instances, which leave so much of what static mappings and others leave."""
    mappings, requests = (sum(numbers) for numbers in zip((statics, 0), *stated.values()))
    shares = (parts(most - taken - r.choice(left), len(IDLE))
              for most, taken in ((MOST_MAPPINGS, mappings), (MOST_OPEN, requests)))
    return dict(zip(IDLE, zip(*shares)))


def limits(r, iids, statics, few=FEW, left=LEFT):
    """Limits of most of these instances, as lines; at times of fewer than all, and idle ones have nearly all the rest."""
    is_edge = r.random() < 0.4
    some = r.sample(iids, r.randrange(len(iids))) if is_edge else [iid for iid in iids if r.random() < 0.7]
    stated = {iid: (r.choice(few), r.choice(few)) for iid in some}
    if is_edge:
        yield from (line for iid in IDLE for line in ("[[attachment]]", f"vlan = {iid}", f"iid = {iid}"))
        stated |= idle(r, stated, statics, left)
    for iid, (mappings, requests) in r.sample(sorted(stated.items()), len(stated)):
        yield from ["[[limit]]", f"iid = {iid}", f"mappings = {mappings}", f"requests = {requests}"]

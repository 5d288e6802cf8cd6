"""The site of a settings file: its own locators, EIDs, instances with their limits, and static mappings."""
import copy
import ipaddress
from typing import NamedTuple

import settings as rules
from journal import SECOND
from lisp import successor
from messages import Eid, Locator, Record


class Limit(NamedTuple):
    """How many mappings an instance may learn, and how many requests for its EIDs may be open."""
    mappings: int
    requests: int


class Change(NamedTuple):
    """At a second an own locator goes down or comes up."""
    at: int
    address: bytes
    up: bool


def raw(text):
    return ipaddress.ip_address(text).packed


def eid_of(table):
    address, length = rules.prefix(table["prefix"])
    return Eid.of(table["iid"], address, length)


def locators_of(table):
    return tuple(
        Locator(raw(item["address"]), item.get("priority", 1), item.get("weight", 1), item.get("up", True))
        for item in table.get("locator", []))


def by_address(address):
    """What addresses are ordered by."""
    return len(address), address


def changes_of(top):
    """The changes in order of their seconds, those of a second in order of address."""
    changes = [Change(table["at"], raw(table["address"]), table["up"]) for table in top.get("change", [])]
    return sorted(changes, key=lambda change: (change.at, by_address(change.address)))


def stated_in(top):
    """The limits that are stated, by their instances."""
    return {table["iid"]: Limit(table["mappings"], table["requests"]) for table in top.get("limit", [])}


def share_of(stated, statics, count):
    """An equal share, for so many instances, of what static mappings and the limits that are stated leave."""
    mappings, requests = (sum(numbers) for numbers in zip((statics, 0), *stated.values()))
    left = rules.MOST_MAPPINGS - mappings, rules.MOST_OPEN - requests
    return Limit(left[0] // count, min(rules.MOST_REQUESTS, left[1] // count))


def stepped(version, steps):
    """A version so many steps on."""
    for _ in range(steps):
        version = successor(version)
    return version


def mapping_of(table):
    return Record(eid_of(table), 1440, table.get("action", 0), table.get("version", 0), locators_of(table))


class Site:
    def __init__(self, octets):
        top = rules.top_of(octets)
        rules.check(top)
        self.locators = sorted(locators_of(top), key=lambda own: by_address(own.address))
        self.attachments = {table["vlan"]: table["iid"] for table in top.get("attachment", [])}
        self.versions = {eid_of(table): table.get("version", 0) for table in top.get("database", [])}
        self.databases = sorted(self.versions)
        self.mappings = sorted(map(mapping_of, top.get("mapping", [])), key=lambda mapping: mapping.eid)
        self.static = {mapping.eid for mapping in self.mappings}
        self.resolver = raw(top["resolver"]) if "resolver" in top else None
        self.ttl = top.get("ttl", 1440)
        self.probe, self.echo = top.get("probe", False), top.get("echo", False)
        self.nonces = [int(text, 16) for text in top.get("nonces", [])]
        self.seed = bytes.fromhex(top.get("seed", 64 * "0"))
        self.changes = changes_of(top)
        self.stated, attached = stated_in(top), set(self.attachments.values())
        share = share_of(self.stated, len(self.mappings), max(1, len(attached - self.stated.keys())))
        self.limits = {iid: self.stated.get(iid, share) for iid in attached}

    def standing(self, changes):
        """The site behind changes: each own locator is as its last one says, and each version so many steps on."""
        up = {change.address: change.up for change in changes}
        site = copy.copy(self)
        site.locators = [own._replace(reachable=up.get(own.address, own.reachable)) for own in self.locators]
        site.versions = {eid: stepped(version, len(changes)) for eid, version in self.versions.items()}
        return site

    def at(self, begin, moment):
        """The site at a moment of a run whose first frame is at another: each second behind that makes what is due."""
        second = moment // SECOND
        return self.standing([change for change in self.changes if change.at <= second and begin < second * SECOND])

    def limit(self, iid):
        """What an instance may learn and ask: nothing where it isn't attached."""
        return self.limits.get(iid, Limit(0, 0))

    def is_own(self, address):
        return any(own.address == address for own in self.locators)

    def up(self):
        return [own.address for own in self.locators if own.reachable]

    def ours(self, family):
        """The address that packets of a family, told by the size of its addresses, come from, or None."""
        return next((address for address in self.up() if len(address) == family), None)

    def reaches_resolver(self):
        return self.resolver is not None and self.ours(len(self.resolver)) is not None

    def home(self, eid):
        """The site's longest EID that covers an EID, or None."""
        covering = [own for own in self.databases if own.covers(eid)]
        return max(covering, key=lambda own: own.length, default=None)

    def has_home(self, iid, address):
        return self.home(Eid.host(iid, address)) is not None

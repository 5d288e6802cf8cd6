"""What is noticed of a packet, and what each notice makes of the journal and sends."""
from typing import NamedTuple

from journal import Asked, Bits, DataFrom, EchoHeard, EchoStarted, EchoWanted, Journal, Learned, Solicited
from lisp import is_ahead, newer
from messages import Eid
from nonces import nonce_at
from sending import request_packet, solicit_packet


class Ask(NamedTuple):
    """A packet's destination has no mapping."""
    eid: Eid
    source: bytes


class ToldBits(NamedTuple):
    """A locator told status bits of a mapping."""
    eid: Eid
    address: bytes
    bits: int
    width: int


class WantedEcho(NamedTuple):
    address: bytes
    nonce: int


class HeardEcho(NamedTuple):
    address: bytes
    nonce: int


class HeardData(NamedTuple):
    address: bytes


class Solicit(NamedTuple):
    """A locator knows an old version of a prefix of the site."""
    address: bytes
    eid: Eid


class Refresh(NamedTuple):
    """A learned mapping is older than what its site says."""
    eid: Eid


class EchoDue(NamedTuple):
    """A packet went to a locator that no echo is asked of."""
    address: bytes


def of_delivered(site, header, home, known, address):
    """What is noticed of a packet that came out of a tunnel, in order; known is what is in force for its source."""
    if header.status is not None and known:
        yield ToldBits(known.mapping.eid, address, header.status, header.width)
    if header.echo:
        yield WantedEcho(address, header.nonce)
    else:
        if header.nonce is not None:
            yield HeardEcho(address, header.nonce)
        yield HeardData(address)
    if header.dest_version != 0 and newer(site.versions[home], header.dest_version):
        yield Solicit(address, home)
    if known and not known.fixed and is_ahead(header.source_version, known.mapping.version):
        yield Refresh(known.mapping.eid)


def fixed(site):
    """What a journal begins with."""
    return [Learned(0, mapping, True) for mapping in site.mappings]


class Noting:
    """A site and its journal, which each notice is judged by as it then stands.

    The site is first as its settings say (`as_set`), and then as its changes in the journal leave it (`site`).
    """

    def __init__(self, site, entries=None):
        self.as_set = site
        self.journal = Journal(fixed(site) if entries is None else entries)
        self.stand()
        self.notes = {
            Ask: self.missed, Refresh: self.refreshed, ToldBits: self.told, WantedEcho: self.wanted,
            HeardEcho: self.heard_echo, HeardData: self.heard_data, Solicit: self.solicited, EchoDue: self.started}

    def stand(self):
        self.site = self.as_set.standing(self.journal.changes())

    def note(self, moment, notice):
        """What is sent for a notice."""
        return self.notes[type(notice)](moment, *notice) or []

    def nonces(self, count):
        """The next nonces, for so many entries."""
        drawn = self.journal.drawn()
        return [nonce_at(self.site.nonces, self.site.seed, drawn + i) for i in range(count)]

    def nonce(self):
        nonce, = self.nonces(1)
        return nonce

    # Requests.

    def asked(self, moment, eid, source=None, invoked=False):
        """Asks for an EID, where the resolver can be reached and the journal and the instance's limit allow it."""
        if not self.site.reaches_resolver() or not self.journal.may_ask(moment, eid, self.site.limit(eid.iid)):
            return []
        self.journal.append(Asked(moment, eid, source, invoked, self.nonce()))
        return [request_packet(self.site, self.journal[-1])]

    def missed(self, moment, eid, source):
        entry = self.journal.in_force(moment, eid)
        if entry is None or not entry.mapping.locators and entry.mapping.action == 2:
            return self.asked(moment, eid, source)

    def refreshed(self, moment, eid):
        if eid in self.journal.live(moment):
            return self.asked(moment, eid)

    def solicited(self, moment, address, eid):
        return self.all_solicited(moment, [(address, eid)]) if self.site.ours(len(address)) else []

    def all_solicited(self, moment, pairs):
        """Solicitations to locators of ours, each for a prefix, one after another as long as they may be made."""
        pairs = self.journal.may_solicit(moment, pairs)
        made = [Solicited(moment, *pair, nonce) for pair, nonce in zip(pairs, self.nonces(len(pairs)))]
        self.journal += made
        return [solicit_packet(self.site, entry) for entry in made]

    # What is known of locators.

    def told(self, moment, eid, address, bits, width):
        """Keeps status bits that one of a mapping's locators tells, where they say anything new."""
        entry = self.journal.live(moment).get(eid)
        if entry is None or all(locator.address != address for locator in entry.mapping.locators):
            return
        up = self.journal.status(eid)[:width]
        if any(is_up != (bits >> i & 1 == 1) for i, is_up in enumerate(up)):
            self.journal.append(Bits(moment, eid, bits, width))

    def wanted(self, moment, address, nonce):
        if self.journal.may_want(moment, address, nonce):
            self.journal.append(EchoWanted(moment, address, nonce))

    def heard_echo(self, moment, address, nonce):
        echo = self.journal.echo_on(moment, address)
        if echo and echo.start.nonce == nonce:
            self.journal.append(EchoHeard(moment, address))

    def heard_data(self, moment, address):
        echo = self.journal.echo_on(moment, address)
        if echo and not echo.data:
            self.journal.append(DataFrom(moment, address))

    def started(self, moment, address):
        if self.journal.may_start(moment, address):
            self.journal.append(EchoStarted(moment, address, self.nonce() & 0xFFFFFF))

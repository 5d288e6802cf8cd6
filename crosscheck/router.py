"""A plain router: what it decides of each frame and does at each second, by the whole journal as it then stands."""
from choice import chosen, flow_hash
from journal import PROBE_AGAIN, SECOND, Answered, Changed, Learned, ProbeAnswered, Probed, Retried
from lisp import ECHO, NONCE, VERSIONS, header_of, is_ahead
from messages import Eid, Request, message_of
from noting import Ask, EchoDue, Noting, of_delivered
from sending import probe_packet, reply_packet, request_packet, wrapped
from sites import by_address
from wire import Packet, Refused, link_payload, need, text_of

ACTIONS = {0: "14 no-action", 2: "15 send-request", 4: "17 drop-policy", 5: "18 drop-auth"}
ECN = {(0, 0): 0, (0, 2): 0, (0, 1): 0, (2, 0): 2, (2, 2): 2, (2, 1): 1, (2, 3): 3,
       (1, 0): 1, (1, 2): 1, (1, 1): 1, (1, 3): 3, (3, 0): 3, (3, 2): 3, (3, 1): 3, (3, 3): 3}
# How many locators are probed at a second, and how many are told of a change. That no more than 9,600 probes count needs
# no test: each counts for less than 600 seconds behind its own.
MOST_AT_ONCE, MOST_TOLD = 16, 64


def is_group(address):
    if len(address) == 4:
        return address[0] >> 4 == 14 or address == b"\xff\xff\xff\xff"
    return address[0] == 0xFF


class Router(Noting):
    """A site and its journal, which begins with the site's mappings or is of those entries."""

    def __init__(self, site, entries=None):
        super().__init__(site, entries)
        self.latest = None

    # Seconds.

    def until(self, moment):
        """Plays the whole seconds behind the frame before, up to a frame's moment: what is sent, and when."""
        return [sent for packets in self.seconds(moment) for sent in packets]

    def seconds(self, moment):
        """Plays these seconds one after another, and tells of each what is sent; it passes over idle ones."""
        second = None if self.latest is None else self.latest // SECOND + 1
        self.latest = moment
        while second is not None and second * SECOND <= moment:
            packets = self.ticked(second * SECOND)
            yield [(second * SECOND, packet) for packet in packets]
            second = second + 1 if packets else self.next_second(second)

    def next_second(self, second):
        """Behind a second in which nothing was sent: the first one in which something may be to be done, or None."""
        found = [self.journal.next_second(second), *(change.at for change in self.waiting())]
        return min((at for at in found if at is not None), default=None)

    def ticked(self, moment):
        """What is sent at a whole second: what changes of the site make, due requests once more, and probes."""
        sent = self.told_all(moment) if self.changed(moment) else []
        if self.site.reaches_resolver():
            sent += self.sent_again(moment)
        return sent + self.probed(moment) if self.site.probe else sent

    def waiting(self):
        """The changes of the settings that are still to come, in order."""
        return self.as_set.changes[len(self.journal.changes()):]

    def changed(self, moment):
        """Makes the changes up to a moment, and tells whether there is one."""
        due = [change for change in self.waiting() if change.at * SECOND <= moment]
        self.journal += [Changed(moment, change.address, change.up) for change in due]
        self.stand()
        return bool(due)

    def told_all(self, moment):
        """Solicitations to the first locators, in order of address, that can be reached; for each prefix of the site."""
        told = sorted(self.named(moment), key=by_address)[:MOST_TOLD]
        return self.all_solicited(moment, [(address, eid) for address in told for eid in self.site.databases])

    def sent_again(self, moment):
        sent = []
        for asked in self.journal.due(moment):
            self.journal.append(Retried(moment, asked.nonce))
            sent.append(request_packet(self.site, asked))
        return sent

    def probed(self, moment):
        """Probes of the locators that were never probed, or not for longest, by address where that is alike."""
        last, named, sent = self.journal.last_probes(moment), self.named(moment), []
        waiting = [address for address in named
                   if address not in last or self.journal.now(moment) - last[address] >= PROBE_AGAIN]
        waiting.sort(key=lambda address: (address in last, last.get(address), by_address(address)))
        waiting = waiting[:MOST_AT_ONCE]
        for address, nonce in zip(waiting, self.nonces(len(waiting))):
            self.journal.append(Probed(moment, address, nonce))
            sent.append(probe_packet(self.site, address, nonce, named[address]))
        return sent

    def named(self, moment):
        """The locators that can be reached, and for each the least EID whose mapping names it for packets."""
        named = {}
        for eid, entry in sorted(self.journal.live(moment).items()):
            for locator in entry.mapping.locators:
                if locator.address not in named and locator.priority != 255 and self.is_reached(locator.address):
                    named[locator.address] = eid
        return named

    def is_reached(self, address):
        return not self.site.is_own(address) and self.site.ours(len(address)) is not None

    # Frames.

    def is_control(self, link, frame):
        """Whether a frame is a control message to the router, well-formed or not: no journal changes that."""
        try:
            _, place, octets = link_payload(link, frame)
            packet = Packet(octets, place)
            if self.site.is_own(packet.source) or not self.site.is_own(packet.dest):
                return False
            if packet.fragment or packet.protocol != 17:
                return False
            source, dest, _, _ = packet.udp()
        except Refused:
            return False
        return dest != 4341 and 4342 in (source, dest)

    def take(self, moment, link, frame):
        """The verdict of a frame, and the packets that are sent for it: its own, then those of what is noticed."""
        verdict, packets, notices = self.judged(moment, link, frame)
        return verdict, packets + [sent for notice in notices for sent in self.note(moment, notice)]

    def judged(self, moment, link, frame):
        """The verdict of a frame, its packets, and what is noticed."""
        try:
            vlan, place, octets = link_payload(link, frame)
            packet = Packet(octets, place)
            if self.site.is_own(packet.source):
                return "own", [], []
            if self.site.is_own(packet.dest):
                return self.arrived(moment, packet)
            if vlan not in self.site.attachments:
                return "drop 10 no-attachment", [], []
            return self.departed(moment, self.site.attachments[vlan], packet)
        except Refused as refused:
            return f"drop 1 refused {refused}", [], []

    # Packets out of tunnels.

    def arrived(self, moment, packet):
        if packet.fragment:
            return "drop 3 fragment", [], []
        if packet.protocol != 17:
            return "drop 2 not-tunnel", [], []
        source, dest, checksum, datagram = packet.udp()
        if dest == 4341:
            packet.check(checksum, datagram, True)
            return self.opened(moment, packet, datagram[8:], packet.base + packet.at + 8)
        if 4342 not in (source, dest):
            return "drop 2 not-tunnel", [], []
        packet.check(checksum, datagram, False)
        return *self.heard(moment, packet, source, message_of(datagram[8:], packet.base + packet.at + 8)), []

    def opened(self, moment, packet, payload, place):
        need(len(payload) >= 8, "lisp", place, "short")
        if payload[0] & 3:
            return "drop 4 encrypted", [], []
        inner, header = Packet(payload[8:], place + 8), header_of(payload)
        home = self.site.home(Eid.host(header.iid, inner.dest))
        if home is None:
            return "drop 5 not-ours", [], []
        if is_ahead(header.dest_version, self.site.versions[home]):
            return "drop 6 dest-version-newer", [], []
        known = self.journal.in_force(moment, Eid.host(header.iid, inner.source))
        if known and is_ahead(known.mapping.version, header.source_version):
            return "drop 7 source-version-older", [], []
        ecn = ECN.get((inner.tos & 3, packet.tos & 3))
        if ecn is None:
            return "drop 8 congestion-mark", [], []
        ttl = min(inner.ttl, packet.ttl)
        if ttl <= 1:
            return "drop 9 ttl-expired", [], []
        notices = list(of_delivered(self.site, header, home, known, packet.source))
        return f"delivered {header.iid}", [inner.marked(packet.tos & 0xFC | ecn, ttl - 1)], notices

    # Packets of the site.

    def departed(self, moment, iid, packet):
        if is_group(packet.dest):
            return "drop 11 multicast", [], []
        if self.site.has_home(iid, packet.dest):
            return "local", [], []
        home = self.site.home(Eid.host(iid, packet.source))
        if home is None:
            return "drop 12 not-site", [], []
        eid = Eid.host(iid, packet.dest)
        entry = self.journal.in_force(moment, eid)
        if entry is None:
            return "drop 13 miss", [], [Ask(eid, packet.source)]
        if not entry.mapping.locators:
            return self.acted(entry.mapping.action, eid, packet)
        value = flow_hash(packet)
        locator = chosen(self.usable(moment, entry.mapping), value)
        if locator is None:
            return "drop 19 no-locator", [], []
        told = self.told_to(moment, locator.address, self.site.versions[home], entry.mapping.version)
        return self.tunnelled(moment, iid, packet, 0xC000 + value % 0x4000, locator.address, told)

    def acted(self, action, eid, packet):
        if action == 1 and packet.ttl <= 1:
            return "drop 9 ttl-expired", [], []
        if action == 1:
            return "native", [packet.marked(packet.tos, packet.ttl - 1)], []
        notices = [Ask(eid, packet.source)] if action == 2 else []
        return "drop " + ACTIONS.get(action, "16 drop-no-reason"), [], notices

    def usable(self, moment, mapping):
        """The locators of a live mapping that packets can be sent to."""
        down = self.journal.down(moment) | self.journal.deaf(moment)
        return [
            locator for locator, up in zip(mapping.locators, self.journal.status(mapping.eid))
            if up and locator.priority != 255 and self.is_reached(locator.address) and locator.address not in down]

    def told_to(self, moment, to, source_version, dest_version):
        """Flags and a field of a header: the echo that is wanted, else one that is asked for, else versions."""
        wanted, echo = self.journal.wanted(moment, to), self.journal.echo_on(moment, to)
        if wanted is not None:
            return NONCE, wanted
        if echo:
            return NONCE | ECHO, echo.start.nonce
        field = source_version << 12 | dest_version
        return VERSIONS if field else 0, field

    def tunnelled(self, moment, iid, packet, port, to, told):
        if packet.ttl <= 1:
            return "drop 9 ttl-expired", [], []
        if (20 if len(to) == 4 else 40) + 16 + len(packet.octets) > 1500:
            return "drop 20 too-big", [], []
        ours = self.site.ours(len(to))
        sent = wrapped(self.site, iid, packet, port, ours, to, told)
        is_due = self.site.echo and self.journal.may_start(moment, to)
        return f"encapsulated {text_of(ours)} {text_of(to)} {port}", [sent], [EchoDue(to)] * is_due

    # Control messages.

    def heard(self, moment, packet, port, found):
        inner_port, message, _ = found
        if not isinstance(message, Request):
            if inner_port is not None:
                return "drop 25 unexpected", []
            if message.probe:
                return self.probe_answered(moment, packet.source, message.nonce), []
            return self.replied(moment, message), []
        if inner_port is not None:
            port, message = inner_port, message._replace(probe=False)
        if message.solicit and not message.probe:
            return self.asked_again(moment, message)
        return self.answered(message, packet.dest, port)

    def asked_again(self, moment, request):
        """Asks again for what was learned of the EIDs of a solicitation, that of its source first."""
        sent = []
        for eid in [*filter(None, [request.source]), *request.eids]:
            entry = self.journal.in_force(moment, eid)
            if entry and not entry.fixed:
                sent += self.asked(moment, entry.mapping.eid, invoked=True)
        return f"control solicit asked={len(sent)}", sent

    def answered(self, request, dest, port):
        homes = set(map(self.site.home, request.eids)) - {None}
        eids = [own for own in self.site.databases if any(home.covers(own) for home in homes)]
        if not eids:
            return "drop 5 not-ours", []
        path = self.reply_path(request, dest)
        if path is None:
            return "drop 24 no-reply-path", []
        return f"control request answered={len(eids)}", [reply_packet(self.site, request, eids, path, port)]

    def reply_path(self, request, dest):
        """Where a reply comes from and goes to: for a probe from where the probe went; or None."""
        for to in request.replies_to:
            ours = dest if request.probe else self.site.ours(len(to))
            if ours and len(ours) == len(to):
                return ours, to
        return None

    def probe_answered(self, moment, source, nonce):
        probe = self.journal.open_probe(moment, nonce)
        if probe is None:
            return "drop 21 unsolicited"
        if source != probe.address:
            return "drop 23 foreign"
        self.journal.append(ProbeAnswered(moment, nonce))
        return "control probe-reply"

    def replied(self, moment, reply):
        request = self.journal.open_requests(moment).get(reply.nonce)
        if request is None:
            return "drop 21 unsolicited"
        covering = [record.eid for record in reply.records if record.eid.covers(request.eid)]
        if not covering:
            return "drop 22 unfit"
        self.journal.append(Answered(moment, reply.nonce))
        return self.learned(moment, covering, reply.records)

    def learned(self, moment, covering, records):
        taken = 0
        for record in records:
            if self.may_learn(moment, covering, record):
                kept = record._replace(locators=record.locators[:32])
                self.journal.append(Learned(moment, kept, False))
                taken += 1
        return f"control reply learned={taken} passed={len(records) - taken}"

    def may_learn(self, moment, covering, record):
        """Whether a record lies within one that covers what was asked for, none is fixed, and its instance has room."""
        within = any(eid.covers(record.eid) for eid in covering)
        limit = self.site.limit(record.eid.iid)
        return within and record.eid not in self.site.static and self.journal.may_learn(moment, record, limit)

#!/usr/bin/env python3
"""A plain router, written from the standards and docs/BEHAVIOUR.md, beside the proved program.

usage: plain.py replay SETTINGS CAPTURE OUTPUT [FORMAT [INTERFACES [SPLIT]]] | plain.py show CAPTURE
FORMAT, INTERFACES and SPLIT are the values of --format, --interfaces and --split. It prints the report, for a replay
with lawful settings and a capture with a lawful header writes the output (of a pcapng file no block is judged before
that), and ends with the status of such a run. What is TOML is judged by Python's reader of it (TOML 1.0).
"""
import contextlib
import io
import sys

import settings as rules
from captures import CaptureFault, frames_of, output_header, output_record
from captures_ng import reader_of
from commands import SPLITS, format_of
from journal import SECOND
from messages import Request, message_of
from router import Router
from sites import Site
from splitting import split_all
from wire import Packet, Refused, link_payload, need


def turns(router, frames):
    """Plays frames: of each its moment, the journal's length, its verdict, and the packets until then and for it."""
    for moment, link, frame in frames:
        sent = router.until(moment)
        known = len(router.journal)
        verdict, packets = router.take(moment, link, frame)
        yield moment, known, verdict, [*sent, *((moment, packet) for packet in packets)]


def played(router, frames, file):
    """Says a line for each frame and one at the end, and writes what is sent."""
    count = written = 0
    for moment, known, verdict, sent in turns(router, frames):
        count += 1
        print(frame_line(count, moment, known, verdict))
        for at, packet in sent:
            written += 1
            file.write(output_record(at, packet))
    print(last_line(count, written, router))


def frame_line(number, moment, known, verdict):
    return f"{number} {moment // SECOND}.{moment % SECOND:09} n={known} {verdict}"


def last_line(count, written, router):
    return f"end frames={count} written={written} entries={len(router.journal)}"


def replay(settings, capture, output, play=played, read=frames_of, split=False):
    """Replays a capture, by a call that reads its frames and one that plays them through a router, or their halves."""
    try:
        with open(settings, "rb") as file:
            router = Router(Site(file.read()))
        frames = read(capture)
        with open(output, "wb") as file:
            file.write(output_header())
            play(router, split_all(router.site, frames) if split else frames, file)
    except rules.Fault as fault:
        print(f"settings {fault}")
        return 2
    except CaptureFault as fault:
        print(f"capture {fault}")
        return 3
    return 0


# Messages.


def message_lines(octets, base):
    inner_port, message, left = message_of(octets, base)
    word = "" if inner_port is None else "ecm "
    if isinstance(message, Request):
        word += f"request nonce={message.nonce:016x} p={message.probe:d} s={message.solicit:d}"
        lines = [f" eid {eid}\n" for eid in message.eids]
    else:
        word += f"reply nonce={message.nonce:016x} p={message.probe:d}"
        lines = [
            f" record {record.eid} ttl={record.ttl} action={record.action} version={record.version}"
            f" locators={len(record.locators)}\n" for record in message.records]
    return f"{word} records={len(lines)} left={left}\n" + "".join(lines)


def shown(link, frame):
    try:
        _, place, octets = link_payload(link, frame)
        packet = Packet(octets, place)
        if packet.protocol != 17 or packet.fragment:
            return "other\n"
        source, dest, checksum, datagram = packet.udp()
        payload, base = datagram[8:], place + packet.at + 8
        if dest == 4341:
            packet.check(checksum, datagram, True)
            need(len(payload) >= 8, "lisp", base, "short")
            return f"data header={payload[:8].hex()} left={len(payload) - 8}\n"
        if 4342 not in (source, dest):
            return "other\n"
        packet.check(checksum, datagram, False)
        return message_lines(payload, base)
    except Refused as refused:
        return f"refused {refused}\n"


def show(capture):
    count = 0
    try:
        for _, link, frame in frames_of(capture):
            count += 1
            print(f"{count} {shown(link, frame)}", end="")
    except CaptureFault as fault:
        print(f"capture {fault}")
        return 3
    print(f"end frames={count}")
    return 0


# What a call ends with.


def ended(call, *words):
    """What a call answers, and what it prints."""
    report = io.StringIO()
    with contextlib.redirect_stdout(report):
        status = call(*words)
    return status, report.getvalue()


def said(call, *words):
    return ended(call, *words)[1]


def replayed(settings, capture, output, word="classic", interfaces="none", split="off"):
    return replay(settings, capture, output, read=reader_of(format_of(word, interfaces)), split=SPLITS[split])


if __name__ == "__main__":
    sys.exit({"replay": replayed, "show": show}[sys.argv[1]](*sys.argv[2:]))

"""The entries of the journal, each as a sentence."""
from journal import (Answered, Asked, Bits, Changed, DataFrom, EchoHeard, EchoStarted, EchoWanted, Learned, ProbeAnswered,
                     Probed, Retried, Solicited)

from explaining.mappings import ACTIONS, UNTOLD
from explaining.texts import address, placed


def learned(entry):
    mapping = entry.mapping
    lasts = ", static" if entry.fixed else f", TTL {'left open' if mapping.ttl == UNTOLD else f'{mapping.ttl:,} min'}"
    if not entry.fixed and mapping.ttl == 0:
        lasts = ", TTL 0: the mapping is taken away"
    version = f", Map-Version {mapping.version}" if mapping.version else ""
    locators = [f"{address(one.address)} priority {one.priority} weight {one.weight}{'' if one.reachable else ' down'}"
                for one in mapping.locators]
    named = ", ".join(locators) or f"ACT {mapping.action} ({ACTIONS[mapping.action]})"
    return f"Learned {placed(mapping.eid)}{lasts}{version}: {named}"


def asked(entry):
    source = f" for a packet of {address(entry.source)}" if entry.source else ""
    return f"Asked for {placed(entry.eid)}{source}, nonce {entry.nonce:016x}{', for an SMR' if entry.invoked else ''}"


def bits(entry):
    return f"Bits of {placed(entry.eid)}: Locator-Status-Bits {entry.bits:0{entry.width // 4}x}"


TEXTS = {
    Learned: learned,
    Asked: asked,
    Retried: lambda entry: f"Retried the Map-Request with nonce {entry.nonce:016x}",
    Answered: lambda entry: f"Answered the Map-Request with nonce {entry.nonce:016x}",
    Probed: lambda entry: f"Probed {address(entry.address)}, nonce {entry.nonce:016x}",
    ProbeAnswered: lambda entry: f"ProbeAnswered, nonce {entry.nonce:016x}",
    Bits: bits,
    EchoStarted: lambda entry: f"EchoStarted: {address(entry.address)} is asked to echo {entry.nonce:06x}",
    EchoHeard: lambda entry: f"EchoHeard from {address(entry.address)}",
    DataFrom: lambda entry: f"DataFrom {address(entry.address)}, without the echo that it is asked for",
    EchoWanted: lambda entry: f"EchoWanted: {address(entry.address)} wants to see {entry.nonce:06x}",
    Solicited: lambda entry: f"Solicited {address(entry.address)} for {placed(entry.eid)}, nonce {entry.nonce:016x}",
    Changed: lambda entry: f"Changed: the own locator {address(entry.address)} is {'up' if entry.up else 'down'}",
}


def entry_text(entry):
    return TEXTS[type(entry)](entry)


def eid_of(entry, asked):
    """The EID that an entry is of, or None; what is noted of a request is of that one's, by its nonce."""
    if isinstance(entry, Learned):
        return entry.mapping.eid
    if isinstance(entry, (Retried, Answered)):
        return asked[entry.nonce]
    return entry.eid if hasattr(entry, "eid") else None


def with_eids(entries):
    """Entries, each with its EID."""
    asked = {}
    for entry in entries:
        if isinstance(entry, Asked):
            asked[entry.nonce] = entry.eid
        yield entry, eid_of(entry, asked)

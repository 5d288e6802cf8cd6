#!/usr/bin/env python3
"""Has the judge of rounds.py judge what lawful routers say and write, and what others do: those it must refuse.

usage: rounds_spoiled.py [ROUNDS [SEED]]
Lawful are the worked ends, and routers that take the first or the last number for each data packet, any, or the one at
hand as frame comes after frame. The others have numbers that are none, decide by a number and say another, or keep one
rule of rounds in a wrong way; or their report or output is changed in one place. Frames are worked ones, and each round
makes settings and a capture from a number. It prints how many ends of each kind were judged, behind those that were
judged wrongly, and ends with status 1 where one was, or where a kind never came.
"""
import collections
import os
import random
import re
import sys
import tempfile

import plain
import rounds
import worked_rounds
from captures import frames_of, output_header, output_record
from compare import capture, frames, write
from limits import PACKETS, TEXTS, change, shared, to
from makers import settings
from row_runs import SECOND, capture_of, octets_of
from rounds import Round, Stepwise
from wire import existing
from wrong_rounds import KINDS

# Frames of a round, so that of 300 frames each round is full.
SIZES = [2, 3, 4, 6, 10, 20, 60]
MAPPING = """
[[mapping]]
iid = 100
prefix = "10.2.0.9/32"
[[mapping.locator]]
address = "198.51.100.7"
"""
LINE = re.compile(r"(\d+) ([\d.]+) n=(\d+) (.*)")


class Case:
    """Settings, a capture and a size of rounds."""

    def __init__(self, folder, size):
        self.size = size
        self.settings, self.capture, self.output = (os.path.join(folder, name) for name in ("settings", "in", "out"))

    def ended(self, call, *how):
        if os.path.exists(self.output):
            os.remove(self.output)
        return *plain.ended(call, self.settings, self.capture, self.output, *how), existing(self.output)

    def end(self, choose, kind=Round):
        return self.ended(rounds.replay, self.size, choose, kind)

    def fault(self, end):
        return rounds.fault(self.settings, self.capture, self.size, end)


def made(folder, size, text, frames):
    """A case of frames with their moments in milliseconds."""
    case = Case(folder, size)
    write(case.settings, text)
    with open(case.capture, "wb") as file:
        file.write(capture_of([(at * SECOND // 1000, octets) for at, octets in frames]))
    return case


def worked(folder):
    return made(folder, worked_rounds.SIZE, worked_rounds.SETTINGS, worked_rounds.FRAMES)


def alike(folder):
    return made(folder, worked_rounds.ALIKE_SIZE, worked_rounds.SETTINGS, worked_rounds.ALIKE_FRAMES)


def sent_again(folder):
    """Two rounds of misses, and a third in which at 3 s and 5 s all their requests are sent again, amid packets."""
    misses = [(at, to(bytes([10, 2, 0, i]))) for i, at in enumerate([900, 950, 1100, 1200, 1210, 1220, 1230, 1240])]
    behind = [(at, shared("packet")) for at in (1500, 2500, 4200, 5300)]
    return made(folder, 4, TEXTS["tenant"] + MAPPING, misses + behind)


def ended_before(folder):
    """Rounds of two, and in the last a mapping that ends between a packet and the second before the next one."""
    packet, other = shared("packet"), to(bytes([10, 3, 0, 9]))
    minute = octets_of({"like": "reply", "change": [[26, "3911"], [43, "01"]]}, PACKETS)
    return made(folder, 2, TEXTS["tenant"], [
        (0, packet), (50, packet), (100, minute), (100, minute), (59_900, other), (59_950, other), (60_050, packet),
        (61_200, packet)])


def uplink(folder):
    """Rounds of four; in the first two an own locator goes down, and comes up, between packets."""
    packet, other = shared("packet"), to(bytes([10, 3, 0, 9]))
    text = TEXTS["tenant"] + "version = 5\n" + MAPPING + '[[locator]]\naddress = "192.0.2.2"\n' + "".join(
        change(second, 1, up) for second, up in ((1, False), (3, True)))
    return made(folder, 4, text, [
        (0, packet), (900, other), (1000, packet), (1100, other), (2000, packet), (2900, packet), (3000, packet), (3100, packet)])


def from_number(folder, r):
    case, text = Case(folder, r.choice(SIZES)), settings(r)
    write(case.settings, text)
    capture(r, text, case.capture, lambda *parts: frames(*parts, case.size))
    return case


# Lawful ends.


def stepwise(case):
    size = case.size
    return case.ended(plain.replay, lambda router, *parts: plain.played(Stepwise(router.as_set, size), *parts))


def lawful(case, r):
    yield "lawful: first numbers", case.end(rounds.first)
    yield "lawful: last numbers", case.end(rounds.last)
    yield "lawful: any numbers", case.end(rounds.at_random(r))
    if sum(1 for _ in frames_of(case.capture)) % case.size == 0:
        yield "lawful: frame after frame", stepwise(case)


# Wrong routers.


def wrong_routers(case, choose):
    for kind in KINDS:
        yield kind.__doc__, case.end(choose, kind)


def of_other_sizes(case, r):
    """For frames of which each round asks for something."""
    for size in case.size - 1, case.size + 1:
        yield "rounds of another size", case.ended(rounds.replay, size, rounds.at_random(r))


# Wrong numbers.


def ends_of(case, choose):
    """The ends that the data packets have to choose from, by their frames."""
    found = {}

    def noted(number, ends):
        found[number] = ends
        return choose(number, ends)
    case.end(noted)
    return found


def between(ends):
    """Numbers within a batch."""
    return sorted(set(range(ends[0], ends[-1])) - set(ends))


def with_number(case, choose, number, n):
    """The end where one frame is decided by n entries, whatever its ends are."""
    return case.end(lambda frame, ends: n if frame == number else choose(frame, ends))


def renumbered(report, number, n):
    lines = report.split("\n")
    lines[number - 1] = re.sub(r"n=\d+", f"n={n}", lines[number - 1])
    return "\n".join(lines)


def wrong_numbers(case, choose, right, r):
    ends = ends_of(case, choose)
    torn = [number for number in ends if between(ends[number])]
    for number in r.sample(torn, min(3, len(torn))):
        yield "a number within a batch", with_number(case, choose, number, r.choice(between(ends[number])))
    begun = [number for number in ends if ends[number][0] > 0]
    for number in r.sample(begun, min(2, len(begun))):
        yield "a number before the round's first", with_number(case, choose, number, ends[number][0] - 1)
    free = [number for number in ends if len(set(ends[number])) > 1]
    for number in r.sample(free, min(5, len(free))):
        n = choose(number, ends[number])
        status, report, output = with_number(
            case, choose, number, r.choice([end for end in ends[number] if end != n]))
        yield "another number than decided by", (status, renumbered(report, number, n), output)
    for number in r.sample(sorted(ends), min(2, len(ends))):
        yield "a number past the round's last", (
            right[0], renumbered(right[1], number, ends[number][-1] + 1), right[2])


# Changed reports and outputs.


def changed_reports(report, r):
    lines = report.split("\n")
    at = r.randrange(len(lines) - 2)
    number, moment, n, verdict = LINE.fullmatch(lines[at]).groups()
    other = "drop 12 not-site" if verdict == "drop 13 miss" else "drop 13 miss"
    yield "a verdict", [*lines[:at], f"{number} {moment} n={n} {other}", *lines[at + 1:]]
    yield "a line left out", lines[:at] + lines[at + 1:]
    yield "a line twice", lines[:at + 1] + lines[at:]
    yield "two lines the other way round", [*lines[:at], lines[at + 1], lines[at], *lines[at + 2:]]
    yield "a count", [*lines[:-2], re.sub(r"\d+$", lambda count: str(int(count[0]) + 1), lines[-2]), ""]
    heard = [i for i, line in enumerate(lines) if " control " in line]
    if heard:
        at = r.choice(heard)
        n = int(LINE.fullmatch(lines[at])[3])
        yield "a message's number", [*lines[:at], re.sub(r"n=\d+", f"n={n + 1}", lines[at]), *lines[at + 1:]]


def packets_of(output):
    at = 24
    while at < len(output):
        second, nanosecond, size = (int.from_bytes(output[at + i:at + i + 4], "little") for i in (0, 4, 8))
        yield second * SECOND + nanosecond, output[at + 16:at + 16 + size]
        at += 16 + size


def changed_outputs(output, r):
    packets = list(packets_of(output))
    if not packets:
        return
    at = r.randrange(len(packets))
    (moment, octets), front, rest = packets[at], packets[:at], packets[at + 1:]
    yield "a packet left out", front + rest
    yield "a packet twice", [*front, packets[at], packets[at], *rest]
    yield "a packet at another moment", [*front, (moment + 1, octets), *rest]
    place = r.randrange(len(octets))
    yield "an octet", [*front, (moment, octets[:place] + bytes([octets[place] ^ 1]) + octets[place + 1:]), *rest]
    if rest and rest[0] != packets[at]:
        yield "a packet out of order", [*front, rest[0], packets[at], *rest[1:]]


def changed(right, r):
    status, report, output = right
    for kind, lines in changed_reports(report, r):
        yield kind, (status, "\n".join(lines), output)
    for kind, packets in changed_outputs(output, r):
        yield kind, (status, report, output_header() + b"".join(output_record(*packet) for packet in packets))
    yield "a status", (3, report, output)
    yield "no output", (status, report, None)


def spoiled(case, r):
    """Ends that are all of no lawful router, where they aren't the lawful one that they began with."""
    choose = rounds.at_random(r)
    right = case.end(choose)
    if right[0] != 0:
        return
    for kind, end in [*wrong_routers(case, choose), *wrong_numbers(case, choose, right, r), *changed(right, r)]:
        if end != right:
            yield kind, end


# All of it.


def judged(case, ends, name, counts):
    """Judges ends of a case, lawful and spoiled ones; tells how many were judged wrongly."""
    wrong = 0
    for kind, end in ends:
        found, is_lawful = case.fault(end), kind.startswith("lawful")
        counts[kind] += 1
        if bool(found) == is_lawful:
            print(f"WRONG   {name}, rounds of {case.size}: {kind}\n{found}", end="")
            wrong += 1
    return wrong


KINDS_TO_COME = [
    "lawful: worked", "lawful: first numbers", "lawful: last numbers", "lawful: any numbers",
    "lawful: frame after frame", *(kind.__doc__ for kind in KINDS), "rounds of another size", "a number within a batch",
    "a number before the round's first", "another number than decided by", "a number past the round's last",
    "a verdict", "a line left out", "a line twice", "two lines the other way round", "a count", "a message's number",
    "a packet left out", "a packet twice", "a packet at another moment", "an octet", "a packet out of order",
    "a status", "no output"]


def main():
    count = int(sys.argv[1]) if len(sys.argv) > 1 else 10
    seed = int(sys.argv[2]) if len(sys.argv) > 2 else 1
    counts, wrong = collections.Counter(), 0
    with tempfile.TemporaryDirectory() as folder:
        wrong += judged(worked(folder), [("lawful: worked", end) for end in worked_rounds.ends()], "worked", counts)
        wrong += judged(alike(folder), [("lawful: worked", end) for end in worked_rounds.alike_ends()], "alike", counts)
        for make in [worked, sent_again, ended_before, uplink] * 5:
            case, r = make(folder), random.Random(f"{seed} {sum(counts.values())}")
            ends = [*lawful(case, r), *spoiled(case, r), *of_other_sizes(case, r)]
            wrong += judged(case, ends, make.__name__, counts)
        for i in range(count):
            r = random.Random(f"{seed} {i}")
            case = from_number(folder, r)
            wrong += judged(case, [*lawful(case, r), *spoiled(case, r)], f"round {i} of seed {seed}", counts)
    for kind in counts | dict.fromkeys(KINDS_TO_COME, 0):
        print(f"{counts[kind]:6} {kind}" if counts[kind] else f" never {kind}")
    print(f"{sum(counts.values())} ends, {wrong} judged wrongly")
    sys.exit(wrong > 0 or not all(counts[kind] for kind in KINDS_TO_COME))


if __name__ == "__main__":
    main()

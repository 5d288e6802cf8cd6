#!/usr/bin/env python3
"""Replays a capture, and audits what was written, by turns; prints the best run of each, and how fast audits go beside.

usage: audit.py PROGRAM FOLDER FRAMES RUNS
The folder has settings.toml and capture.pcap. Of each way it prints frames a second, user and system time, the greatest
memory, and the last line; and of audits how many frames a second they have for one of the replay. Lifted nonces are
those of the router itself, which only settings without `echo` have.
"""
import os
import sys

from measured import last_line, measured, tell_best

REPLAY = "replay    "


def ways(program, folder):
    """The ways in which frames are gone through, each with its command."""
    files = "--settings", f"{folder}/settings.toml", "--in", f"{folder}/capture.pcap"
    yield REPLAY, [program, "replay", *files, "--out", f"{folder}/out.pcap"]
    yield "audit     ", [program, "audit", *files, "--sent", f"{folder}/out.pcap"]
    yield "and lifted", [program, "audit", *files, "--sent", f"{folder}/out.pcap", "--nonces", "sent"]


def main():
    program, folder, count, runs = os.path.abspath(sys.argv[1]), sys.argv[2], int(sys.argv[3]), int(sys.argv[4])
    found, said = {}, {}
    for _ in range(runs):
        for name, command in ways(program, folder):
            found.setdefault(name, []).append(measured(f"{folder}/report", command))
            said[name] = last_line(f"{folder}/report")
    tell_best(found, said, REPLAY, count)
    best = {name: min(run.took for run in took) for name, took in found.items()}
    for name in list(best)[1:]:
        print(f"  {name}: {best[REPLAY] / best[name]:.2f} frames for one of the replay")


main()

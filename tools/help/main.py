#!/usr/bin/env python3
"""Runs the program with words as if it ran alone, and helps a person on standard error.

usage: main.py PROGRAM WORDS..
Standard output is the program's own, and the status too, but for words that ask for help. Where no help can be given,
the program runs alone: Python is too old, standard error is closed, or there can be no second process.
"""
# What a run needs that goes well is imported here and in `run`, and all else where it is needed: a run is short.
import os
import sys

sys.path.insert(0, os.path.dirname(os.path.abspath(__file__)))
from signals import signal  # noqa: E402

HELP = "--help", "-h"


def run_alone(program, words):
    """Goes on as the program, with the signals that Python ignores as they were."""
    for number in (signal.SIGPIPE, signal.SIGXFSZ):
        signal.signal(number, signal.SIG_DFL)
    os.execv(program, [program] + words)


def words_to_run(words):
    """The words that the program gets: others where it would empty an output, and then refuse the capture."""
    if "ng" not in words:
        return words
    from formats import harmless
    return harmless(words)


def main():
    program, words = sys.argv[1], sys.argv[2:]
    if signal.getsignal(signal.SIGINT) == signal.default_int_handler:
        signal.signal(signal.SIGINT, signal.SIG_DFL)
    try:
        if any(word in HELP for word in words):
            from asking import answer
            answer(words)
        os.fstat(2)
        from run import end_as, followed, started
        given = words_to_run(words)
        pid = started(program, given)
    except Exception:
        run_alone(program, words)
    status = followed(pid, program, words, is_kept=given != words)
    end_as(status)


if __name__ == "__main__":
    main()

"""What a person is told when a run has ended."""
import os

from faults import is_audit, last_line, sentence
from files import reasons
from formats import format_sentence
from pairs import value_of
from places import place_texts
from text import TOP, shown, tell
from words import forms, words_fault

REFUSED = {"settings": "the settings are refused", "capture": "the capture is refused"}
USAGE, SETTINGS, CAPTURE, HOST, MEMORY, DIFFERS = range(1, 7)
# The words of captures that may be of another format than the one by which they are read.
FORMATS = "bad-magic", "cut-header", "cut-block"


def usage_lines(program, words):
    """What is wrong with the words, and the forms."""
    fault = words_fault(words)
    return ([fault] if fault else []) + forms(words, TOP)


def settings_lines(program, words):
    """The last line once more, a plain sentence, and the place."""
    line = last_line("settings", SETTINGS, program, words)
    if line is None:
        return [REFUSED["settings"] + "; the last line of the report says why"]
    return [shown(line), *sentences(line, words), *place_texts(line, value_of("--settings", words))]


def sentences(line, words):
    """What a last line means, in a list."""
    return [sentence(line, words) or "docs/REFERENCE.md says more, at Statuses"]


def capture_lines(program, words):
    """The last line once more, a plain sentence, which for another format says the words for it, and of an audit the
    file."""
    line = last_line("capture", CAPTURE, program, words)
    if line is None:
        other = format_sentence(value_of("--in", words), words)
        return [REFUSED["capture"] + "; the last line of the report says why", *([other] if other else [])]
    name = "--sent" if line.startswith("sent ") else "--in"
    path = value_of(name, words)
    other = format_sentence(path, words) if line.split(" ")[1] in FORMATS else None
    lines = [shown(line), *([other] if other else sentences(line, words))]
    return lines + ([f"that is the file of {name}, {shown(path)}"] if is_audit(words) else [])


def host_lines(program, words):
    """The files that can't be read or made, and why."""
    return reasons(words) or [
        "a read or a write failed while the program ran, though each named file can be read or made now: a disk that "
        "was full, or a pipe that was closed"]


def memory_lines(program, words):
    return ["the system gave no memory"]


def differs_lines(program, words):
    """That an audit found what isn't the same."""
    return [f"{shown(value_of('--sent', words))} doesn't have what this router sends; docs/GUIDE.md says how to look at "
            "the record that is named"]


LINES = {
    USAGE: usage_lines, SETTINGS: settings_lines, CAPTURE: capture_lines, HOST: host_lines, MEMORY: memory_lines,
    DIFFERS: differs_lines,
}


def tell_end(status, program, words, is_kept):
    """Tells why a run failed, where it did and that can be said; and that an output was kept."""
    lines = LINES.get(os.WEXITSTATUS(status)) if os.WIFEXITED(status) else None
    if lines is None:
        return
    kept = [f"--out {shown(value_of('--out', words))} stays as it was"] if is_kept else []
    tell(lines(program, words) + kept)

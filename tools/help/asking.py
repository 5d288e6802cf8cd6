"""The answer to one who asks for the words: their forms and options, on standard output."""
import os
import sys

from text import TOP
from words import FORMS, forms

HOST = 4
# What each option is, in the order of docs/REFERENCE.md; those of the formats and forms stand in the forms.
OPTIONS = {
    "--settings F": "the settings, in TOML: docs/REFERENCE.md",
    "--in F": "the capture; /dev/stdin for one that comes in a pipe",
    "--out F": "the file for the packets; one that is there is replaced",
    "--sent F": "a capture of what a router sent",
    "--format classic|ng": "classic for a pcap file, which it is without this word; ng for a pcapng file",
    "--interfaces none|vlan": "vlan, with --format ng: untagged frames of interface N are taken for frames of VLAN N",
    "--split on|off": "on: large IPv4 packets of the site are split in two",
    "--workers W": "0 to 16 threads that decide data packets; 0 without it",
    "--round N": "1 to 4,096 frames in a round; 256 without it",
    "--nonces settings|sent": "sent: nonces are those of the router's own Map-Requests in --sent",
}
STATUSES = [
    "0 read to the end, or the same", "1 wrong words", "2 settings refused", "3 capture refused",
    "4 a file or the report failed", "5 no memory", "6 an audit found something else",
]
OTHERS = [
    "  lispr [COMMAND] --help", "      says this",
    "  lispr --version", "      says the commit of the sources and the kit that built the program",
]


def option_lines(words):
    """The options of a command that is named, or all of them."""
    form = " ".join(FORMS[words[0]]) if words[0] in FORMS else None
    texts = {name: text for name, text in OPTIONS.items() if form is None or name.split(" ")[0] in form}
    width = max(map(len, texts), default=0)
    return ["options:", *(f"  {name:{width}}  {text}" for name, text in texts.items())] if texts else []


def help_lines(words):
    title, *lines, more = forms(words, TOP)
    others = [] if words[0] in FORMS else OTHERS
    statuses = ["statuses:", *(f"  {text}" for text in STATUSES)]
    return [title, *lines, *others, *option_lines(words), *statuses, more]


def answer(words):
    """Says help, and ends."""
    try:
        with open(1, "w", encoding="utf-8", errors="backslashreplace", closefd=False) as out:
            out.write("\n".join(help_lines(words)) + "\n")
    except OSError:
        os._exit(HOST)
    sys.exit(0)

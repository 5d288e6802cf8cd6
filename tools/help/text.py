"""Text for a person, on standard error."""
import os

TOP = os.path.dirname(os.path.dirname(os.path.dirname(os.path.abspath(__file__))))


def shown(word):
    """A word as it stands, or with escapes where a terminal wouldn't show it."""
    return word if word and word.isprintable() else ascii(word)


def say(text):
    """Says a text, if anybody hears it."""
    try:
        os.write(2, text.encode("utf-8", "backslashreplace"))
    except OSError:
        pass


def tell(lines):
    """Says lines, each with the script's name before it where it doesn't begin with a blank."""
    say("".join(line + "\n" if line.startswith(" ") else f"lispr: {line}\n" for line in lines))

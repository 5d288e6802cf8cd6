"""The files that words name."""
import os
import stat


def value_of(name, words):
    """The value behind an option's name."""
    for known, value in zip(words[1::2], words[2::2]):
        if known == name:
            return value
    return None


def is_file(path):
    """Whether a file is there that can be read more than once."""
    try:
        return stat.S_ISREG(os.stat(path).st_mode)
    except (OSError, TypeError, ValueError):
        return False

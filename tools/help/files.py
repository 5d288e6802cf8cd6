"""Why a run failed whose files, or whose report, can't be read or made."""
import os
import select
import stat

from pairs import value_of
from text import shown

REPORT = 1
READ, WRITE = (os.O_RDONLY, os.R_OK), (os.O_WRONLY, os.W_OK)


def open_again(path, way):
    """Opens a file and leaves it as it is; OSError is the system's refusal. A pipe or a device isn't opened."""
    flags, right = way
    mode = os.stat(path).st_mode
    if not (stat.S_ISFIFO(mode) or stat.S_ISCHR(mode) or stat.S_ISBLK(mode)):
        file = os.open(path, flags | os.O_NOCTTY | os.O_CLOEXEC)
        try:
            if right == os.R_OK:
                os.read(file, 1)
        finally:
            os.close(file)
    elif not os.access(path, right):
        raise PermissionError(13, os.strerror(13))


def make_again(path):
    """As above, of a file that is to be made; one that isn't there is made, and taken away at once."""
    try:
        open_again(path, WRITE)
    except FileNotFoundError:
        path = os.path.realpath(path) if os.path.islink(path) else path
        os.close(os.open(path, os.O_WRONLY | os.O_CREAT | os.O_EXCL | os.O_CLOEXEC))
        os.unlink(path)


def has_room(path):
    """Whether the disk of a file, or of its folder, has room."""
    place = os.statvfs(path if os.path.exists(path) else os.path.dirname(os.path.realpath(path)))
    return (place.f_bfree if os.geteuid() == 0 else place.f_bavail) > 0


def write_again(path):
    """Whether more could be written to a file that is made: its disk has room."""
    if os.path.isfile(path) and not has_room(path):
        raise OSError(28, os.strerror(28))


def report_again():
    """Whether more could be said."""
    mode = os.fstat(REPORT).st_mode
    if stat.S_ISREG(mode):
        write_again(f"/proc/self/fd/{REPORT}")
    if stat.S_ISFIFO(mode):
        asked = select.poll()
        asked.register(REPORT, select.POLLOUT)
        if any(events & select.POLLERR for _, events in asked.poll(0)):
            raise BrokenPipeError(32, os.strerror(32))


def refusal(what, ask, *given):
    """The system's reason where it refuses, in a list."""
    try:
        ask(*given)
        return []
    except (OSError, ValueError) as error:
        return [f"{what}: {getattr(error, 'strerror', None) or error}"]


def input_reasons(words):
    """Which of the files can't be read, and why."""
    found = []
    for name in ("--settings", "--in", "--sent"):
        path = value_of(name, words)
        if path is not None:
            found += refusal(f"{name} {shown(path)} can't be read", open_again, path, READ)
    return found


def output_reasons(path):
    """Why the output can't be made, or written."""
    return (refusal(f"--out {shown(path)} can't be made", make_again, path)
            or refusal(f"--out {shown(path)} can't be written", write_again, path))


def reasons(words):
    """What of the named files, and of the report, can't be read or made, and why; an output where all is read."""
    found, output = input_reasons(words), value_of("--out", words)
    if output is not None and not found:
        found = output_reasons(output)
    return found + refusal("the report can't be written", report_again)

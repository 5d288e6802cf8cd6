"""A run of the program: started, followed to its end, and ended as it ended. Signals go on to it."""
import os
import time

from signals import signal

# An older Python has none, and no help.
sigtimedwait = signal.sigtimedwait

FORWARDED = {
    signal.SIGHUP, signal.SIGINT, signal.SIGQUIT, signal.SIGABRT, signal.SIGUSR1, signal.SIGUSR2, signal.SIGALRM,
    signal.SIGTERM, signal.SIGTSTP, signal.SIGCONT,
}
ENDING = {signal.SIGHUP, signal.SIGINT, signal.SIGQUIT, signal.SIGTERM}
WAITED = FORWARDED | {signal.SIGCHLD}
# What Python ignores as it begins, and a program doesn't.
IGNORED = signal.SIGPIPE, signal.SIGXFSZ
DIE_WITH_PARENT = 1
REPORT = 1
# The statuses of runs that took no settings: usage, and settings that are refused.
UNREAD = 1, 2


def prctl_call():
    """The call `prctl` of the C library, or None where it can't be called. Python's module `ctypes` finds it too, and
    takes three times as long to come as the one below it."""
    try:
        import _ctypes
        place, call = _ctypes.dlsym(_ctypes.dlopen(None, 0), "prctl"), _ctypes.call_cdeclfunction
        return lambda *numbers: call(place, numbers)
    except Exception:
        return None


def become(program, words, mask, prctl):
    """Goes on as the program, which ends when its parent is killed."""
    try:
        if prctl is not None:
            prctl(DIE_WITH_PARENT, signal.SIGKILL, 0, 0, 0)
        for number in IGNORED:
            signal.signal(number, signal.SIG_DFL)
        signal.pthread_sigmask(signal.SIG_SETMASK, mask)
        os.execv(program, [program] + words)
    except OSError as error:
        os.write(2, f"lispr: {error}\n".encode())
    finally:
        os._exit(126)


def started(program, words):
    """The process of the program. From here on signals wait until they are asked for."""
    prctl = prctl_call()
    signal.signal(signal.SIGCHLD, signal.SIG_DFL)
    mask = signal.pthread_sigmask(signal.SIG_BLOCK, WAITED)
    try:
        pid = os.fork()
    except OSError:
        signal.pthread_sigmask(signal.SIG_SETMASK, mask)
        raise
    if pid == 0:
        become(program, words, mask, prctl)
    return pid


def stop_too(pid):
    """Stops as the program does that was told to, and lets it go on from there."""
    signal.pthread_sigmask(signal.SIG_UNBLOCK, {signal.SIGTSTP})
    os.kill(os.getpid(), signal.SIGTSTP)
    signal.pthread_sigmask(signal.SIG_BLOCK, {signal.SIGTSTP})
    os.kill(pid, signal.SIGCONT)


def hand_on(number, pid, watch):
    """Hands a signal on."""
    os.kill(pid, number)
    if number == signal.SIGTSTP:
        watch.clear()
        stop_too(pid)


def place_of_report():
    """Where the report begins in its file; 0 where that has no places."""
    try:
        return os.lseek(REPORT, 0, os.SEEK_CUR)
    except OSError:
        return 0


def search_of(words):
    """The search for warnings, while the program reads the settings too."""
    if words[:1] not in (["replay"], ["audit"]):
        return iter(())
    try:
        from remarks import search
        return search(words)
    except Exception:
        return iter(())


class Watch:
    """What a person is told while a run goes on, and when it has ended. Whatever fails of it, the run goes on."""

    def __init__(self, pid, program, words, is_kept):
        self.pid, self.program, self.words, self.is_kept = pid, program, words, is_kept
        self.begun, self.start = time.monotonic(), place_of_report()
        self.progress, self.search, self.warnings = None, search_of(words), []

    def seek(self):
        """Seeks warnings a piece further, and tells whether there is more to seek."""
        try:
            warning = next(self.search)
        except Exception:
            return False
        self.warnings += [warning] if warning else []
        return True

    def warn(self):
        """Says the warnings that are found, once."""
        if self.warnings:
            from text import tell
            tell(self.warnings)
            self.warnings = []

    def step(self):
        """Says how far the run is."""
        self.warn()
        try:
            if self.progress is None:
                from progress import Progress
                self.progress = Progress(self.pid, self.words, self.begun, self.start)
            self.progress.tell()
        except Exception:
            self.progress = None

    def clear(self):
        if self.progress is not None:
            self.progress.clear()

    def end(self, status):
        """Says the warnings, and why the run failed."""
        self.clear()
        if not os.WIFEXITED(status) or os.WEXITSTATUS(status) not in UNREAD:
            while self.seek():
                pass
            self.warn()
        if status == 0:
            return
        hear_again(status)
        try:
            from saying import tell_end
            tell_end(status, self.program, self.words, self.is_kept)
        except Exception:
            pass


def hear_again(status):
    """From here on a signal ends what is being told, and the run ends with its own status."""
    for number in ENDING:
        if signal.getsignal(number) != signal.SIG_IGN:
            signal.signal(number, lambda *_: end_as(status))
    signal.pthread_sigmask(signal.SIG_UNBLOCK, ENDING)


def followed(pid, program, words, is_kept):
    """The status with which the program ends; once a second it is told how far it is, and at the end why it failed."""
    watch, is_seeking = Watch(pid, program, words, is_kept), True
    while True:
        is_seeking = is_seeking and watch.seek()
        came = sigtimedwait(WAITED, 0 if is_seeking else 1)
        if came is None and not is_seeking:
            watch.step()
        elif came is not None and came.si_signo != signal.SIGCHLD:
            hand_on(came.si_signo, pid, watch)
        ended, status = os.waitpid(pid, os.WNOHANG)
        if ended:
            watch.end(status)
            return status


def end_as(status):
    """Ends with that status, or by the same signal, and without a second image of memory."""
    if os.WIFEXITED(status):
        os._exit(os.WEXITSTATUS(status))
    number = os.WTERMSIG(status)
    try:
        import resource
        resource.setrlimit(resource.RLIMIT_CORE, (0, 0))
        if number != signal.SIGKILL:
            signal.signal(number, signal.SIG_DFL)
        signal.pthread_sigmask(signal.SIG_UNBLOCK, {number})
        os.kill(os.getpid(), number)
    finally:
        os._exit(128 + number)

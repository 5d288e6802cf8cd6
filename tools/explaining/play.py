"""The plain router over the frames and seconds that changed the journal, held against the proved program's lines."""
from typing import NamedTuple

from captures import CaptureFault
from journal import Asked, Probed, Retried, Solicited
from plain import frame_line
from router import Router

from explaining.capture import Frame
from explaining.kept import Kept
from explaining.report import End, Line
from explaining.texts import Differs, utc

SETTINGS, A_SECOND = 0, None
WRITING = "encapsulated ", "delivered ", "native", "control request "
SENT = Asked, Retried, Probed, Solicited


class Step(NamedTuple):
    """A frame and its line, and how long the journal was before the next one; None where that isn't known."""
    frame: Frame
    line: Line
    following: int

    def is_changing(self):
        return self.line.known != self.following


class Taken(NamedTuple):
    """What became of a frame: the packets that are sent for it, and the first of the journal's entries that it made."""
    verdict: str
    packets: list
    first: int


class Played(Router):
    """A plain router whose journal keeps what its scans find."""

    def __init__(self, site):
        super().__init__(site)
        self.journal = Kept(self.journal)

    def named(self, moment):
        return {address: eid for address, eid in self.journal.named(moment).items() if self.is_reached(address)}


class Play:
    """A router whose journal is brought to where a question stands."""

    def __init__(self, site):
        self.router = Played(site)
        self.origins = [SETTINGS] * len(self.journal)
        self.moment = self.latest = self.fault = None
        self.frames = self.written = self.taken_number = 0
        self.indexes = {}

    @property
    def journal(self):
        return self.router.journal

    @property
    def site(self):
        return self.router.site

    # Going on.

    def steps(self, frames, lines, wanted=None):
        """The frames with their lines; with a wanted frame only that one and those that changed the journal. The journal
        is as it was before each frame that changed it, and behind it where the next one is asked for; `work` brings it
        before any other one."""
        line = next(lines)
        for frame in self.until_fault(frames):
            if isinstance(line, End):
                raise Differs(f"proved {line.text}\nplain  there is a frame {frame.number}")
            following = next(lines)
            if self.moment is None:
                self.come_to(frame.moment)
            self.frames, self.latest = self.frames + 1, frame.moment
            self.written += line.verdict.startswith(WRITING)
            if wanted in (None, frame.number) or line.known != following.known:
                step = Step(frame, line, following.known)
                yield step
                self.settle(step)
            line = following
        self.close(line)

    def until_fault(self, frames):
        """The frames up to the capture's fault, which is kept."""
        try:
            yield from frames
        except CaptureFault as fault:
            self.fault = f"capture {fault}"

    def settle(self, step):
        """Takes a frame that changed the journal, unless it was taken."""
        if step.is_changing() and self.taken_number != step.frame.number:
            self.work(step)
            self.take(step)

    def work(self, step):
        """Brings the journal to before a frame."""
        self.come_to(step.frame.moment)
        self.need_known(step.line.known, f"before frame {step.frame.number}", step.line.text)

    def take(self, step):
        """Takes a frame, whose line must be the proved one."""
        first, moment = len(self.journal), step.frame.moment
        verdict, packets = self.router.take(moment, step.frame.link, step.frame.octets)
        self.note_origins(step.frame.number)
        self.taken_number = step.frame.number
        ours = frame_line(step.frame.number, moment, first, verdict)
        if ours != step.line.text:
            raise Differs(f"proved {step.line.text}\nplain  {ours}")
        return Taken(verdict, packets, first)

    def come_to(self, moment):
        """Plays the seconds up to a moment."""
        for _ in self.router.seconds(moment):
            pass
        self.moment = moment
        self.note_origins(A_SECOND)

    def note_origins(self, origin):
        self.origins += [origin] * (len(self.journal) - len(self.origins))

    def need_known(self, known, where, text):
        if known is not None and known != len(self.journal):
            raise Differs(f"proved {text}\nplain  n={len(self.journal)} {where}")

    def close(self, last):
        """Holds the last line against what was played."""
        if isinstance(last, Line) or last.text.split(" ")[0] != (self.fault or "end").split(" ")[0]:
            raise Differs(f"proved {last.text}\nplain  {self.fault or f'the capture ends behind frame {self.frames}'}")
        if self.fault not in (None, last.text):
            raise Differs(f"proved {last.text}\nplain  {self.fault}")
        if self.latest is not None:
            self.come_to(self.latest)
        self.need_known(last.known, "at the end", last.text)
        written = self.written + sum(len(self.journal.of(kind)) for kind in SENT)
        if last.written not in (None, written):
            raise Differs(f"proved {last.text}\nplain  written={written}")

    # Where entries come from.

    def made_by(self, index):
        """What made an entry."""
        origin = self.origins[index]
        moment = self.journal[index].moment
        if origin == SETTINGS:
            return "the settings"
        if origin is A_SECOND:
            return f"the second {utc(moment)}"
        return f"frame {origin} at {utc(moment)}"

    def index_of(self, entry):
        """Where an entry stands, by itself and not by what is in it."""
        for index in range(len(self.indexes), len(self.journal)):
            self.indexes[id(self.journal[index])] = index
        return self.indexes[id(entry)]

    def made_with(self, entry):
        """The entries behind one that the same frame made."""
        index = self.index_of(entry)
        end = index + 1
        while end < len(self.journal) and self.origins[end] == self.origins[index]:
            end += 1
        return self.journal[index + 1:end]

    def maker(self, entry):
        return self.made_by(self.index_of(entry))

    def fault_text(self):
        """That the capture has a fault, where it has one."""
        return f", up to its fault: {self.fault}" if self.fault else ""

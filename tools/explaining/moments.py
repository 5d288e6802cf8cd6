"""Where a question about the whole router stands: behind a frame, at a moment, or at the end."""
import re
from datetime import datetime, timezone
from typing import NamedTuple, Optional

from explaining.capture import frames_until, read
from explaining.texts import SECOND, Fault, utc

SECONDS = re.compile(r"(\d{1,10})\.(\d{0,9})")
CLOCK = re.compile(r"(?:(\d{4}-\d\d-\d\d)[T ])?(\d\d:\d\d(?::\d\d)?)(?:\.(\d{1,9}))?Z?")


class Place(NamedTuple):
    """How many of the capture's frames are played, and the frame or the moment at which it is asked; None for the end."""
    count: Optional[int] = None
    number: Optional[int] = None
    moment: Optional[int] = None

    def is_behind(self, frame):
        """Whether a frame lies behind the place."""
        if self.number is not None:
            return frame.number > self.number
        return self.moment is not None and frame.moment > self.moment


class Asking:
    """A question that is asked at a place, while frames behind it are still held against the proved program."""

    def __init__(self, place, answer, see=None):
        self.place, self.answer, self.see = place, answer, see
        self.last, self.lines = None, None

    def step(self, play, step):
        if not self.place.is_behind(step.frame):
            self.last = step.frame
            if self.see:
                self.see(play, step)
        elif self.lines is None:
            play.come_to(self.moment())
            self.lines = self.answer(play, self.last, self.moment())

    def moment(self):
        return max(self.place.moment or 0, self.last.moment)

    def answered(self, run):
        """The answer, once all is played."""
        play = run.played(self.place.count, self.step)
        number = self.place.number
        if self.last is None:
            raise Fault(f"the capture has no frame{play.fault_text()}")
        if number is not None and self.last.number < number:
            raise Fault(f"there is no frame {number}: the capture has {play.frames:,}{play.fault_text()}")
        return self.answer(play, self.last, self.moment()) if self.lines is None else self.lines


def fraction(digits):
    return int((digits or "").ljust(9, "0"))


def first_day(run):
    """The day of the first frame."""
    for moment, _, _ in read(run.octets, run.way):
        return utc(moment)[:10]
    raise Fault("the capture has no frame, so a time of day is of no day")


def moment_of(run, word):
    """The moment that a word names, in nanoseconds."""
    match = SECONDS.fullmatch(word)
    if match:
        return int(match[1]) * SECOND + fraction(match[2])
    match = CLOCK.fullmatch(word)
    if not match:
        raise Fault(f"--at is the number of a frame, seconds with a point as 1700000000.5, or a time in UTC as "
                    f"2023-11-14T22:13:20 or 22:13:20, and not {word}")
    clock = match[2] + ":00" * (len(match[2]) == 5)
    try:
        whole = datetime.fromisoformat(f"{match[1] or first_day(run)}T{clock}").replace(tzinfo=timezone.utc)
    except ValueError:
        raise Fault(f"--at {word} is no time of a day") from None
    return int(whole.timestamp()) * SECOND + fraction(match[3])


def place_of(run):
    """The place that --at names; with a moment one frame more is played, so that its `n=` tells of the seconds before."""
    word = run.words.at
    if word is None:
        return Place()
    if word.isdecimal():
        number = int(word)
        if number == 0:
            raise Fault("--at counts frames from 1")
        return Place(number, number)
    moment = moment_of(run, word)
    count = frames_until(run.octets, run.way, moment)
    if count == 0:
        raise Fault(f"--at {word} is before the first frame")
    return Place(count + 1, moment=moment)

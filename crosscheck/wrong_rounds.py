"""Routers with rounds that keep one rule of rounds in a wrong way, which their comment says."""
from journal import Journal
from rounds import Round, Told


class AtFrames(Round):
    """a notice's packet with its frame's moment"""

    def __init__(self, *parts):
        self.moments = []
        super().__init__(*parts)

    def decided(self, frame, known):
        told, notices = super().decided(frame, known)
        self.moments += [frame.moment] * len(notices)
        return told, notices

    def noted(self, noticed):
        return [(moment, packet) for moment, notice in zip(self.moments, noticed)
                for packet in self.router.note(self.last, notice)]


class Early(AtFrames):
    """notices noted at their frames' moments"""

    def noted(self, noticed):
        return [(self.last, packet) for moment, notice in zip(self.moments, noticed)
                for packet in self.router.note(moment, notice)]


class Reversed(Round):
    """notices in the other order"""

    def noted(self, noticed):
        return super().noted(noticed[::-1])


class Forgotten(Round):
    """the last notice isn't noted"""

    def noted(self, noticed):
        return super().noted(noticed[:-1])


class NoticesFirst(Round):
    """notices' packets before the others"""

    def all_told(self, choose):
        lines, packets = super().all_told(choose)
        return Told(lines, sorted(packets, key=lambda sent: sent not in self.notes))

    def noted(self, noticed):
        self.notes = super().noted(noticed)
        return self.notes


class SecondsLast(Round):
    """packets of seconds behind those of frames"""

    def all_told(self, choose):
        self.events.sort(key=lambda event: type(event) is Told and not event.lines)
        return super().all_told(choose)


class AtLast(Round):
    """packets decided at their round's last moment"""

    def decided(self, frame, known):
        _, notices = super().decided(frame, known)
        verdict, packets, _ = self.deciders[known].judged(self.last, *frame[2:])
        return self.told(frame, known, verdict, packets), notices


class Young(Journal):
    def now(self, moment):
        return moment


class ByMoment(Round):
    """packets decided at a moment before the last entry"""

    def decided(self, frame, known):
        super().decided(frame, known)
        self.deciders[known].journal = Young(self.deciders[known].journal)
        return super().decided(frame, known)


class AllChanges(Round):
    """packets decided by all changes of their round"""

    def decided(self, frame, known):
        super().decided(frame, known)
        self.deciders[known].site = self.router.site
        return super().decided(frame, known)


class OneAfterAnother(Round):
    """notices noted right after their frames"""

    def decided(self, frame, known):
        told, notices = super().decided(frame, known)
        sent = [(frame.moment, packet) for notice in notices for packet in self.router.note(frame.moment, notice)]
        return Told(told.lines, told.packets + sent), []


KINDS = [AtFrames, Early, Reversed, Forgotten, NoticesFirst, SecondsLast, AtLast, ByMoment, AllChanges, OneAfterAnother]

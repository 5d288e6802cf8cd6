"""The entries of the journal by number, with the frame or second that made each."""
from explaining.cache import picked
from explaining.entries import entry_text, with_eids


def lines(words, play, frame, moment):
    """The entries behind a frame; with a prefix or an instance those that are of EIDs which these pick."""
    is_picked, are_all = picked(words), words.prefix is None and words.iid is None
    last = min(words.last or len(play.journal), len(play.journal))
    return [f"{i}: {play.made_by(i - 1)}: {entry_text(entry)}"
            for i, (entry, eid) in enumerate(with_eids(play.journal), 1)
            if words.first <= i <= last and (are_all or eid and is_picked(eid))] or ["no entry"]

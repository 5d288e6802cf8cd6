"""A file that is read in big pieces, of which its parts are taken one after another."""

PIECE = 1 << 18


class Pieces:
    """What is left of a file: the piece that was read last, and the place in it of what is taken next."""

    def __init__(self, file):
        self.file, self.piece, self.at = file, b"", 0

    def take(self, size):
        """The next octets: so many, or fewer at the end of the file."""
        at, end = self.at, self.at + size
        if end > len(self.piece):
            left = self.piece[at:]
            self.piece = left + self.file.read(max(PIECE, size - len(left)))
            at, end = 0, size
        self.at = end
        return self.piece[at:end]

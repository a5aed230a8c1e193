"""Where an archive is cut into pieces.

A folder's tar stream is cut into runs of members by their names and sizes alone, so that whether a run is that of the backup before can be
known without a look into a file. A long file is a run of its own. It is cut within, as any stream is, at marks by what stands behind them,
so that soon behind a change the pieces are again those of the backup before.
"""
import zlib

PIECE = 1 << 20
# A run has the first size at least when another follows, and about the second at most; what is as long as the third is a run of its own.
LEAST, MOST, LONG = 64 << 10, 2 << 20, 512 << 10
# A member of N bytes begins a run with a chance of N in 1 MiB; the Nth of a folder with one of 128 in N at least, or of 1 in 8 if that is
# less, so that a change costs little in a small folder too.
SHARE, LIKELIEST = 128, 1 / 8
# How long a header is taken to be. (Its true length is not known without a look at the file.)
HEADER = 1024
# Within a stream a piece ends between these sizes.
NEAR, FAR = 768 << 10, 1280 << 10
# The first of which one is in reach is taken. Each is common in some kind of data.
MARKS = [b"\n", b"0"]
# So many marks are compared at most, for the time that it takes.
MARKS_COMPARED = 1024


def draw(name):
    """A number from 0 to 1 that looks as if drawn, and is always the same for a name."""
    return zlib.crc32(name) / (1 << 32)


class Runs:
    """Tells, member by member in the order of the stream, which one begins a run."""

    def __init__(self):
        self.members, self.held, self.alone = 0, 0, False

    def begins(self, name, size):
        self.members += 1
        after_long, self.alone = self.alone, size >= LONG
        begins = self.held > 0 and (after_long or self.alone or self.held + size > MOST or self.chosen(name, size))
        self.held = HEADER + size + (0 if begins else self.held)
        return begins

    def chosen(self, name, size):
        return self.held >= LEAST and draw(name) < max(size / PIECE, min(LIKELIEST, SHARE / self.members))


def mark_in(reach):
    """Where a piece ends within these bytes: before the mark behind which the bytes up to the next one have the greatest checksum."""
    for mark in MARKS:
        _, *parts = reach.split(mark, MARKS_COMPARED)
        if parts:
            sums = list(map(zlib.crc32, parts))
            follow = parts[sums.index(max(sums)) :]
            return len(reach) - sum(map(len, follow)) - len(mark) * len(follow)
    return len(reach)


class Pieces:
    """A stream to write to, which gives its pieces to a call. A piece ends between `near` and `far`, or where it is told to."""

    def __init__(self, take, near=NEAR, far=FAR):
        self.take, self.near, self.far, self.held = take, near, far, bytearray()

    def write(self, data):
        self.held += data
        while len(self.held) >= self.far:
            self.give(self.near + mark_in(self.front(self.near, self.far)))

    def front(self, start, end):
        with memoryview(self.held) as view:
            return bytes(view[start:end])

    def give(self, size):
        self.take(self.front(0, size))
        del self.held[:size]

    def end(self):
        if self.held:
            self.give(len(self.held))

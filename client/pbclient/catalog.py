"""The catalog of an archive: a line for each member, in the order of the stream.

It stands beside the archive in the snapshot, so that a member is found without the stream, and the next backup knows what has changed. A
line has, between tabs, the member's name, kind, mode, owner and group by numbers and names, the file's size, mtime and ctime in nanoseconds,
inode, how many bytes the member has in the stream with its header, and what a link leads to or a device's numbers. It tells lengths, not
places, so that the lines behind a change stay as they are.
"""
import re
from typing import NamedTuple

from . import tars
from .cut import Pieces
from .walk import TOP

FIRST = b"pbclient catalog 1\n"
ARCHIVE, CATALOG = ".tar.didx", ".list.didx"
# Pieces of a catalog end between these sizes.
NEAR, FAR = 96 << 10, 160 << 10
FIELDS = 13
ESCAPES = {b"\\": b"\\\\", b"\t": b"\\t", b"\n": b"\\n"}


class Entry(NamedTuple):
    """What a line says, and where its member stands in the stream."""

    name: bytes
    kind: bytes
    mode: int
    uid: int
    gid: int
    user: bytes
    group: bytes
    size: int
    mtime: int
    ctime: int
    inode: int
    length: int
    target: bytes
    offset: int

    @property
    def end(self):
        return self.offset + self.length


def spelled(text):
    """A name or a target without tabs and line feeds."""
    if b"\\" in text or b"\t" in text or b"\n" in text:
        return re.sub(rb"[\\\t\n]", lambda found: ESCAPES[found[0]], text)
    return text


def unspelled(text):
    if b"\\" in text:
        return re.sub(rb"\\(.)", lambda found: {b"t": b"\t", b"n": b"\n"}.get(found[1], found[1]), text)
    return text


def front_of(name, kind, status, owners):
    """The line of a member up to what the file system does not tell."""
    return b"%s\t%s\t%o\t%d\t%d\t%s\t%s\t%d\t%d\t%d\t%d" % (
        spelled(name), kind, status.st_mode & 0o7777, status.st_uid, status.st_gid, owners[0], owners[1], status.st_size,
        status.st_mtime_ns, status.st_ctime_ns, status.st_ino)


def untrusted(front):
    """The front of a file that could not be read whole: by its inode that of no file, so that the next backup reads it again."""
    return front.rpartition(b"\t")[0] + b"\t0"


def line_of(front, length, target):
    return b"%s\t%d\t%s\n" % (front, length, spelled(target) if target else b"")


def lines_in(text):
    """The lines of a catalog behind the first one, each with the place of its member in the stream."""
    if not text.startswith(FIRST):
        raise tars.Damaged("the catalog is of another kind")
    at, offset = len(FIRST), 0
    while (end := text.find(b"\n", at)) >= 0:
        line = text[at:end]
        yield line, offset
        offset += int(line.rsplit(b"\t", 2)[1])
        at = end + 1


def entries(text):
    """All entries of a catalog."""
    return (read_line(*it) for it in lines_in(text))


def below(text, path):
    """The entries of a path and of what it holds; of `.` all. (They stand one behind another.)"""
    if path == TOP:
        yield from entries(text)
        return
    same, front, met = spelled(path) + b"\t", spelled(path) + b"/", False
    for line, offset in lines_in(text):
        if line.startswith(front) or line.startswith(same):
            met = True
            yield read_line(line, offset)
        elif met:
            return


def read_line(line, offset):
    fields = line.split(b"\t")
    if len(fields) != FIELDS:
        raise tars.Damaged("a line of a catalog is none")
    name, kind, mode, uid, gid, user, group, size, mtime, ctime, inode, length, target = fields
    return Entry(
        unspelled(name), kind, int(mode, 8), int(uid), int(gid), user, group, int(size), int(mtime), int(ctime), int(inode), int(length),
        unspelled(target), offset)


def order_of(name):
    """What names are in the order of a stream by: a folder before what it holds, and that before all else."""
    return b"" if name == TOP else name.replace(b"/", b"\0")


class Past:
    """The catalog of the last backup, asked for names in the order of the stream."""

    def __init__(self, text):
        self.text, self.at, self.offset, self.count, self.met = text, 0, 0, text.count(b"\n"), 0
        if text:
            if not text.startswith(FIRST):
                raise tars.Damaged("the catalog is of another kind")
            self.at, self.count = len(FIRST), self.count - 1
        self.load()

    def load(self):
        """The line that comes next: what front_of gave, the member's length, its target, and its name."""
        end = self.text.find(b"\n", self.at)
        self.line = None
        if end >= 0:
            front, length, target = self.text[self.at : end].rsplit(b"\t", 2)
            self.line, self.length, self.target = front, int(length), target
            self.name = front[: front.index(b"\t")]
            self.next = end + 1

    def step(self):
        self.at, self.offset = self.next, self.offset + self.length
        self.load()

    def find(self, name):
        """Of the member of this name: its front, offset, length and target, as they stood then; None when it was not there."""
        wanted = spelled(name)
        if self.line is not None and self.name != wanted:
            order = order_of(name)
            while self.line is not None and order_of(unspelled(self.name)) < order:
                self.step()
        if self.line is None or self.name != wanted:
            return None
        found = self.line, self.offset, self.length, self.target
        self.met += 1
        self.step()
        return found


class Writer:
    """Writes a catalog, whose pieces go to a call."""

    def __init__(self, take):
        self.pieces, self.lines = Pieces(take, NEAR, FAR), [FIRST]

    def add(self, line):
        self.lines.append(line)
        if len(self.lines) >= 1024:
            self.flush()

    def flush(self):
        self.pieces.write(b"".join(self.lines))
        self.lines = []

    def end(self):
        self.flush()
        self.pieces.end()

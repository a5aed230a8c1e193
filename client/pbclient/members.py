"""A path's archive under way: its members, one behind another, and the catalog of them.

Members go in runs (see cut.py). Of a run whose members are all as the last backup's catalog has them, the pieces of the last backup are
named again, and no file of it is opened.
"""
import functools, grp, os, pwd, stat
from typing import NamedTuple

from . import catalog, tars
from .cut import Pieces, Runs
from .walk import LeftOut, opened

BLOCK, SMALL = 1 << 20, 64 << 10
# A file that was written within so many nanoseconds before a backup began, or later, may have been written again at the same time by its
# clock, which has steps. It is read again.
CLOCK_STEP = 10**8


class Planned(NamedTuple):
    """A member before it is read: its front in the catalog, and its line of the last backup, if there is one and it is unchanged."""

    found: tuple
    kind: bytes
    target: bytes
    front: bytes
    past: tuple


class Counts:
    """How many members are new, changed, unchanged; how many bytes of files were read."""

    def __init__(self):
        self.new = self.changed = self.unchanged = self.removed = self.read = 0


class PastIndex:
    """The pieces of the last backup's archive, by where they begin and end."""

    def __init__(self, ends=()):
        self.ends, self.digests = [0, *(end for end, _ in ends)], [digest for _, digest in ends]
        self.places = {end: place for place, end in enumerate(self.ends)}

    def between(self, start, end):
        """The pieces from one place to another, by digest and size; None if no piece begins or ends there."""
        first, last = self.places.get(start), self.places.get(end)
        if first is None or last is None:
            return None
        return [(self.digests[it], self.ends[it + 1] - self.ends[it]) for it in range(first, last)]


@functools.lru_cache(maxsize=None)
def user_name(number):
    try:
        return os.fsencode(pwd.getpwuid(number).pw_name)
    except KeyError:
        return b""


@functools.lru_cache(maxsize=None)
def group_name(number):
    try:
        return os.fsencode(grp.getgrgid(number).gr_name)
    except KeyError:
        return b""


def front_of(found, kind, status):
    return catalog.front_of(found.name, kind, status, (user_name(status.st_uid), group_name(status.st_gid)))


def member_of(found, kind, status, **more):
    """What a header says of what was found."""
    device = (os.major(status.st_rdev), os.minor(status.st_rdev)) if kind in (tars.CHARACTER, tars.DEVICE) else (0, 0)
    return tars.Member(
        found.name, kind, status.st_mode & 0o7777, status.st_uid, status.st_gid, user_name(status.st_uid), group_name(status.st_gid),
        mtime=status.st_mtime_ns, device=device, **more)


class Planner:
    """Says of what is found, in the order of the stream, which member it becomes."""

    def __init__(self, past, trusted_before, counts):
        self.past, self.trusted_before, self.counts, self.firsts = past, trusted_before, counts, {}

    def plan(self, found):
        kind, target, status = tars.KINDS[stat.S_IFMT(found.status.st_mode)], b"", found.status
        if status.st_nlink > 1 and kind != tars.FOLDER:
            first = self.firsts.setdefault((status.st_dev, status.st_ino), found.name)
            if first != found.name:
                kind, target = tars.HARD_LINK, first
        front, then = front_of(found, kind, status), self.past.find(found.name)
        if then is None:
            self.counts.new += 1
        elif then[0] == front and (kind != tars.HARD_LINK or then[3] == catalog.spelled(target)):
            self.counts.unchanged += 1
            return Planned(found, kind, target, front, then if status.st_ctime_ns < self.trusted_before else None)
        else:
            self.counts.changed += 1
        return Planned(found, kind, target, front, None)


class Members:
    """Writes an archive and its catalog through `sends`."""

    def __init__(self, sends, name, index, left_out, counts):
        self.sends, self.index, self.left_out, self.counts = sends, index, left_out, counts
        self.archive, self.list = sends.begin(name + catalog.ARCHIVE), sends.begin(name + catalog.CATALOG)
        self.pieces = Pieces(lambda piece: sends.put(self.archive, piece))
        self.catalog = catalog.Writer(lambda piece: sends.put(self.list, piece))
        self.runs, self.run, self.dropped = Runs(), [], set()

    def add(self, planned):
        size = planned.found.status.st_size if planned.kind == tars.FILE else 0
        if self.runs.begins(planned.found.name, size):
            self.end_run()
        self.run.append(planned)

    def end_run(self):
        pieces = self.unchanged_pieces()
        if pieces:
            self.sends.again(self.archive, pieces)
            for it in self.run:
                front, _, length, target = it.past
                self.catalog.add(b"%s\t%d\t%s\n" % (front, length, target))
        else:
            for it in self.run:
                self.put(it)
            self.pieces.end()
        self.run = []

    def unchanged_pieces(self):
        """The pieces that the run had in the last backup, if it is the same and they are all there."""
        if not self.run or not all(it.past for it in self.run):
            return None
        start = at = self.run[0].past[1]
        for it in self.run:
            if it.past[1] != at:
                return None
            at += it.past[2]
        pieces = self.index.between(start, at)
        return pieces if pieces and all(self.sends.is_there(digest) for digest, _ in pieces) else None

    def put(self, planned):
        """Reads a member and writes it."""
        if planned.kind == tars.HARD_LINK and planned.target in self.dropped:
            planned = Planned(planned.found, tars.FILE, b"", front_of(planned.found, tars.FILE, planned.found.status), None)
        found, kind, target = planned.found, planned.kind, planned.target
        try:
            if kind == tars.FILE:
                self.put_file(planned)
                return
            if kind == tars.LINK:
                target = os.readlink(found.path)
            xattrs = () if kind == tars.HARD_LINK else tars.xattrs_of(found.path)
        except OSError as error:
            self.drop(found, error)
        else:
            header = tars.header(member_of(found, kind, found.status, target=target, xattrs=xattrs))
            self.pieces.write(header)
            self.catalog.add(catalog.line_of(planned.front, len(header), target))

    def drop(self, found, error):
        self.dropped.add(found.name)
        if isinstance(error, FileNotFoundError):
            self.left_out.append(LeftOut(found.path, "vanished as it was read", wanted=False))
        else:
            self.left_out.append(LeftOut(found.path, error.strerror))

    def put_file(self, planned):
        found = planned.found
        file, status = opened(found)
        try:
            segments = tars.segments_of(file, status)
            parts = [(0, status.st_size)] if segments is None else segments
            stored = sum([length for _, length in parts])
            header = tars.header(member_of(
                found, tars.FILE, status, size=status.st_size, stored=stored, xattrs=tars.xattrs_of(file), segments=segments))
            padding = tars.padding(stored)
            whole = self.put_small(file, header, stored, padding) if segments is None and stored <= SMALL else False
            if not whole:
                self.pieces.write(header)
                whole = self.put_parts(found, file, parts)
                self.pieces.write(padding)
            after = os.fstat(file)
        finally:
            os.close(file)
        if whole and (after.st_mtime_ns, after.st_size) != (status.st_mtime_ns, status.st_size):
            self.left_out.append(LeftOut(found.path, "changed as it was read", wanted=False))
        front = planned.front if status == found.status else front_of(found, tars.FILE, status)
        if not whole:
            front = catalog.untrusted(front)
        self.catalog.add(catalog.line_of(front, len(header) + stored + len(padding), b""))

    def put_small(self, file, header, size, padding):
        """Writes a small file at once, if it can be read whole."""
        try:
            data = os.pread(file, size, 0) if size else b""
        except OSError:
            return False
        if len(data) < size:
            return False
        self.counts.read += size
        self.pieces.write(b"%s%s%s" % (header, data, padding))
        return True

    def put_parts(self, found, file, parts):
        """Writes these parts of a file, and tells whether they were there. Zeros stand for what was not."""
        why = None
        for offset, length in parts:
            end = offset + length
            while offset < end:
                wanted = min(BLOCK, end - offset)
                try:
                    block = b"" if why else os.pread(file, wanted, offset)
                except OSError as error:
                    block, why = b"", error.strerror
                if not block:
                    why, block = why or "became shorter as it was read", bytes(wanted)
                elif not why:
                    self.counts.read += len(block)
                self.pieces.write(block)
                offset += len(block)
        if why:
            self.left_out.append(LeftOut(found.path, f"{why}; zeros stand for the rest"))
        return why is None

    def end(self):
        """Ends both archives, and gives what the manifest lists of them."""
        self.end_run()
        self.pieces.write(tars.END)
        self.pieces.end()
        self.catalog.end()
        return [self.sends.close(self.archive), self.sends.close(self.list)]

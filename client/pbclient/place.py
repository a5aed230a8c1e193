"""Puts members of an archive into a folder.

No link is followed below that folder, whoever made it: each folder on the way is opened by its name in the one before. A file is written
beside its place and renamed. Its rights come after its content, and a folder's after all that it holds.
"""
import contextlib, errno, grp, os, pwd, stat
from functools import lru_cache

from . import tars
from .failures import Failure
from .tars import Damaged
from .walk import TOP

NEVER, IF_CHANGED, ALWAYS = "never", "if-changed", "always"
BESIDE = b".pbclient-%d.tmp" % os.getpid()
# Zeros are looked for in blocks of so many bytes.
ZERO_BLOCK = 64 << 10
ZEROS = bytes(ZERO_BLOCK)
# With these errors of the system no other member can be restored either.
NO_USE = {errno.ENOSPC, errno.EDQUOT, errno.EROFS}
SET_IDS = stat.S_ISUID | stat.S_ISGID
NO_NAMES = {b"", b".", b".."}


@lru_cache(maxsize=None)
def user_number(name, number):
    try:
        return pwd.getpwnam(os.fsdecode(name)).pw_uid if name else number
    except KeyError:
        return number


@lru_cache(maxsize=None)
def group_number(name, number):
    try:
        return grp.getgrnam(os.fsdecode(name)).gr_gid if name else number
    except KeyError:
        return number


def parts_of(name):
    """The names on the way to a member; none for the folder `/`."""
    parts = [] if name == TOP else name.split(b"/")
    if not NO_NAMES.isdisjoint(parts) or b"\0" in name:
        raise Damaged(f"{os.fsdecode(name)!r} is no path of a backup")
    return parts


class Kept(Exception):
    """What stands at a member's place stays; why, if it is not the same."""


class Place:
    """A folder that members are put into, in the order of the stream."""

    def __init__(self, target, options, tell):
        """`tell` is called with a path and why it is not as it should be."""
        self.options, self.tell = options, tell
        self.numeric, self.owners = options.numeric_owner, not options.no_owner and os.geteuid() == 0
        self.kept, self.files, self.bytes = set(), 0, 0
        self.target, self.open = target, []

    def __enter__(self):
        return self

    def start(self):
        """Opens the folder, and makes it if it is not there."""
        try:
            os.makedirs(self.target, exist_ok=True)
            top = os.open(self.target, os.O_RDONLY | os.O_DIRECTORY)
        except OSError as error:
            raise Failure(f"{self.target} is no folder to restore into: {error.strerror}", "name a folder, or one that can be made") from None
        # The folders that are open: of each its name, its number, and the member whose rights it gets as it is left.
        self.open.append((None, top, None))

    def __exit__(self, kind, *cause):
        while self.open:
            self.leave(kind is None)

    def put(self, member, parts):
        """Puts a member there. Its file's bytes come from a call, part by part, which may be left alone."""
        try:
            names = parts_of(member.name)
            if not self.open:
                self.start()
            if member.kind == tars.FOLDER:
                self.enter(names, member)
            else:
                self.enter(names[:-1])
                self.put_into(self.open[-1][1], names[-1], member, parts)
            self.files += 1
        except Kept as kept:
            if str(kept):
                self.kept.add(member.name)
                self.tell(member.name, str(kept))
        except OSError as error:
            if error.errno in NO_USE:
                raise Failure(f"{self.target}: {error.strerror}", "make room there, then restore again with --overwrite if-changed") from None
            self.tell(member.name, error.strerror)

    # Folders

    def enter(self, names, member=None):
        """Opens these folders, one in another; the last gets the member's rights as it is left. Those that are open stay so."""
        same = 0
        while same < len(names) and same + 1 < len(self.open) and self.open[same + 1][0] == names[same]:
            same += 1
        while len(self.open) > same + 1:
            self.leave()
        for name in names[same:]:
            self.open.append((name, self.opened_in(self.open[-1][1], name), None))
        if member:
            self.open[-1] = (*self.open[-1][:2], member)

    def opened_in(self, folder, name):
        flags = os.O_RDONLY | os.O_DIRECTORY | os.O_NOFOLLOW | os.O_CLOEXEC
        try:
            return os.open(name, flags, dir_fd=folder)
        except FileNotFoundError:
            os.mkdir(name, 0o700, dir_fd=folder)
        except OSError as error:
            if error.errno not in (errno.ENOTDIR, errno.ELOOP):
                raise
            if self.options.overwrite != ALWAYS:
                raise Kept("something else than a folder stands in its way; --overwrite always removes that") from None
            os.unlink(name, dir_fd=folder)
            os.mkdir(name, 0o700, dir_fd=folder)
        return os.open(name, flags, dir_fd=folder)

    def leave(self, whole=True):
        """Closes the last folder, with its rights and times."""
        _, folder, member = self.open.pop()
        try:
            if member and whole:
                self.set_rights(folder, member)
        except OSError as error:
            self.tell(member.name, error.strerror)
        finally:
            os.close(folder)

    # What is no folder

    def put_into(self, folder, name, member, parts):
        self.look(folder, name, member)
        try:
            self.make(folder, member, parts)
            os.rename(BESIDE, name, src_dir_fd=folder, dst_dir_fd=folder)
        except BaseException:
            remove_beside(folder)
            raise
        if member.kind == tars.HARD_LINK:
            # (it is left where what was there is another name of the same file)
            remove_beside(folder)

    def look(self, folder, name, member):
        """Refuses what may not be written over."""
        try:
            there = os.stat(name, dir_fd=folder, follow_symlinks=False)
        except FileNotFoundError:
            return
        if stat.S_ISDIR(there.st_mode):
            raise Kept("a folder stands in its place")
        same = stat.S_ISREG(there.st_mode) and (there.st_size, there.st_mtime_ns) == (member.size, member.mtime)
        if self.options.overwrite == IF_CHANGED and member.kind == tars.FILE and same:
            raise Kept()
        if self.options.overwrite == NEVER:
            raise Kept("it is there already; --overwrite if-changed or always writes over it")

    def make(self, folder, member, parts):
        """Makes a member beside its place."""
        if member.kind == tars.FILE:
            file = os.open(BESIDE, os.O_WRONLY | os.O_CREAT | os.O_EXCL | os.O_NOFOLLOW | os.O_CLOEXEC, 0o600, dir_fd=folder)
            try:
                self.write(file, member, parts)
                self.set_rights(file, member)
            finally:
                os.close(file)
        elif member.kind == tars.HARD_LINK:
            self.link(folder, member)
        else:
            if member.kind == tars.LINK:
                os.symlink(member.target, BESIDE, dir_fd=folder)
            else:
                kind = next(kind for kind, it in tars.KINDS.items() if it == member.kind)
                os.mknod(BESIDE, kind | 0o600, os.makedev(*member.device), dir_fd=folder)
            self.set_rights_at(folder, member)

    def link(self, folder, member):
        """A second name of a file that was put there before."""
        if member.target in self.kept:
            raise Kept("the file that it is another name of was left as it stood")
        *way, last = parts_of(member.target)
        at = os.dup(self.open[0][1])
        try:
            for name in way:
                below = os.open(name, os.O_RDONLY | os.O_DIRECTORY | os.O_NOFOLLOW | os.O_CLOEXEC, dir_fd=at)
                os.close(at)
                at = below
            os.link(last, BESIDE, src_dir_fd=at, dst_dir_fd=folder, follow_symlinks=False)
        finally:
            os.close(at)

    def write(self, file, member, parts):
        """Writes a file's bytes at their places; holes stay holes."""
        segments = [(0, member.size)] if member.segments is None else member.segments
        left, write = iter(segments), write_sparse if self.options.sparse else write_all
        at = end = 0
        for part in parts:
            view = memoryview(part)
            while view:
                while at == end:
                    at, length = next(left)
                    end = at + length
                some = view[: end - at]
                write(file, some, at)
                at += len(some)
                view = view[len(some) :]
        if member.segments is not None or self.options.sparse:
            os.truncate(file, member.size)
        self.bytes += member.size

    # Rights

    def owner_of(self, member):
        if self.numeric:
            return member.uid, member.gid
        return user_number(member.user, member.uid), group_number(member.group, member.gid)

    def set_rights(self, file, member):
        """Owner, attributes, mode and times of an open file or folder. (A new owner takes capabilities away, so it comes first; an ACL may take
        the right to set attributes away, so it is the last of them.)"""
        if self.owners:
            os.chown(file, *self.owner_of(member))
        for name, value in sorted(member.xattrs, key=lambda it: it[0].startswith("system.")):
            self.set_xattr(file, member, name, value)
        # (a program that is to run as its owner is not to run as another)
        os.chmod(file, member.mode if self.owners or stat.S_ISDIR(os.fstat(file).st_mode) else member.mode & ~SET_IDS)
        os.utime(file, ns=(member.mtime, member.mtime))

    def set_rights_at(self, folder, member):
        """The same of what cannot be opened: a link, a pipe, a device."""
        here = {"dir_fd": folder, "follow_symlinks": False}
        if self.owners:
            os.chown(BESIDE, *self.owner_of(member), **here)
        for name, value in member.xattrs:
            self.set_xattr(b"/proc/self/fd/%d/%s" % (folder, BESIDE), member, name, value, follow_symlinks=False)
        if member.kind != tars.LINK:
            os.chmod(BESIDE, member.mode, dir_fd=folder)
        os.utime(BESIDE, ns=(member.mtime, member.mtime), **here)

    def set_xattr(self, file, member, name, value, **how):
        try:
            os.setxattr(file, name, value, **how)
        except OSError as error:
            self.tell(member.name, f"attribute {name}: {error.strerror}")


def remove_beside(folder):
    with contextlib.suppress(FileNotFoundError):
        os.unlink(BESIDE, dir_fd=folder)


def write_all(file, data, at):
    while data:
        size = os.pwrite(file, data, at)
        at += size
        data = data[size:]


def write_sparse(file, data, at):
    """Writes what is not zeros; the others are to become holes."""
    for place in range(0, len(data), ZERO_BLOCK):
        block = data[place : place + ZERO_BLOCK]
        if bytes(block) != ZEROS[: len(block)]:
            write_all(file, block, at + place)

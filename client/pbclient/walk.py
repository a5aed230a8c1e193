"""The paths that a backup has: a folder before what it holds, names in order; what is left out, and why."""
import errno, os, re, stat
from typing import NamedTuple

from .failures import mistyped

CACHE_TAG, CACHE_SIGNATURE = b"CACHEDIR.TAG", b"Signature: 8a477f597d28d172789f06886806bc55"
# File systems that have no files of their own: what the system tells of itself. Their folders are kept empty.
NO_FILES = {
    "autofs", "binfmt_misc", "bpf", "cgroup", "cgroup2", "configfs", "debugfs", "devpts", "efivarfs", "fusectl", "hugetlbfs", "mqueue",
    "nsfs", "proc", "pstore", "rpc_pipefs", "securityfs", "selinuxfs", "sysfs", "tracefs"}


# The signs of a pattern: `*`, `?` and `[..]` are of one name, `**` goes over names.
TOKEN = re.compile(rb"(\*\*/|\*\*|\*|\?|\[!?[^\]/]+\])")
SIGNS = {b"**/": b"(?:.*/)?", b"**": b".*", b"*": b"[^/]*", b"?": b"[^/]"}
# The name of the folder `/` in an archive.
TOP = b"."


class Found(NamedTuple):
    """A path, its name in the archive (without the leading `/`), and what the system says of it."""

    path: bytes
    name: bytes
    status: os.stat_result


class LeftOut(NamedTuple):
    """A path that a backup is without, and why. `wanted` when it should have been there, so that the backup is not all that it was to be."""

    path: bytes
    why: str
    wanted: bool = True


def spelled(part):
    """A part of a pattern, as TOKEN parts it, as a regular expression. (No name is empty, so `*` behind a `/` is one sign at least.)"""
    if part in SIGNS:
        return SIGNS[part]
    if TOKEN.fullmatch(part):
        inside = re.sub(rb"[\\\[&~|^]", rb"\\\g<0>", part[1:-1].lstrip(b"!"))
        return (b"[^/" if part.startswith(b"[!") else b"[") + inside + b"]"
    return re.escape(part).replace(b"/", b"/(?=[^/])")


def compiled(patterns):
    """One expression for all patterns, to be matched with a path, behind which a folder has a `/`; None without a pattern. A pattern that
    begins with `/` is a whole path; another may begin at any name. One that ends with `/` is of folders alone."""
    rows = []
    for pattern in patterns:
        body = b"".join(map(spelled, TOKEN.split(pattern.strip(b"/"))))
        row = (b"/" if pattern.startswith(b"/") else b"(?:.*/)?") + body + (b"/" if pattern.endswith(b"/") else b"/?")
        try:
            re.compile(row)
        except re.error:
            raise mistyped(f"{os.fsdecode(pattern)} is no pattern", "look at what stands in [ ]") from None
        rows.append(row)
    return re.compile(b"(?s:" + b"|".join(rows) + rb")\Z") if rows else None


def lines_of(path):
    """The patterns of a file, one a line; without empty lines and those that begin with `#`."""
    with open(path, "rb") as it:
        return [line for line in it.read().splitlines() if line.strip() and not line.startswith(b"#")]


class Rules(NamedTuple):
    """What a backup leaves out by its options."""

    patterns: tuple = ()
    caches: bool = False
    largest: int = None
    one_file_system: bool = False


def kinds_of_file_systems():
    """The kind of each file system that is mounted, by its device."""
    try:
        with open("/proc/self/mountinfo") as it:
            rows = [line.split(" - ") for line in it]
    except OSError:
        return {}
    return {tuple(map(int, row[0].split()[2].split(":"))): row[1].split()[0] for row in rows if len(row) == 2}


def is_cache(folder):
    """Whether an open folder says that what it holds is a cache."""
    try:
        file = os.open(CACHE_TAG, os.O_RDONLY | os.O_NOFOLLOW | os.O_NONBLOCK | os.O_CLOEXEC, dir_fd=folder)
    except OSError:
        return False
    try:
        return os.read(file, len(CACHE_SIGNATURE)) == CACHE_SIGNATURE
    except OSError:
        return False
    finally:
        os.close(file)


def opened(found, flags=0):
    """What was found, open, and what the system says of it then, if it is still that. No link is followed that took its place, and nothing
    waits at a pipe that did."""
    file = os.open(found.path, os.O_RDONLY | os.O_NOFOLLOW | os.O_NONBLOCK | os.O_CLOEXEC | flags)
    status = os.fstat(file)
    # (a number of an inode may come again)
    if not os.path.samestat(status, found.status) or stat.S_IFMT(status.st_mode) != stat.S_IFMT(found.status.st_mode):
        os.close(file)
        raise OSError(errno.ESTALE, "another took its place as it was read", os.fsdecode(found.path))
    return file, status


class Walk:
    """A walk through a folder, or to a file. `left_out` gets what it is without; `excluded` counts what rules leave out."""

    def __init__(self, rules, store=None, left_out=None):
        self.rules, self.left_out, self.excluded = rules, [] if left_out is None else left_out, 0
        self.store = os.stat(store) if store else None
        self.pattern, self.kinds = compiled(rules.patterns), None

    def through(self, top):
        """What is found at a path and below it. A link is followed at the path itself alone."""
        path, name = os.path.realpath(os.fsencode(top)), os.path.abspath(os.fsencode(top)).lstrip(b"/") or TOP
        status = os.stat(path)
        waiting = [(Found(path, name, status), status.st_dev)]
        while waiting:
            found, device = waiting.pop()
            yield found
            if stat.S_ISDIR(found.status.st_mode) and (found.status.st_dev == device or self.enters(found.status.st_dev)):
                waiting += [(it, found.status.st_dev) for it in reversed(self.below(found))]

    def below(self, folder):
        """What a folder holds and the backup has, by names."""
        try:
            file, _ = opened(folder, os.O_DIRECTORY)
        except OSError as error:
            self.leave_out(folder.path, error)
            return []
        try:
            with os.scandir(file) as entries:
                entries = sorted([(os.fsencode(it.name), it) for it in entries])
                if self.rules.caches and is_cache(file):
                    self.excluded += len(entries) - 1
                    entries = [it for it in entries if it[0] == CACHE_TAG]
                return [it for it in [self.entry(folder, *entry) for entry in entries] if it]
        except OSError as error:
            self.leave_out(folder.path, error)
            return []
        finally:
            os.close(file)

    def entry(self, folder, name, entry):
        """An entry of a folder, if the backup has it."""
        path = os.path.join(folder.path, name)
        try:
            status = entry.stat(follow_symlinks=False)
        except OSError as error:
            self.leave_out(path, error)
            return None
        found = Found(path, name if folder.name == TOP else folder.name + b"/" + name, status)
        return found if self.is_kept(found) else None

    def is_kept(self, found):
        status, mode = found.status, found.status.st_mode
        if stat.S_ISSOCK(mode):
            self.left_out.append(LeftOut(found.path, "a socket", wanted=False))
            return False
        if self.store and os.path.samestat(status, self.store):
            self.left_out.append(LeftOut(found.path, "the store itself", wanted=False))
            return False
        large = self.rules.largest is not None and stat.S_ISREG(mode) and status.st_size > self.rules.largest
        if large or self.pattern and self.pattern.match(b"/" + found.name + (b"/" if stat.S_ISDIR(mode) else b"")):
            self.excluded += 1
            return False
        return True

    def enters(self, device):
        """Whether what is mounted at a folder is walked through."""
        if self.kinds is None:
            self.kinds = kinds_of_file_systems()
        return not self.rules.one_file_system and self.kinds.get((os.major(device), os.minor(device))) not in NO_FILES

    def leave_out(self, path, error):
        self.left_out.append(LeftOut(path, "vanished as it was read" if error.errno == errno.ENOENT else error.strerror))

"""What a folder is, looked at before a run of the program opens it.

A run removes files of its folder that it takes for unfinished work: all that end in `.tmp`, and those of a snapshot without a manifest. So it
may open a store alone. A store has the file `.chunks/book`, which each run leaves.
"""
import contextlib, fcntl, os, pwd, stat, struct, time

from .failures import FULL, IN_USE, NO_STORE, Failure, printable
from .session import BOOK_MAGIC

CHUNKS = ".chunks"
BOOK = os.path.join(CHUNKS, "book")
BOOK_HEAD, BOOK_ROW = 24, struct.Struct("<32sQ")
TYPES = ["ct", "host", "vm"]
# The client's own file in a store.
NOTE = "damaged-chunks"
# All that a store's folder has.
OWN_NAMES = {".chunks", *TYPES, NOTE, f"{NOTE}.new", ".access"}
# A folder of another program has all of these names, and perhaps more.
REPOSITORIES = {"a restic repository": {"config", "data", "keys"}, "a borg repository": {"README", "config", "data"}}
# Proxmox Backup makes all of them at once; a store makes them one by one.
CHUNK_FOLDERS = 1 << 16
# (of a second)
LOCK_PAUSE = 0.2
# A clock may be behind by so many seconds without a word of it.
CLOCK_LEEWAY = 300


def no_store(what, advice):
    return Failure(what, advice, NO_STORE)


def has_book(root):
    """Whether the file is there that each run leaves."""
    try:
        return stat.S_ISREG(os.lstat(os.path.join(root, BOOK)).st_mode)
    except (FileNotFoundError, NotADirectoryError):
        return False


def names_in(*path):
    """The names in a folder; none where there is no folder."""
    try:
        return set(os.listdir(os.path.join(*path)))
    except (FileNotFoundError, NotADirectoryError):
        return set()


def is_proxmox(root, names):
    """Whether it is laid out as Proxmox Backup does: a lock file, owners of groups, or all folders of chunks and no book."""
    owned = (os.path.join(root, it, group, "owner") for it in TYPES for group in names_in(root, it))
    all_folders = not has_book(root) and len(names_in(root, ".chunks")) >= CHUNK_FOLDERS
    return bool(names & {".chunks", *TYPES}) and (".lock" in names or all_folders or any(map(os.path.lexists, owned)))


def entries(root):
    """The names in ROOT, but for those that a new file system has."""
    try:
        return set(os.listdir(root)) - {"lost+found"}
    except FileNotFoundError:
        raise no_store(f"{root} is not there", "look at the path, or make a store there: pbclient init") from None
    except NotADirectoryError:
        raise no_store(f"{root} is no folder", "a store is a folder of its own") from None
    except PermissionError:
        raise Failure(f"{root} may not be read: it is {owner(root)}'s", f"run as {owner(root)}") from None


def owner(path):
    """The name of a path's owner."""
    number = os.stat(path).st_uid
    try:
        return pwd.getpwuid(number).pw_name
    except KeyError:
        return f"user {number}"


def look(root, may_be_empty=False, force=False):
    """Refuses a folder that is no store, and tells whether it is empty. `force` opens one whose book is gone."""
    names = entries(root)
    for program, marks in REPOSITORIES.items():
        if marks <= names:
            raise no_store(f"{root} is {program}, and no store", "take a folder of its own for the store")
    if is_proxmox(root, names):
        raise no_store(f"{root} is a Proxmox Backup datastore, and no store of this program", "take a folder of its own for the store")
    if names and not has_book(root):
        if ".chunks" not in names:
            raise no_store(f"{root} has other things in it, and no store", "take a folder of its own for the store")
        if not force:
            raise no_store(f"{root} has .chunks, but no {BOOK}", "if it is a store that lost this file, give --force once")
    others = sorted(names - OWN_NAMES)
    if others and not force:
        what = f"{root} has other things beside a store, as {printable(others[0])}"
        raise no_store(what, "a run may remove files among them: move them away, or give --force if you know them")
    if not names and not may_be_empty:
        raise no_store(f"{root} is empty, and no store yet", "make a store there: pbclient init")
    return not names


@contextlib.contextmanager
def opened(path):
    """A folder's descriptor; what was locked by it is free again at the end."""
    folder = os.open(path, os.O_RDONLY | os.O_DIRECTORY)
    try:
        yield folder
    finally:
        os.close(folder)


def locks(folder, kind):
    """Locks an open folder, if nobody else has it."""
    try:
        fcntl.flock(folder, kind | fcntl.LOCK_NB)
        return True
    except BlockingIOError:
        return False


@contextlib.contextmanager
def held(root, kind=fcntl.LOCK_EX):
    """Holds the lock that a run of the program takes; gives whether it was free."""
    with opened(root) as folder:
        yield locks(folder, kind)


def is_locked(root, kind=fcntl.LOCK_EX):
    """Whether a run has the folder."""
    with held(root, kind) as free:
        return not free


@contextlib.contextmanager
def turn(root, seconds, kind=fcntl.LOCK_EX):
    """Waits up to so many seconds until no other run has ROOT, and holds it against other calls of the client from then on. The lock is on
    `.chunks`, since the program locks ROOT itself."""
    end, waited = time.monotonic() + seconds, f" (waited {seconds:g} s)" if seconds else ""
    with opened(os.path.join(root, CHUNKS)) as folder:
        while not locks(folder, kind) or is_locked(root, kind):
            if time.monotonic() >= end:
                raise Failure(f"{root} is in use by another run{waited}", "run again later, or wait for it: --wait SECONDS", IN_USE)
            time.sleep(LOCK_PAUSE)
        yield


def is_read_only(root):
    return bool(os.statvfs(root).f_flag & os.ST_RDONLY)


def may_write(root):
    return os.access(root, os.W_OK | os.X_OK)


def need_rights(root):
    """Refuses a folder that may not be written."""
    if is_read_only(root):
        raise Failure(f"{root} is mounted read-only", "mount it so that it can be written, and run again")
    if not may_write(root):
        raise Failure(f"{root} may not be written: it is {owner(root)}'s", f"run as {owner(root)}")


def owner_warning(root):
    """What to say where root writes to another user's store; else nothing."""
    if os.geteuid() or os.stat(root).st_uid == 0:
        return None
    return f"{root} is {owner(root)}'s, who can't read what root makes in it", f"run as {owner(root)}, or give it to root: chown -R root {root}"


def room(root):
    """The bytes that are free for this user."""
    found = os.statvfs(root)
    return found.f_bavail * found.f_frsize


def full(root):
    return Failure(f"disk full: {root} has {room(root):,} bytes free", "free space, then run again; no finished snapshot was lost", FULL)


def need_room(root, reserve):
    """Refuses to go on where less than the reserve is free."""
    if reserve and room(root) < reserve:
        what = f"{root} has {room(root):,} bytes free, less than --reserve asks for"
        raise Failure(what, "free space, or give a smaller --reserve", FULL)


def book(root):
    """The chunks of the store's book, each with its last use in seconds since 1970; none where the file is no book."""
    with open(os.path.join(root, BOOK), "rb") as it:
        data = it.read()
    if len(data) >= BOOK_HEAD and data.startswith(BOOK_MAGIC):
        end = BOOK_HEAD + BOOK_ROW.size * struct.unpack("<Q", data[16:24])[0]
        yield from BOOK_ROW.iter_unpack(data[BOOK_HEAD:end])


def last_moment(root):
    """The last moment of the store's book, in seconds since 1970; none where the file is no book."""
    try:
        with open(os.path.join(root, BOOK), "rb") as it:
            head = it.read(16)
    except OSError:
        return None
    return struct.unpack("<8xQ", head)[0] if len(head) == 16 and head.startswith(BOOK_MAGIC) else None


def is_open_to_others(root):
    """Whether others than its owner have rights in ROOT."""
    return bool(os.stat(root).st_mode & 0o77)


def clock_warning(root):
    """What to say where the store's last run was later than the clock; else nothing."""
    moment = last_moment(root)
    if moment is None or moment <= time.time() + CLOCK_LEEWAY:
        return None
    at = time.strftime("%Y-%m-%dT%H:%M:%SZ", time.gmtime(moment))
    advice = f"if the clock is right now, remove {os.path.join(root, BOOK)} while no run has the store, and give --force once"
    return f"{root} was used at {at}, which is ahead of the clock: until then gc frees nothing", advice


def closed(path, root):
    """The failure of a path in ROOT that this user has no right to."""
    at = path
    while at != root and not os.access(os.path.dirname(at), os.X_OK):
        at = os.path.dirname(at)
    advice = f"run as {owner(at)}" if owner(at) == owner(root) else f"give it to {owner(root)}: chown {owner(root)} {at}"
    return Failure(f"{path} may not be read or written: it is {owner(at)}'s", advice)


def why_ended(root, error):
    """The failure behind a status of the program that says that the disk failed."""
    if is_locked(root):
        return Failure(f"{root} is in use by another run", "run again later, or wait for it: --wait SECONDS", IN_USE)
    path = next((it for it in paths_below(root) if not may_use(it, may_write(root))), None)
    if path:
        return closed(path, root)
    if is_read_only(root) or not may_write(root):
        what = f"{root} can only be read, and has unfinished work of an interrupted run in it"
        return Failure(what, "run any command once where it can be written")
    if room(root) < 1 << 16:
        return full(root)
    odd = next((it for it in paths_below(root) if not is_plain(it)), None)
    if odd:
        return Failure(f"{odd} is a link, a named pipe, a socket or a device: a store has none", "move it away, and run again")
    return Failure(f"the disk failed: {error}", f"look at {root} and at the system's log (dmesg), then run again")


def paths_below(root):
    """Each path below a folder."""
    for at, folders, files in os.walk(root):
        yield from (os.path.join(at, name) for name in folders + files)


def may_use(path, writes):
    """Whether a file may be read, or a folder be gone through, and written where the store is to be."""
    if not os.path.isdir(path):
        return os.access(path, os.R_OK)
    return os.access(path, os.R_OK | os.X_OK | (os.W_OK if writes else 0))


def is_plain(path):
    """Whether it is a file or a folder."""
    mode = os.lstat(path).st_mode
    return stat.S_ISDIR(mode) or stat.S_ISREG(mode)

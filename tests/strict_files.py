"""Files as a strict POSIX file system keeps them, told by the calls that a program made, as `strace` records them.

A file's bytes last by an fsync of the file alone. A name that was made, renamed or removed lasts by an fsync of its folder alone, so
a folder's own name by one of its parent. Of what else was done a crash may leave any part:

- of the changes of names each by itself, whatever came of those before and behind it. A rename within one folder is one change; one
  between two folders is two, so it may leave both names or neither;
- of a file's bytes what lasts, all, zeros in their place, or a front of them, with zeros behind or not.

Not followed: bytes that are written over others which last, block by block; calls that failed; rights and times; files that are
written through memory. Another call than those of FOLLOWED that would change files is refused.
"""
import os, re, subprocess

FOLLOWED = "open openat creat write pwrite64 lseek close fsync fdatasync sync syncfs mkdir mkdirat rename renameat renameat2 unlink unlinkat rmdir"
REFUSED = "writev pwritev link linkat symlink symlinkat truncate ftruncate fallocate copy_file_range sendfile splice dup dup2 dup3 mknod mknodat"
LONGEST_TEXT = 1 << 20
LINE = re.compile(r"(\d+) +(\w+)\((.*)\) += (-?\d+|\?)")
UNFINISHED = re.compile(r"(\d+) +(.*) <unfinished \.\.\.>$")
RESUMED = re.compile(r"(\d+) +<\.\.\. \w+ resumed>(.*)$")
TEXT = re.compile(r'"((?:\\x[0-9a-f]{2})*)"')


class NotFollowed(Exception):
    """A record tells of what is not followed."""


class Call:
    """A call, with its words as strace writes them. The result of one that was not done is -1. `on` is the path that it
    changes or syncs, once `Files` has taken it over."""

    def __init__(self, thread, name, words, result):
        self.thread, self.name, self.words = thread, name, words
        self.result, self.on = -1 if result == "?" else int(result), ""
        self.texts = [bytes.fromhex(it.replace("\\x", "")) for it in TEXT.findall(words)]

    def number(self, place):
        return int(self.words.split(", ")[place])

    def path(self, place=0):
        """A path among its words. One from a folder that is open is not followed."""
        if "at" in self.name and "AT_FDCWD" not in self.words:
            raise NotFollowed(f"{self.name}({self.words}) is not followed")
        return os.path.normpath(os.fsdecode(self.texts[place]))


def record(words, log, stop=None):
    """Runs a program, and gives its status and its calls, in the order in which they were done. A stop is a call's name, for which time
    a thread makes it, and what then happens in its place: `signal=KILL` or `error=EIO`."""
    names = ",".join(f"?{it}" for it in f"{FOLLOWED} {REFUSED}".split())
    trace = ["strace", "-f", "-o", log, "-xx", "-s", str(LONGEST_TEXT), "-e", "signal=none", "-e", f"trace={names}"]
    if stop:
        trace += ["-e", f"inject={stop[0]}:{stop[2]}:when={stop[1]}"]
    status = subprocess.run([*trace, *words], stdout=subprocess.DEVNULL, stderr=subprocess.DEVNULL).returncode
    with open(log) as it:
        return status, list(calls_of(it))


def calls_of(lines):
    begun = {}
    for line in lines:
        if cut := UNFINISHED.match(line):
            thread, begun[thread] = cut[1], cut[2]
            # (what is closed counts so at once, since another thread may be given its number before the call has ended)
            line = f"{thread} {cut[2]}) = 0" if cut[2].startswith("close(") else ""
        elif rest := RESUMED.match(line):
            before = begun.pop(rest[1])
            line = "" if before.startswith("close(") else f"{rest[1]} {before}{rest[2]}"
        if done := LINE.match(line):
            if '"...' in done[3]:
                raise NotFollowed("a text is too long for the record")
            yield Call(*done.groups())


class File:
    def __init__(self, data=b""):
        self.data = self.lasting = data

    def write(self, at, data):
        self.data = self.data[:at].ljust(at, b"\0") + data + self.data[at + len(data) :]

    def sync(self):
        self.lasting = self.data

    def left(self, draw):
        return draw.data(self)


class Folder:
    def __init__(self, names=()):
        self.names = dict(names)
        self.sync()

    def change(self, names):
        """One change: these names are then what they are given with, or nothing."""
        self.names.update(names)
        self.changes.append(names)

    def sync(self):
        self.lasting, self.changes = dict(self.names), []

    def left(self, draw):
        names = dict(self.lasting)
        for change in self.changes:
            if draw.keeps(change):
                names.update(change)
        return {name: node.left(draw) for name, node in names.items() if node}


def loaded(path):
    """The folder at a path, all of which lasts."""
    return Folder((entry.name, loaded(entry.path) if entry.is_dir() else File(read(entry.path))) for entry in os.scandir(path))


def read(path):
    with open(path, "rb") as it:
        return it.read()


class Durable:
    """Draws what lasts alone."""

    def keeps(self, _change):
        return False

    def data(self, file):
        return file.lasting


class Whole:
    """Draws all."""

    def keeps(self, _change):
        return True

    def data(self, file):
        return file.data


class Some:
    """Draws at random, each file's bytes once, whatever names it has."""

    def __init__(self, random):
        self.random, self.part, self.drawn = random, random.choice([0.2, 0.5, 0.8, 0.95]), {}

    def keeps(self, _change):
        return self.random.random() < self.part

    def data(self, file):
        if file not in self.drawn:
            size = len(file.data)
            front = file.data[: self.random.randrange(size + 1)]
            forms = [file.lasting, file.data, front, front.ljust(size, b"\0"), bytes(size)]
            self.drawn[file] = file.data if file.data == file.lasting else self.random.choice(forms)
        return self.drawn[file]


def paths_of(tree, above):
    for name, below in tree.items():
        if isinstance(below, dict):
            yield above + name, None
            yield from paths_of(below, f"{above}{name}/")
        else:
            yield above + name, below


class Files:
    """The files below a root, and one beside them, as runs of a program change them."""

    def __init__(self, root, beside):
        self.root, self.beside, self.top = root, beside, loaded(root)
        self.begin()

    def begin(self):
        """Another run begins: it has no file open."""
        self.opened, self.out = {}, File()

    def parts(self, path):
        """The parts of a path below the root; None of one elsewhere."""
        return path[len(self.root) + 1 :].split("/") if path.startswith(f"{self.root}/") else None

    def place(self, path):
        """The folder of a path below the root, and its last part."""
        *parts, name = self.parts(path)
        folder = self.top
        for part in parts:
            folder = folder.names[part]
        return folder, name

    def at(self, path):
        if path in (self.root, self.beside):
            return self.top if path == self.root else self.out
        if not self.parts(path):
            return None
        folder, name = self.place(path)
        return folder.names.get(name)

    def left(self, draw):
        """What a crash leaves: each path below the root in order, with its bytes, or None of a folder."""
        return tuple(sorted(paths_of(self.top.left(draw), "")))

    def do(self, call):
        """Takes a call over. Gives whether anything of the files is then otherwise, or lasts."""
        if call.result < 0:
            return False
        if call.name in ("open", "openat", "creat"):
            return self.open(call)
        if call.name in ("sync", "syncfs"):
            return self.sync_all(self.top)
        if call.texts and "write" not in call.name:
            return self.rename(call) if "rename" in call.name else self.name(call)
        return self.use(call, self.opened.get(call.number(0)))

    def open(self, call):
        path = call.path()
        made = "O_CREAT" in call.words and self.parts(path) and not self.at(path)
        if made:
            folder, name = self.place(path)
            folder.change({name: File()})
        node = self.at(path)
        if isinstance(node, File) and "O_TRUNC" in call.words:
            node.data = b""
        # (where the next write goes stands beside the file)
        self.opened[call.result] = [node, 0, path]
        call.on = path
        return bool(node) and "O_CREAT" in call.words

    def name(self, call):
        """mkdir, rmdir or unlink."""
        if call.name in REFUSED.split():
            raise NotFollowed(f"{call.name} is not followed")
        path = call.on = call.path()
        if not self.parts(path):
            return False
        folder, name = self.place(path)
        folder.change({name: Folder() if "mkdir" in call.name else None})
        return True

    def rename(self, call):
        if not self.parts(call.path()):
            return False
        call.on = call.path(1)
        (folder, name), (other, new) = self.place(call.path()), self.place(call.on)
        node = folder.names[name]
        if folder is other:
            folder.change({name: None, new: node})
        else:
            other.change({new: node})
            folder.change({name: None})
        return True

    def use(self, call, opened):
        """A call of what is open."""
        if not opened or not opened[0]:
            return False
        node, at, call.on = opened
        if call.name == "close":
            del self.opened[call.number(0)]
        elif call.name == "lseek":
            opened[1] = call.result
        elif call.name == "pwrite64":
            node.write(call.number(3), call.texts[0][: call.result])
        elif call.name == "write":
            node.write(at, call.texts[0][: call.result])
            opened[1] += call.result
        elif call.name in ("fsync", "fdatasync"):
            node.sync()
        else:
            raise NotFollowed(f"{call.name} is not followed")
        return call.name not in ("close", "lseek")

    def sync_all(self, folder):
        folder.sync()
        for node in folder.names.values():
            if isinstance(node, Folder):
                self.sync_all(node)
            elif node:
                node.sync()
        return True

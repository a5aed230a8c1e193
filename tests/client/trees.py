"""Random trees of files, with all that a file system may have of a file, and a comparison of two."""
import contextlib, os, random, shutil, socket, stat, struct, subprocess

NAMES = [
    b"a", b"b.txt", b"with space", b"tab\there", b"line\nfeed", b"back\\slash", b"\xc3\xa4\xc3\xb6", b"\xff\xfe", b"-dash", b"a b%=c", b"'quoted\"",
    b"x" * 100, b"y" * 101, b"z" * 255, b"\xe9" * 120, b".hidden", b"~", b"*", b"a\x01b", b"name.tmp"]
SIZES = [0, 1, 511, 512, 513, 4096, 70_000, 200_000, 700_000]
MOMENTS = [0, 1, -1_500_000_001, 999_999_999, 1_600_000_000_123_456_789, 4_102_444_800_000_000_001, 2**33 * 10**9 + 7]
# user::rwx, user:1000:r-x, group::r-x, mask::rwx, other::---
ACL = struct.pack("<I", 2) + b"".join(
    struct.pack("<HHI", tag, rights, number)
    for tag, rights, number in [(1, 7, 2**32 - 1), (2, 5, 1000), (4, 5, 2**32 - 1), (16, 7, 2**32 - 1), (32, 0, 2**32 - 1)])
# cap_net_raw, permitted and effective
CAPABILITY = struct.pack("<IIIII", 0x02000001, 1 << 13, 0, 0, 0)
XATTRS = [("user.colour", b"blue"), ("user.odd=name%", bytes(range(256))), ("user.empty", b""), ("system.posix_acl_access", ACL)]
IS_ROOT = os.geteuid() == 0


def drawn(chance, size):
    """So many random bytes. (`randbytes` is in Python from 3.9 on)"""
    return chance.getrandbits(8 * size).to_bytes(size, "little") if size else b""


class Tree:
    """A random tree in a folder, by a seed."""

    def __init__(self, top, seed, has_xattrs=True):
        self.top, self.chance, self.has_xattrs = os.fsencode(top), random.Random(seed), has_xattrs
        self.files, self.folders, self.sockets = [], [self.top], 0

    def make(self, count=40):
        os.makedirs(self.top, exist_ok=True)
        for _ in range(count):
            self.add()
        self.set_all_rights()
        return self

    def free_path(self):
        """A path in some folder where nothing stands."""
        while True:
            path = os.path.join(self.chance.choice(self.folders), self.chance.choice(NAMES))
            if self.chance.random() < 0.5:
                path += b"%d" % self.chance.randrange(1000)
            if len(os.path.basename(path)) <= 255 and not os.path.lexists(path):
                return path

    def add(self):
        kinds = [self.add_file] * 8 + [self.add_folder] * 4 + [self.add_link, self.add_hard_link, self.add_sparse, self.add_pipe, self.add_socket]
        path = self.free_path()
        self.chance.choice(kinds + [self.add_device] * IS_ROOT)(path)

    def content(self, size):
        return drawn(self.chance, size) if self.chance.random() < 0.5 else (b"%d\n" % self.chance.randrange(99) * size)[:size]

    def add_file(self, path):
        with open(path, "wb") as it:
            it.write(self.content(self.chance.choice(SIZES)))
        self.files.append(path)

    def add_folder(self, path):
        os.mkdir(path)
        self.folders.append(path)

    def add_link(self, path):
        os.symlink(self.chance.choice([b"nowhere", b"/etc/passwd", b"../" * 30, b"\xff" * 200, path]), path)

    def add_hard_link(self, path):
        if self.files:
            os.link(self.chance.choice(self.files), path)

    def add_sparse(self, path):
        with open(path, "wb") as it:
            for _ in range(self.chance.randrange(4)):
                it.seek(self.chance.randrange(200) * 4096)
                it.write(self.content(5000))
            it.truncate(max(it.tell(), self.chance.randrange(1 << 20)))
        self.files.append(path)

    def add_pipe(self, path):
        os.mkfifo(path)

    def add_device(self, path):
        with contextlib.suppress(PermissionError):
            os.mknod(path, self.chance.choice([stat.S_IFCHR, stat.S_IFBLK]) | 0o600, os.makedev(self.chance.randrange(300), self.chance.randrange(300)))

    def add_socket(self, path):
        # (a socket's path is short, so it is made from its folder)
        here = os.open(".", os.O_RDONLY)
        try:
            os.chdir(os.path.dirname(path))
            with socket.socket(socket.AF_UNIX) as it:
                name = b"s%d" % self.chance.randrange(10**6)
                if not os.path.lexists(name):
                    it.bind(name)
                    self.sockets += 1
        finally:
            os.fchdir(here)
            os.close(here)

    def set_all_rights(self):
        for path in self.paths(bottom_up=True):
            self.set_rights(path)

    def paths(self, bottom_up=False):
        for at, folders, files in os.walk(self.top, topdown=not bottom_up):
            yield from (os.path.join(at, it) for it in sorted(files + [it for it in folders if os.path.islink(os.path.join(at, it))]))
            yield at

    def set_rights(self, path):
        status = os.lstat(path)
        if IS_ROOT and self.chance.random() < 0.5:
            os.chown(path, self.chance.choice([0, 33, 1000, 3_000_000]), self.chance.choice([0, 33, 3_000_000]), follow_symlinks=False)
        if not stat.S_ISLNK(status.st_mode):
            if stat.S_ISREG(status.st_mode) or stat.S_ISDIR(status.st_mode):
                if not os.access(path, os.W_OK):
                    # (a second name of a file that may not be written any more)
                    os.chmod(path, 0o700)
                self.set_xattrs(path, stat.S_ISREG(status.st_mode))
            bits = self.chance.choice([0o644, 0o600, 0o755, 0o4755, 0o2750, 0o1777, 0o444, 0o700])
            if not IS_ROOT and not stat.S_ISDIR(status.st_mode):
                # (which a restore sets for root alone)
                bits &= 0o1777
            os.chmod(path, bits | (0o700 if stat.S_ISDIR(status.st_mode) else 0o400))
        moment = self.chance.choice([*MOMENTS, self.chance.randrange(10**18, 2 * 10**18)])
        os.utime(path, ns=(moment, moment), follow_symlinks=False)

    def set_xattrs(self, path, is_file):
        if not self.has_xattrs or self.chance.random() < 0.6:
            return
        for name, value in self.chance.sample(XATTRS, self.chance.randrange(len(XATTRS))):
            os.setxattr(path, name, value)
        if is_file and IS_ROOT and self.chance.random() < 0.3:
            os.setxattr(path, "security.capability", CAPABILITY)

    def change(self, count=6):
        """Changes some of it: files written, cut, replaced, renamed, removed, added; rights."""
        for _ in range(count):
            path = self.chance.choice(list(self.paths()))
            status = os.lstat(path)
            if stat.S_ISREG(status.st_mode) and not os.access(path, os.W_OK):
                os.chmod(path, 0o644)
            what = self.chance.randrange(6)
            if path == self.top or what == 0:
                self.add()
            elif what == 1 and stat.S_ISREG(status.st_mode):
                with open(path, "r+b") as it:
                    it.seek(self.chance.randrange(status.st_size + 1))
                    it.write(self.content(self.chance.randrange(5000)))
            elif what == 2 and not stat.S_ISDIR(status.st_mode):
                os.unlink(path)
            elif what == 3:
                os.rename(path, os.path.join(os.path.dirname(path), b"renamed-%d" % self.chance.randrange(10**9)))
                self.look_again()
            elif what == 4 and stat.S_ISREG(status.st_mode):
                os.truncate(path, self.chance.randrange(status.st_size + 1))
            else:
                self.set_rights(path)
            self.look_again()

    def look_again(self):
        self.folders = [at for at, _, _ in os.walk(self.top)]
        self.files = [os.path.join(at, it) for at, _, its in os.walk(self.top) for it in its if is_file(os.path.join(at, it))]


def is_file(path):
    return stat.S_ISREG(os.lstat(path).st_mode)


def facts(path, firsts, top):
    """All that a backup keeps of a path; of several names of a file, which one is the first."""
    status = os.lstat(path)
    mode, name = status.st_mode, os.path.relpath(path, top)
    found = {"mode": mode, "owner": (status.st_uid, status.st_gid), "time": status.st_mtime_ns}
    if not stat.S_ISDIR(mode):
        found["first name"] = firsts.setdefault((status.st_dev, status.st_ino), name)
    if stat.S_ISLNK(mode):
        found["target"] = os.readlink(path)
    else:
        found["attributes"] = {it: os.getxattr(path, it) for it in os.listxattr(path)}
    if stat.S_ISREG(mode):
        with open(path, "rb") as it:
            found["content"] = it.read()
    if stat.S_ISCHR(mode) or stat.S_ISBLK(mode):
        found["device"] = status.st_rdev
    return found


def all_facts(top):
    """The facts of all paths of a tree but its sockets."""
    top, found, firsts = os.fsencode(top), {}, {}
    waiting = [top]
    while waiting:
        path = waiting.pop()
        if stat.S_ISSOCK(os.lstat(path).st_mode):
            continue
        found[os.path.relpath(path, top)] = facts(path, firsts, top)
        if stat.S_ISDIR(os.lstat(path).st_mode):
            waiting += sorted((os.path.join(path, it) for it in os.listdir(path)), reverse=True)
    return found


def differences(a, b):
    """The paths in which two trees differ, and in what."""
    a, b = all_facts(a), all_facts(b)
    found = {path: "is missing" for path in a.keys() ^ b.keys()}
    for path in a.keys() & b.keys():
        words = [key for key in {**a[path], **b[path]} if a[path].get(key) != b[path].get(key)]
        if words:
            found[path] = {key: (a[path].get(key), b[path].get(key)) if key != "content" else "differs" for key in words}
    return found


def remove(top):
    shutil.rmtree(top, ignore_errors=True)


def xattrs_work(folder):
    """Whether the file system keeps extended attributes."""
    path = os.path.join(folder, "looks-for-xattrs")
    with open(path, "wb"):
        pass
    try:
        os.setxattr(path, "user.a", b"b")
        return True
    except OSError:
        return False
    finally:
        os.unlink(path)


def gnu_tar():
    """GNU tar, or None."""
    path = shutil.which("tar")
    said = subprocess.run([path, "--version"], capture_output=True, text=True).stdout if path else ""
    return path if "GNU tar" in said else None

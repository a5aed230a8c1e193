"""Disk images and devices, as fixed archives: pieces of one size."""
import errno, hashlib, os, stat

from .failures import mistyped
from .report import Progress
from .walk import LeftOut

IMAGE = ".fidx"
# A fixed archive has 4 MiB pieces as in Proxmox Backup, or larger ones when it would have more entries than an index may.
LEAST_PIECE, MOST_PIECE, ENTRIES = 4 << 20, 16 << 20, 1 << 20


def piece_size(size):
    found = LEAST_PIECE
    while size > found * ENTRIES and found < MOST_PIECE:
        found *= 2
    return found


def size_of(file, path):
    """The size of an open file or block device."""
    mode = os.fstat(file).st_mode
    if not stat.S_ISREG(mode) and not stat.S_ISBLK(mode):
        raise mistyped(f"{path} is neither a file nor a block device", "name a disk or its image: --image NAME=DEVICE")
    return os.lseek(file, 0, os.SEEK_END)


def is_hole(file, start, end):
    """Whether nothing is stored of this part of a file, so that it has zeros."""
    try:
        return os.lseek(file, start, os.SEEK_DATA) >= end
    except OSError as error:
        return error.errno == errno.ENXIO


def read_part(file, start, end):
    """The bytes of a part, and why they are not all there; zeros stand for the others."""
    found = bytearray()
    while start + len(found) < end:
        try:
            block = os.pread(file, end - start - len(found), start + len(found))
        except OSError as error:
            return bytes(found.ljust(end - start, b"\0")), error.strerror
        if not block:
            return bytes(found.ljust(end - start, b"\0")), "it became shorter as it was read"
        found += block
    return bytes(found), None


class Image:
    """An image that is sent."""

    def __init__(self, backup, name, path):
        self.backup, self.sends, self.name, self.path, self.zeros = backup, backup.sends, name + IMAGE, path, None

    def send(self, file):
        """Sends it, and gives what the manifest lists of it."""
        size = size_of(file, self.path)
        piece = piece_size(size)
        self.backup.past_index(self.name)
        archive = self.sends.begin(self.name, size, piece)
        with Progress(self.backup.report, self.name) as progress:
            for start in range(0, size, piece):
                self.send_part(archive, file, start, min(size, start + piece))
                progress.show(start, size)
        return self.sends.close(archive)

    def send_part(self, archive, file, start, end):
        if is_hole(file, start, end):
            self.send_zeros(archive, end - start)
            return
        part, why = read_part(file, start, end)
        self.backup.counts.read += len(part)
        self.sends.put(archive, part)
        if why:
            self.backup.left_out.append(LeftOut(os.fsencode(self.path), f"{why}, at {start:,}; zeros stand for the rest of that piece"))

    def send_zeros(self, archive, size):
        """Sends a piece of zeros: hashed once, and named from then on."""
        if self.zeros and self.zeros[1] == size:
            self.sends.again(archive, [self.zeros])
        else:
            self.zeros = hashlib.sha256(bytes(size)).digest(), size
            self.sends.put(archive, bytes(size))


def send(backup, name, path):
    """Sends an image or a device, and gives what the manifest lists: nothing where it cannot be opened, which is told."""
    try:
        file = os.open(path, os.O_RDONLY | os.O_CLOEXEC | os.O_NONBLOCK)
    except OSError as error:
        backup.left_out.append(LeftOut(os.fsencode(path), error.strerror))
        return []
    try:
        return [Image(backup, name, path).send(file)]
    finally:
        os.close(file)

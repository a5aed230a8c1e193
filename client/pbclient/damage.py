"""What is known of a store's damaged chunks, from one call of the client to the next: so a backup sends them again, though the snapshot before
has them.

They stand in the file `damaged-chunks` of the store's folder, a line of 64 hexadecimal digits each. The program leaves that file alone.
A chunk's file that is damaged is put aside as DIGEST.0.bad to DIGEST.9.bad, since the program writes over no chunk's file.
"""
import os

from . import chunks
from .failures import Failure
from .store import NOTE, held

# So many bad files of one chunk are put aside at most.
ASIDES = 10


def noted(root):
    """The digests that are noted."""
    try:
        with open(os.path.join(root, NOTE)) as it:
            return {bytes.fromhex(line.strip()) for line in it if chunks.NAME.fullmatch(line.strip())}
    except FileNotFoundError:
        return set()


def write(root, digests):
    """Notes these digests and no others."""
    path = os.path.join(root, NOTE)
    if not digests:
        if os.path.lexists(path):
            os.remove(path)
        return
    with open(f"{path}.new", "w") as out:
        out.writelines(f"{it.hex()}\n" for it in sorted(digests))
        out.flush()
        os.fsync(out.fileno())
    os.replace(f"{path}.new", path)


def add(root, digests):
    """Notes these digests too."""
    found = noted(root)
    if not found.issuperset(digests):
        write(root, found | set(digests))


def set_aside(root):
    """The noted chunks that a backup must send: those whose files are missing or damaged. The damaged ones are put aside, unless a run has
    the store."""
    if not noted(root):
        return set()
    with held(root) as free:
        if not free:
            return noted(root)
        bad = set(chunks.bad_of(root, noted(root)))
        for digest in bad:
            put_aside(chunks.path_of(root, digest))
        write(root, bad)
        return bad


def put_aside(path):
    """Gives a bad file a name that is free, and writes over none."""
    if not os.path.lexists(path):
        return
    free = [it for it in (f"{path}.{number}.bad" for number in range(ASIDES)) if not os.path.lexists(it)]
    if not free:
        raise Failure(f"{path} was damaged {ASIDES} times", "look after the disk, and remove this chunk's .bad files")
    os.rename(path, free[0])


def settle(root):
    """Notes no more those chunks that are whole again."""
    found = noted(root)
    if found:
        write(root, set(chunks.bad_of(root, found)))

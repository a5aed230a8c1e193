"""Faults in a SYNC: what the remote lacks or has damaged, reads of it that fail, and a disk that stops."""
from scenarios.archives import AGAIN
from scenarios.backups import *
from scenarios.pulls import SYNC_A
from scenarios.verifies import A_CONF, A_ROOT, LENGTHS, OF_ANOTHER_GROUP, SHORTER, TOO_LONG, both_listed, of_lengths

BACKUP = "a backup of a blob and an archive"
CONF_MISSING, ROOT_MISSING = unreadable(A_CONF), unreadable(A_ROOT)
# All is sent, and FINISH is refused.
NOT_FINISHED = [1, 0, 0, 1] + [1, 0] + [1, 0, 1, 0, 1, 0, 0, 0] + [0, 0, 0, 0, 6]
BLOB_READ = [1, 0, 0, 1, 1, 0, 0, 6]
INDEX_READ = [1, 0, 0, 1, 1, 0, 1, 0, 0, 6]
CHUNK_READ = [1, 0, 0, 1, 1, 0, 1, 0, 1, 0, 0, 6]


def missing(piece, found=0, other=bytes(32)):
    return damaged(sha256(piece), found, other)


# The steps of a SYNC up to the chunk whose length is another than the index says: it is read where it stands first.
LENGTH_READ = [
    CHUNK_READ,
    [1, 0, 0, 1, 1, 0, 1, 0, 1, 0, 1, 0, 0, 6],
    CHUNK_READ,
    [1, 0, 0, 1, 1, 0, 1, 0, 1, 0, 0, 0, 6],
    CHUNK_READ,
    CHUNK_READ,
]

FIXED_NONE = [(PLAIN, blob(manifest(A, listed("root.fidx", 3, fixed_csum([b"abc"]))))), (f"{A}/root.fidx", b"abc")]

# What changes on the remote behind a backup of a blob and an archive, what a SYNC of it is told, and the kinds of the entries, those of
# a GROUP and of the end among them. The first refused step or read is the answer, behind an ABORT.
CHANGED = [
    ("the manifest goes", [(PLAIN, None)], keys(), [1, 0, 0, 6]),
    ("the manifest into none", [(PLAIN, b"abc")], unreadable(PLAIN), [1, 0, 0, 1, 0, 0, 6]),
    (
        "the manifest into one that lists itself",
        [(PLAIN, blob(manifest(A, listed(MANIFEST, 1, bytes(32)))))],
        exists(),
        [1, 0, 0, 1, 1, 0, 0, 0, 0, 6],
    ),
    (
        "the manifest into one that lists the archive twice",
        [(PLAIN, blob(manifest(A, *[listed("root.didx", 5, BOTH_CSUM)] * 2)))],
        unreadable(PLAIN),
        [1, 0, 0, 1, 0, 0, 6],
    ),
    ("the manifest into one that lists 64 files", [(PLAIN, many_listed(64))], unreadable(PLAIN), [1, 0, 0, 1, 0, 0, 6]),
    ("the manifest into one that is too long", [(PLAIN, TOO_LONG)], unreadable(PLAIN), [1, 0, 0, 1, 0, 0, 6]),
    ("the manifest into one of another group", [(PLAIN, OF_ANOTHER_GROUP)], mismatch(2), NOT_FINISHED),
    ("the size of the archive", [(PLAIN, both_listed(size=6))], mismatch(6, "root.didx"), NOT_FINISHED),
    ("the blob goes", [(A_CONF, None)], CONF_MISSING, BLOB_READ),
    ("the blob into none", [(A_CONF, b"abc")], CONF_MISSING, BLOB_READ),
    ("the blob's CRC", [(A_CONF, blob(b"123456789", crc=0xCBF43927))], CONF_MISSING, BLOB_READ),
    ("the blob into another", [(A_CONF, SHORTER)], mismatch(6, "a.conf.blob"), NOT_FINISHED),
    ("the index goes", [(A_ROOT, None)], ROOT_MISSING, INDEX_READ),
    ("the index into none", [(A_ROOT, b"abc")], ROOT_MISSING, INDEX_READ),
    ("the index into no bytes", [(A_ROOT, b"")], ROOT_MISSING, INDEX_READ),
    ("the first chunk goes", [(ABC, None)], missing(b"abc"), CHUNK_READ),
    ("the first chunk's CRC", [(ABC, blob(b"abc")[:12] + b"abd")], missing(b"abc", 1), CHUNK_READ),
    ("the first chunk into the second's", [(ABC, blob(b"de"))], missing(b"abc", 2, sha256(b"de")), CHUNK_READ),
    ("the second chunk goes", [(DE, None)], missing(b"de"), [1, 0, 0, 1, 1, 0, 1, 0, 1, 0, 1, 0, 0, 6]),
    *(
        (name, of_lengths(file, said), missing(piece, 2, sha256(piece)), steps)
        for (name, file, said, piece), steps in zip(LENGTHS, LENGTH_READ)
    ),
    ("the blob into one that is too long", [(A_CONF, TOO_LONG)], CONF_MISSING, BLOB_READ),
    ("the archive into one of a fixed index that is none", FIXED_NONE, unreadable(f"{A}/root.fidx"), BLOB_READ),
]
# Two backups of one archive, the second by PREVIOUS alone, and a restore.
TWO = "two backups of an archive"
# The entries of a SYNC of both: the lists; the first; the second, of which each chunk is sent anew.
SYNCED = [1, 0] + [0, 1, 1, 0, 1, 0, 1, 0, 0, 0, 0, 0] * 2
FIRST_FINISH, LATER_FINISH = 13, 25
# Where the entry stands that each call of the remote is made for: a list, a size and a part of each file, a size and a read of
# each chunk.
PLACES = [0, 3, 3, 4, 4, 6, 6, 8, 8, 15, 15, 16, 16, 18, 18, 20, 20]


def failed_read(call, place_of):
    """What was pulled before stays. An ABORT is next, but behind the list, and then GROUP and the end."""
    left_here = keys() if place_of < FIRST_FINISH else keys(A)
    return scenario(
        f"call {call} of the remote fails",
        there(start_from(TWO)),
        remote_fails(call),
        talk([(SYNC_A, refused(30)), (GROUP, left_here)], "RemoteFault"),
        kinds(*SYNCED[:place_of], 7, *[0] * (place_of > 0), 0, 6),
        remote_faults(1),
    )


# The calls of the disk: opening's, those of a list, two chunks of four, two asked for, two indexes of three, two FINISHes of four, and of
# the save of the book.
SYNC_CALLS = 3 + 8 + 2 + 6 + 8 + 3
# What a later SYNC is told where none was finished, the first, or both; then all stands here.
THERE = [f"{it}/{name}" for it in (A, A_LATER) for name in (MANIFEST, "root.didx")]
PULLED_LATER = [
    (0, FIRST_FINISH + 1, [(SYNC_A, keys(A, A_LATER))], THERE),
    (FIRST_FINISH + 1, LATER_FINISH + 1, [(SYNC_A, keys(A_LATER))], THERE),
    (LATER_FINISH + 1, 99, [(SYNC_A, keys())], THERE),
]


SCENARIOS = [
    kept_backup(BACKUP, ROOT_SENT, FIRST_RUN),
    *(
        scenario(
            f"changed: {name}",
            there(start_from(BACKUP), flat(change(*it) for it in changes)),
            talk([(SYNC_A, reply), (GROUP, keys())]),
            kinds(*steps),
        )
        for name, changes, reply, steps in CHANGED
    ),
    kept_backup(TWO, AGAIN),
    *(failed_read(*row) for row in enumerate(PLACES)),
    scenario(
        "both are pulled, and none of the remote's calls is left to fail",
        there(start_from(TWO)),
        talk([(SYNC_A, keys(A, A_LATER)), (GROUP, keys(A, A_LATER))]),
        kinds(*SYNCED, 0, 6),
        remote_made(len(PLACES)),
        same(),
    ),
    scenario(
        "a SYNC of both is stopped",
        there(start_from(TWO)),
        sent([(SYNC_A, keys(A, A_LATER))]),
        flat(found(*it) for it in PULLED_LATER),
        # two chunks have four calls, each index three, and each FINISH four; the second's chunks are asked for
        sweep(SYNC_CALLS),
    ),
    # the first call behind opening's three: the blob is put
    scenario(
        "the disk fails as a blob is put: nothing is pulled, and no writer ended",
        there(start_from(BACKUP)),
        fails(3),
        talk([(SYNC_A, disk_fault()), (GROUP, halted(5))], "DiskFault"),
        kinds(1, 0, 0, 1, 1, 5, 5, 6),
    ),
    scenario(
        "behind a fault of the disk a SYNC reads nothing",
        there(start_from(BACKUP)),
        fails(3),
        talk([(open_writer(B), base()), (chunk(b"abc"), disk_fault()), (SYNC_A, halted(1))], "DiskFault"),
        kinds(0, 5, 5, 6),
        remote_made(0),
    ),
]

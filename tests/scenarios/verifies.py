"""Snapshots that are verified."""
from scenarios.archives import FIXED
from scenarios.backups import *

A_CONF, A_ROOT = f"{A}/a.conf.blob", f"{A}/root.didx"
VERIFY_A, VERIFY_LATER = verify(A), verify(A_LATER)
SHORTER = blob(b"12345678")


def both_listed(snapshot=A, conf=blob(b"123456789"), size=5, csum=BOTH_CSUM):
    """The manifest's file of a snapshot with a blob and an archive, listed as these."""
    return blob(manifest(snapshot, listed_blob("a.conf.blob", conf), listed("root.didx", size, csum)))


OF_ANOTHER_GROUP = both_listed(B)


def of_lengths(name, said):
    """What changes where the snapshot's archive is another, with right checksums, by which pieces may have other lengths than their
    chunks: a dynamic index's entries, or a fixed one's size of `abc`."""
    if name == "root.fidx":
        size, csum, entries = said, fixed_csum([b"abc"]), sha256(b"abc")
        header = fixed_header(uuid_of(A, name), NOW, csum, size, 4096)
    else:
        size, entries = said[-1][0], entries_of([(end, sha256(piece)) for end, piece in said])
        csum = sha256(entries)
        header = dynamic_header(uuid_of(A, name), NOW, csum)
    whole = manifest(A, listed_blob("a.conf.blob", blob(b"123456789")), listed(name, size, csum))
    return [(PLAIN, blob(whole)), (f"{A}/{name}", header.ljust(INDEX_HEADER, b"\0") + entries)]


# Such archives, each with the piece that has another length.
LENGTHS = [
    ("by its index the first chunk is longer", "root.didx", [(4, b"abc"), (6, b"de")], b"abc"),
    ("by its index the second chunk is longer", "root.didx", [(3, b"abc"), (6, b"de")], b"de"),
    ("by its index the first chunk is shorter", "root.didx", [(2, b"abc"), (4, b"de")], b"abc"),
    ("by its index a chunk is longer where it stands again", "root.didx", [(3, b"abc"), (7, b"abc")], b"abc"),
    ("by a fixed index the chunk is longer", "root.fidx", 4, b"abc"),
    ("by a fixed index the chunk is shorter", "root.fidx", 2, b"abc"),
]
# A byte more than a blob may have.
TOO_LONG = bytes(PIECE_LIMIT + 13)


def of_length(name, file, said, piece):
    """A VERIFY tells the chunk of another length."""
    count, size = (1, said) if file == "root.fidx" else (len(said), said[-1][0])
    reply = verified(3, count, size, file_fault(file, 23, sha256(piece)))
    return name, of_lengths(file, said), reply, 7 + count


def listed_so(conf):
    """The blob's file has these bytes, and is listed so."""
    return [(A_CONF, conf), (PLAIN, both_listed(conf=conf))]


def told(*faults):
    return verified(3, 2, 5, *faults)


CONF_DIFFERS = file_fault("a.conf.blob", 19)
CONF_UNREADABLE = file_fault("a.conf.blob", 24)
LISTED_OTHERWISE = file_fault(MANIFEST, 19)
ROOT_DIFFERS = file_fault("root.didx", 19)
ABC_DAMAGED = file_fault("root.didx", 23, sha256(b"abc"))
DE_DAMAGED = file_fault("root.didx", 23, sha256(b"de"))

# What changes behind a backup, what a VERIFY then tells, and how many entries its order has: of the steps, one of OPEN_READER, one of
# FILES, one of each file and of each chunk, one of CLOSE_READER; and of the lane's end.
CHANGED = [
    ("nothing", [], told(), 9),
    ("the blob's size", [(A_CONF, SHORTER)], told(CONF_DIFFERS), 9),
    ("the blob's data", [(A_CONF, blob(b"123456780"))], told(CONF_DIFFERS), 9),
    ("the blob into none, listed so", listed_so(b"abc"), told(CONF_UNREADABLE), 9),
    ("the blob's CRC, listed so", listed_so(blob(b"123456789", crc=0xCBF43927)), told(CONF_UNREADABLE), 9),
    ("the blob into no bytes, listed so", listed_so(b""), told(CONF_UNREADABLE), 9),
    ("the blob into that of nothing, listed so", listed_so(blob(b"")), told(), 9),
    ("the manifest into another snapshot's", [(PLAIN, OF_ANOTHER_GROUP)], told(LISTED_OTHERWISE), 9),
    ("the index into none: no chunks are read", [(A_ROOT, b"abc")], verified(3, 0, 0, file_fault("root.didx", 24)), 7),
    ("the size of the archive, and a chunk goes", [(ABC, None), (PLAIN, both_listed(size=6))], told(ROOT_DIFFERS), 9),
    ("the checksum of the archive", [(PLAIN, both_listed(csum=dynamic_csum([b"abc", b"xyz"])))], told(ROOT_DIFFERS), 9),
    ("the first chunk goes", [(ABC, None)], told(ABC_DAMAGED), 9),
    ("the second chunk goes", [(DE, None)], told(DE_DAMAGED), 9),
    ("both chunks go", [(ABC, None), (DE, None)], told(ABC_DAMAGED), 9),
    ("the second chunk into the first's", [(DE, blob(b"abc"))], told(DE_DAMAGED), 9),
    (
        "each of the files",
        [(DE, None), (A_CONF, SHORTER), (PLAIN, OF_ANOTHER_GROUP)],
        told(CONF_DIFFERS, LISTED_OTHERWISE, DE_DAMAGED),
        9,
    ),
    ("the manifest into none: nothing is read", [(PLAIN, b"abc")], unreadable(PLAIN), 2),
    ("the blob goes: nothing is read", [(A_CONF, None)], unreadable(A_CONF), 2),
    *(of_length(*row) for row in LENGTHS),
    ("the blob into one that is too long, of which one part is read", [(A_CONF, TOO_LONG)], told(CONF_DIFFERS), 9),
]

# An archive of 4,096 `x` and `y`, and over it one of `x` twice.
Y = b"y"


def chunk_file(piece):
    """Where its chunk stands."""
    return f".chunks/{sha256(piece).hex()[:4]}/{sha256(piece).hex()}"


X_FILE, Y_FILE = chunk_file(X), chunk_file(Y)
# Each with how many entries the order of the VERIFY has.
FIXED_CHANGED = [
    ("the first, as it was sent", [], VERIFY_A, verified(2, 2, 4097), 8),
    ("the first, whose second chunk is gone", [(Y_FILE, None)], VERIFY_A, verified(2, 2, 4097, file_fault("root.fidx", 23, sha256(Y))), 8),
    ("the later one, as it was sent", [], VERIFY_LATER, verified(2, 2, 8192), 8),
    ("the later one, where another's chunk is gone", [(Y_FILE, None)], VERIFY_LATER, verified(2, 2, 8192), 8),
    ("the later one, whose chunk is gone", [(X_FILE, None)], VERIFY_LATER, verified(2, 2, 8192, file_fault("root.fidx", 23, sha256(X))), 8),
    (
        "the first, whose index is none: no chunks are read",
        [(f"{A}/root.fidx", b"abc")],
        VERIFY_A,
        verified(2, 0, 0, file_fault("root.fidx", 24)),
        6,
    ),
]

# More parts of one batch than threads test at once: 31 of 128 short pieces, and two of one long piece. Each of these is another piece's,
# and the piece behind them is missing: the first is told.
LONG, OTHER_LONG = bytes(2 << 20), b"x" * (2 << 20)
PIECES = [b"x"] * 3968 + [LONG, OTHER_LONG, b"z"]
PARTS_SIZE = sum(map(len, PIECES))
PARTS = [
    (PLAIN, blob(manifest(A, listed("root.didx", PARTS_SIZE, dynamic_csum(PIECES))))),
    (A_ROOT, dynamic_index(A, "root.didx", NOW, PIECES)),
    (chunk_file(b"x"), blob(b"x")),
    (chunk_file(LONG), blob(OTHER_LONG)),
    (chunk_file(OTHER_LONG), blob(LONG)),
]
PARTS_TOLD = verified(2, len(PIECES), PARTS_SIZE, file_fault("root.didx", 23, sha256(LONG)))

# The reader of a VERIFY is closed behind it: no lane holds the snapshot.
NO_FAULT = verified(2, 2, 5)
ASKED = [
    (VERIFY_A, wrong_state(1)),
    *ROOT_FINISHED,
    (VERIFY_A, NO_FAULT),
    (VERIFY_A, NO_FAULT),
    (VERIFY_LATER, no_snapshot()),
    (verify("host/a"), bad_name()),
    (open_reader(A), DONE),
    (VERIFY_A, wrong_state(2)),
    (close_reader(), DONE),
    (forget(A), DONE),
    (VERIFY_A, no_snapshot()),
]


def changed(backup, name, changes, command, reply, *checks):
    return scenario(name, start_from(backup), flat(change(*it) for it in changes), talk([(command, reply)]), *checks)


SCENARIOS = [
    scenario("when a VERIFY is refused", talk(ROOT_SENT + ASKED)),
    kept_backup("a backup of a blob and an archive", ROOT_SENT, FIRST_RUN),
    *(
        changed("a backup of a blob and an archive", f"changed: {name}", changes, VERIFY_A, reply, entries(count))
        for name, changes, reply, count in CHANGED
    ),
    kept_backup("two archives of pieces of a fixed size", FIXED),
    *(
        changed("two archives of pieces of a fixed size", f"fixed: {name}", changes, command, reply, entries(count))
        for name, changes, command, reply, count in FIXED_CHANGED
    ),
    scenario("more parts than threads", flat(place(*it) for it in PARTS), talk([(VERIFY_A, PARTS_TOLD)])),
]

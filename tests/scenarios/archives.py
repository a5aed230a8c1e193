"""Archives that are sent, taken over by later backups, and read: of pieces of any size and of one size, and where a chunk is damaged."""
from scenarios.backups import *

BAD, IN_WRITER, IN_READER = bad_name(), wrong_state(1), wrong_state(2)
NO_SESSION, UNKNOWN = wrong_state(0), unknown_chunk(0)
ALL_ABC = (get_chunk(sha256(b"abc")), rest(blob(b"abc")))
NOT_ALLOWED = [(ALL_ABC[0], not_allowed()), (ALL_FIVE[0], not_allowed())]
NAME_ABC, NEW_ROOT = append(0, (b"abc", 0)), (new_dynamic("root.didx"), number(0))
LISTED = manifest(A, listed("root.didx", 5, BOTH_CSUM))

# When a session ends behind CLOSE_INDEX, nothing is finished and listed, the group is free, and the next backup has no base.
NOTHING_THERE = [(LIST, rows()), (GROUP, NONE_THERE)]
UNFINISHED = [*NOTHING_THERE, *ROOT_SENT, *NOTHING_THERE]

# FINISH wants a manifest and all indexes closed. A manifest's checksums may have capital letters, and it may have fields more.
ROOT_ROW = f'{{"csum":"{BOTH_CSUM.hex().upper()}","filename":"root.didx","size":5}}'
CONF_ROW = f'{{"crypt-mode":"none","csum":"{sha256(blob(b"123456789")).hex()}","filename":"a.conf.blob","size":21,"more":[1]}}'
WITH_MORE = (
    f'{{"backup-id":"a","backup-time":1579069803,"backup-type":"host","files":[{ROOT_ROW},{CONF_ROW}],'
    '"unprotected":{"a":1},"signature":null}'
)
FINISHED = [
    (finish(), NO_SESSION),
    *ROOT_SENT,
    (put("a.conf.blob", b"123456789"), DONE),
    (finish(), no_file()),
    (put(MANIFEST, WITH_MORE.encode()), DONE),
    (finish(), DONE),
    (finish(), NO_SESSION),
    (open_writer(A_LATER), base(A)),
    (finish(), no_file()),
    NEW_ROOT,
    (put(MANIFEST, b"[]"), DONE),
    (finish(), open_indexes(1)),
]

# A SYNC is refused in this order, and leaves the session as it is.
SYNC_A = sync("host/a")
SYNCED = [
    *ROOT_SENT,
    (SYNC_A, IN_WRITER),
    *ROOT_FINISHED,
    (SYNC_A, no_remote()),
    (sync("host"), BAD),
    (sync(A), BAD),
    (open_reader(A), DONE),
    (SYNC_A, IN_READER),
    (sync("host"), IN_READER),
    (close_reader(), DONE),
    (SYNC_A, no_remote()),
]

# And a VERIFY. Its reader is closed behind it: no lane holds the snapshot.
VERIFIED = [
    *ROOT_SENT,
    (verify(A), IN_WRITER),
    *ROOT_FINISHED,
    (verify(A), verified(2, 2, 5)),
    (verify(A), verified(2, 2, 5)),
    (verify(A_LATER), no_snapshot()),
    (verify("host/a"), BAD),
    (open_reader(A), DONE),
    (verify(A), IN_READER),
    (close_reader(), DONE),
    (forget(A), DONE),
    (verify(A), no_snapshot()),
]

# Ranges of an archive, and chunks: what was downloaded allows them.
RANGES = [
    *((it, NO_SESSION) for it, _ in NOT_ALLOWED),
    *ROOT_SENT,
    ROOT_FINISHED[0],
    *((it, IN_WRITER) for it, _ in NOT_ALLOWED),
    ROOT_FINISHED[1],
    # another group's snapshot, of the piece `xyz`
    (open_writer(B), base()),
    NEW_ROOT,
    (chunk(b"xyz"), DONE),
    (append(0, (b"xyz", 0)), DONE),
    (close_index(0, 1, 3, dynamic_csum([b"xyz"])), DONE),
    (put_manifest(B, listed("root.didx", 3, dynamic_csum([b"xyz"]))), DONE),
    (finish(), DONE),
    (open_reader(A), DONE),
    # before any DOWNLOAD nothing is allowed, and names come first
    NOT_ALLOWED[0],
    (range_of("root.didx", 2, 2), not_allowed()),
    (range_of("root.didx", 6, 4194305), not_allowed()),
    (range_of("a.blob", 0, 1), BAD),
    (range_of(MANIFEST, 0, 1), BAD),
    (range_of("root", 0, 1), BAD),
    (range_of("b.didx", 0, 1), no_file()),
    (range_of("root.fidx", 0, 1), no_file()),
    # a refused DOWNLOAD, and one of a blob, allow nothing
    (download("root.didx", 4177), bad_range(4176)),
    (download(MANIFEST, 213), part(blob(LISTED), 213)),
    *NOT_ALLOWED,
    # one of the index allows its digests, whatever the offset, and again
    FROM_END,
    FROM_END,
    ALL_ABC,
    (get_chunk(sha256(b"de")), rest(blob(b"de"))),
    (get_chunk(sha256(b"xyz")), not_allowed()),
    (get_chunk(sha256(b"")), not_allowed()),
    # bytes 2 and 3, all, the last two, and none at the end
    (range_of("root.didx", 2, 2), rest(b"cd")),
    ALL_FIVE,
    (range_of("root.didx", 3, 2), rest(b"de")),
    (range_of("root.didx", 5, 0), DONE),
    # none within a piece, and where one begins
    (range_of("root.didx", 1, 0), DONE),
    (range_of("root.didx", 3, 0), DONE),
    # past the content's end; more than one reply holds comes first
    (range_of("root.didx", 4, 2), bad_range(5)),
    (range_of("root.didx", 6, 0), bad_range(5)),
    (range_of("root.didx", 2**64 - 1, 1), bad_range(5)),
    (range_of("root.didx", 0, 4194304), bad_range(5)),
    (range_of("root.didx", 6, 4194305), too_many(4194304)),
    (close_reader(), DONE),
    # another reader has downloaded nothing
    (open_reader(A), DONE),
    *NOT_ALLOWED,
]

# A second backup sends one piece, and takes those of the first over.
SHARING = [b"de", b"abc", b"xyz"]
REUSED = [
    # no snapshot stands before; names come first
    (previous("root.didx"), NO_SESSION),
    (open_writer(A), base()),
    (previous("root.didx"), no_snapshot()),
    (previous("root"), BAD),
    (abort(), DONE),
    *ROOT_SENT,
    *ROOT_FINISHED,
    # the next must be later
    (open_writer(A), not_newer(A)),
    (open_writer("host/a/2020-01-15T06:30:02Z"), not_newer(A)),
    # another group's digest, and one of no chunk
    (open_writer(B), base()),
    NEW_ROOT,
    (NAME_ABC, UNKNOWN),
    (append(0, (b"", 0)), UNKNOWN),
    (previous("root.didx"), no_snapshot()),
    (abort(), DONE),
    # over the first snapshot
    (open_writer(A_LATER), base(A)),
    NEW_ROOT,
    (NAME_ABC, UNKNOWN),
    (previous("root"), BAD),
    (previous("b.didx"), no_file()),
    # a refused PREVIOUS, and one of a blob, add nothing
    (previous("root.didx", 4177), bad_range(4176)),
    (previous(MANIFEST, 213), part(blob(LISTED), 213)),
    (previous(MANIFEST, 214), bad_range(213)),
    (NAME_ABC, UNKNOWN),
    # one of the index adds its pieces, whatever the offset
    (previous("root.didx", 4136), part(ROOT, 4136)),
    (chunk(b"xyz"), DONE),
    (append(0, (b"de", 0), (b"abc", 2), (b"xyz", 5)), DONE),
    (close_index(0, 3, 8, dynamic_csum(SHARING)), DONE),
    (put_manifest(A_LATER, listed("root.didx", 8, dynamic_csum(SHARING))), DONE),
    (finish(), DONE),
    # it restores whole, and so does the first
    (open_reader(A_LATER), DONE),
    (previous("root.didx"), IN_READER),
    (download("root.didx", 4096), part(dynamic_index(A, "root.didx", NOW, SHARING), 4096)),
    (range_of("root.didx", 0, 8), rest(b"deabcxyz")),
    ALL_ABC,
    (close_reader(), DONE),
    (open_reader(A), DONE),
    FROM_END,
    ALL_FIVE,
    (close_reader(), DONE),
    (open_writer(A_LATER), not_newer(A_LATER)),
]

# A second backup by PREVIOUS alone, and its restore.
OVER = [
    (open_writer(A_LATER), base(A)),
    (previous("root.didx", 4136), part(ROOT, 4136)),
    NEW_ROOT,
    (append(0, (b"abc", 0), (b"de", 3)), DONE),
    (close_index(0, 2, 5, BOTH_CSUM), DONE),
    (put_manifest(A_LATER, listed("root.didx", 5, BOTH_CSUM)), DONE),
    (finish(), DONE),
]
LATER_READ = [(open_reader(A_LATER), DONE), FROM_END, ALL_ABC, ALL_FIVE, (close_reader(), DONE)]
AGAIN = [*ROOT_SENT, *ROOT_FINISHED, *OVER, *LATER_READ]
BOTH_THERE = [(DE, 14), (ABC, 15)]
ROOTS = [
    *BOTH_THERE,
    (PLAIN, 213),
    (f"{A}/root.didx", 4176),
    (f"{A_LATER}/{MANIFEST}", 213),
    (f"{A_LATER}/root.didx", 4176),
]
# One that names `abc` by PREVIOUS, and sends it all the same.
SENT_OVER = [*OVER[:2], (chunk(b"abc"), DONE), *OVER[2:], *LATER_READ, (open_reader(A), DONE), FROM_END, ALL_FIVE]

# A PREVIOUS where its chunks are known: one was sent before, its archive names it twice, and the same archive comes again.
TWICE = [b"abc", b"abc"]
TWICE_CLOSED = [(append(0, (b"abc", 0), (b"abc", 3)), DONE), (close_index(0, 2, 6, dynamic_csum(TWICE)), DONE)]
TWICE_SENT = (previous("root.didx", 4136), part(dynamic_index(A, "root.didx", NOW, TWICE), 4136))


def twice_finished(snapshot):
    return [(put_manifest(snapshot, listed("root.didx", 6, dynamic_csum(TWICE))), DONE), (finish(), DONE)]


KNOWN = [
    (open_writer(A), base()),
    NEW_ROOT,
    (chunk(b"abc"), DONE),
    *TWICE_CLOSED,
    *twice_finished(A),
    (open_writer(A_LATER), base(A)),
    (chunk(b"abc"), DONE),
    TWICE_SENT,
    TWICE_SENT,
    NEW_ROOT,
    *TWICE_CLOSED,
    *twice_finished(A_LATER),
    (open_reader(A_LATER), DONE),
    (download("root.didx", 4176), part(dynamic_index(A_LATER, "root.didx", NOW, TWICE), 4176)),
    (range_of("root.didx", 0, 6), rest(b"abcabc")),
]

# Sizes of a fixed archive that are refused, and one that ends before its size.
NEW_4097 = new_fixed("root.fidx", 4097, 4096)
FIXED_REFUSED = [
    (NEW_4097, NO_SESSION),
    (open_writer(A), base()),
    (new_fixed("root.didx", 8192, 5000), BAD),
    (new_fixed("root.blob", 8192, 4096), BAD),
    # chunk sizes
    (new_fixed("root.fidx", 8192, 5000), wrong_size(0, 5000)),
    (new_fixed("root.fidx", 8192, 0), wrong_size(0, 0)),
    (new_fixed("root.fidx", 8192, 2048), wrong_size(0, 2048)),
    (new_fixed("root.fidx", 8192, 33554432), wrong_size(0, 33554432)),
    (new_fixed("root.fidx", 2**64 - 1, 5000), wrong_size(0, 5000)),
    # a piece more than an index may have, and as many
    (new_fixed("root.fidx", 4294967297, 4096), too_many(1048576)),
    (new_fixed("root.fidx", 2**64 - 1, 16777216), too_many(1048576)),
    (new_fixed("root.fidx", 4294967296, 4096), number(0)),
    # its name is taken
    (new_fixed("root.fidx", 8192, 5000), exists()),
    # it ends before its size, and is open still
    (close_index(0, 0, 0, sha256(b"")), bad_close(4, 4294967296)),
    (finish(), open_indexes(1)),
    # the least number that is free
    (new_fixed("a.fidx", 0, 16777216), number(1)),
    (close_index(1, 0, 0, sha256(b"")), DONE),
    (new_dynamic("root.didx"), number(1)),
    (finish(), open_indexes(2)),
    (abort(), DONE),
]

# An archive of 4,096 `x` and of `y`, and over it one of 8,192 bytes.
X_AND_Y = fixed_csum([X, b"y"])
FIXED_SENT = [
    (open_writer(A), base()),
    (NEW_4097, number(0)),
    (chunk(X), DONE),
    (chunk(b"y"), DONE),
    (append(0, (X, 0), (b"y", 4096)), DONE),
    (close_index(0, 2, 4097, X_AND_Y), DONE),
    (put_manifest(A, listed("root.fidx", 4097, X_AND_Y)), DONE),
    (finish(), DONE),
]
FIXED = [
    (open_writer(A), base()),
    (NEW_4097, number(0)),
    (chunk(X), DONE),
    (chunk(b"y"), DONE),
    (chunk(b"yz"), DONE),
    # pieces of other sizes, of which nothing is taken
    (append(0, (X, 0), (b"yz", 4096)), wrong_size(1, 2)),
    (append(0, (X, 0), (X, 4096)), wrong_size(1, 4096)),
    (append(0, (b"y", 0)), wrong_size(0, 1)),
    # of one entry: the digest, then the offset, then the size
    (append(0, (b"xyz", 1)), UNKNOWN),
    (append(0, (b"y", 1)), bad_offset(0, 0)),
    (append(0, (X, 0)), DONE),
    (close_index(0, 1, 4096, fixed_csum([X])), bad_close(4, 4097)),
    (append(0, (b"y", 4096)), DONE),
    # it is full
    (append(0, (b"y", 4097)), wrong_size(0, 1)),
    (close_index(0, 1, 4096, sha256(b"")), bad_close(1, 2)),
    (close_index(0, 2, 4096, sha256(b"")), bad_close(2, 4097)),
    (close_index(0, 2, 4097, sha256(b"")), bad_close(3, X_AND_Y)),
    (close_index(0, 2, 4097, X_AND_Y), DONE),
    (put_manifest(A, listed("root.fidx", 4097, X_AND_Y)), DONE),
    (finish(), DONE),
    (open_reader(A), DONE),
    (download("root.fidx"), part(fixed_index(A, "root.fidx", NOW, [X, b"y"]))),
    (range_of("root.fidx", 4095, 2), rest(b"xy")),
    (range_of("root.fidx", 4097, 0), DONE),
    (range_of("root.fidx", 4097, 1), bad_range(4097)),
    (get_chunk(sha256(b"y")), rest(blob(b"y"))),
    (close_reader(), DONE),
    # 8,192 bytes of two pieces of the snapshot before
    (open_writer(A_LATER), base(A)),
    (new_fixed("root.fidx", 8192, 4096), number(0)),
    (append(0, (X, 0)), UNKNOWN),
    (previous("root.fidx", 4160), part(fixed_index(A, "root.fidx", NOW, [X, b"y"]), 4160)),
    (append(0, (X, 0), (X, 4096)), DONE),
    (close_index(0, 2, 8192, fixed_csum([X, X])), DONE),
    (put_manifest(A_LATER, listed("root.fidx", 8192, fixed_csum([X, X]))), DONE),
    (finish(), DONE),
    (open_reader(A_LATER), DONE),
    (download("root.fidx", 4096), part(fixed_index(A, "root.fidx", NOW, [X, X]), 4096)),
    (range_of("root.fidx", 4095, 2), rest(b"xx")),
    (range_of("root.fidx", 8191, 2), bad_range(8192)),
]

# What stands under the name of `abc` before, and is no chunk of it: what GET_CHUNK and RANGE tell. A CHUNK does not touch what is there,
# and the other piece is whole.
DAMAGED = [
    ("its last byte is another", blob(b"abc")[:-1] + b"d", damaged(sha256(b"abc"), 1)),
    ("no bytes are there", b"", damaged(sha256(b"abc"), 1)),
    ("another piece's blob is there", blob(b"de"), damaged(sha256(b"abc"), 2, sha256(b"de"))),
    ("that of nothing is there", blob(b""), damaged(sha256(b"abc"), 2, sha256(b""))),
]
ABC_DAMAGED = verified(2, 2, 5, file_fault("root.didx", 23, sha256(b"abc")))


# An index of its size that is none: a DOWNLOAD of it allows nothing, and a PREVIOUS of it adds nothing.
FIXED_ROOT = fixed_index(A, "root.fidx", NOW, [X, b"y"])
NO_INDEXES = [
    ("a dynamic one of another magic number", ROOT_SENT + ROOT_FINISHED, "root.didx", FIXED_MAGIC + ROOT[8:]),
    ("a dynamic one of another checksum", ROOT_SENT + ROOT_FINISHED, "root.didx", ROOT[:-1] + b"\0"),
    ("a fixed one of another magic number", FIXED_SENT, "root.fidx", DYNAMIC_MAGIC + FIXED_ROOT[8:]),
    ("a fixed one of another checksum", FIXED_SENT, "root.fidx", FIXED_ROOT[:-1] + b"\0"),
]


def no_index(name, backup, file, there_then):
    read = [
        (open_reader(A), DONE),
        (download(file), unreadable(f"{A}/{file}")),
        (range_of(file, 0, 1), not_allowed()),
        (get_chunk(sha256(b"abc")), not_allowed()),
        (close_reader(), DONE),
        (open_writer(A_LATER), base(A)),
        (previous(file), unreadable(f"{A}/{file}")),
        NEW_ROOT,
        (NAME_ABC, UNKNOWN),
    ]
    return scenario(f"an index of its size that is none: {name}", talk(backup), place(f"{A}/{file}", there_then), talk(read))


def damaged_chunk(name, there_before, reply):
    read = [
        *ROOT_SENT,
        *ROOT_FINISHED,
        (open_reader(A), DONE),
        FROM_END,
        (ALL_ABC[0], reply),
        (ALL_FIVE[0], reply),
        (get_chunk(sha256(b"de")), rest(blob(b"de"))),
        (range_of("root.didx", 3, 2), rest(b"de")),
        (range_of("root.didx", 5, 0), DONE),
    ]
    verified_twice = [*ROOT_SENT, *ROOT_FINISHED, (verify(A), ABC_DAMAGED), (verify(A), ABC_DAMAGED)]
    return [
        *scenario(f"a chunk is damaged: {name}", place(ABC, there_before), talk(read)),
        *scenario(f"it is verified: {name}", place(ABC, there_before), talk(verified_twice)),
    ]


SCENARIOS = [
    kept_backup(BESIDE, EARLIER),
    alone_and_beside("ranges and chunks of an archive", RANGES),
    alone_and_beside("when a VERIFY is refused", VERIFIED),
    alone_and_beside("when a SYNC is refused", SYNCED),
    alone_and_beside("pieces are taken over from the snapshot before", REUSED),
    alone_and_beside("fixed archives that are refused", FIXED_REFUSED),
    alone_and_beside("a FINISH lacks something", FINISHED),
    alone_and_beside("fixed archives come back", FIXED),
    alone_and_beside("two backups of one archive, and a restore", AGAIN, ROOTS),
    scenario("unfinished backups end, twice", talk(UNFINISHED), talk(UNFINISHED), files_left(BOTH_THERE)),
    scenario("a PREVIOUS of chunks that are known", talk(KNOWN)),
    *(no_index(*row) for row in NO_INDEXES),
    *(damaged_chunk(*row) for row in DAMAGED),
    scenario(
        "a chunk that is sent is there, though it is known by PREVIOUS, and both backups restore whole",
        talk([*ROOT_SENT, *ROOT_FINISHED]),
        gone(ABC),
        talk(SENT_OVER),
    ),
]

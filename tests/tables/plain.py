"""The plain store: what lanes send and are told, the files of a datastore that is loaded, and jobs step by step."""
from pbclient.session import *
from tables.common import *


def sent(*parts):
    """The frames of what is sent of turns, each a command and its reply, around 4,096 zeros."""
    return [it for turns in parts for it in frames(*turns[::2]).split(ZEROS)]


def told(*parts):
    return [frames(*turns[1::2]) for turns in parts]


# A listing of an empty datastore and its reply; a collection's; and bytes with another at a place.
LIST, LISTED = frame(list_after()), frame(rows())
COLLECT, COLLECTED = frame(gc()), frame(collected(9, 8, 7, 6, 5))


def with_byte(data, place, byte):
    return data[:place] + bytes([byte]) + data[place + 1 :]


def misfit(entry):
    """The first entry that does not fit, of lane 0, when nothing was replayed."""
    return u64(entry) + u32(0) + u64(0)


# What the first lane does, turn by turn: a command, and its reply.
FIRST = [
    open_writer(A),
    base(),
    close_reader(),
    wrong_state(1),
    previous("root.fidx"),
    no_snapshot(),
    finish(),
    no_file(),
]
# Manifests that are none, of another group, and without an upload.
OTHER_MANIFESTS = [
    put(MANIFEST, b"x"),
    done(),
    put(MANIFEST, b"x"),
    exists(),
    finish(),
    bad_manifest(1),
    abort(),
    done(),
    open_writer(A),
    base(),
    put_manifest(B),
    done(),
    finish(),
    mismatch(2),
    abort(),
    done(),
    open_writer(A),
    base(),
    put_manifest(A),
    done(),
    put("set.blob", b""),
    done(),
    finish(),
    mismatch(5, "set.blob"),
    abort(),
    done(),
]
# A fixed archive of 4,097 bytes.
FIXED_ARCHIVE = [
    open_writer(A),
    base(),
    new_fixed("root.didx", 4097, 4096),
    bad_name(),
    new_fixed("root.fidx", 4097, 4095),
    wrong_size(0, 4095),
    new_fixed("root.fidx", 4294967297, 4096),
    too_many(1048576),
    new_fixed("root.fidx", 4097, 4096),
    base(),
    chunk(ZEROS),
    done(),
    chunk(b"x"),
    done(),
    append(0, (b"x", 0)),
    wrong_size(0, 1),
    append(0, (ZEROS, 0)),
    done(),
    close_index(0, 1, 4096, fixed_csum([ZEROS])),
    bad_close(4, 4097),
    append(0, (b"x", 4096)),
    done(),
    finish(),
    open_indexes(1),
    close_index(0, 2, 4097, fixed_csum([ZEROS, b"x"])),
    done(),
    put_manifest(A, listed("root.fidx", 4097, fixed_csum([ZEROS, b"x"]))),
    done(),
    finish(),
    done(),
    open_writer(A),
    not_newer(A),
]
# A backup that names a piece of the base.
BASE_NAMED = [
    open_writer("host/a/2020-01-16T06:30:03Z"),
    base(A),
    new_dynamic("set.didx"),
    base(),
    previous("set.didx"),
    no_file(),
    previous("root.fidx", 4161),
    bad_range(4160),
    append(0, (b"x", 0)),
    unknown_chunk(0),
    previous("root.fidx", 4096),
    part(fixed_index(A, "root.fidx", NOW, [ZEROS, b"x"]), 4096),
    append(0, (b"x", 0), (b"abc", 1)),
    unknown_chunk(1),
    chunk_as(sha256(b"abc"), blob(b"abd")),
    wrong_digest(sha256(b"abd")),
    chunk(b""),
    wrong_size(0, 0),
    chunk(b"abc"),
    done(),
    append(0, (b"x", 0), (b"abc", 2)),
    bad_offset(1, 1),
    append(0, (b"x", 0), (b"abc", 1)),
    done(),
    close_index(0, 1, 4, dynamic_csum([b"x", b"abc"])),
    bad_close(1, 2),
    close_index(0, 2, 4, sha256(b"")),
    bad_close(3, dynamic_csum([b"x", b"abc"])),
    close_index(0, 2, 4, dynamic_csum([b"x", b"abc"])),
    done(),
    put_manifest("host/a/2020-01-16T06:30:03Z", listed("set.didx", 4, dynamic_csum([b"x", b"abc"]))),
    done(),
    finish(),
    done(),
]
# The second lane: sessions and locks, pieces and ranges of a downloaded archive; and its files.
SECOND = [
    abort(),
    wrong_state(0),
    open_writer(A),
    group_busy(0),
    open_reader(A),
    done(),
    get_chunk(sha256(b"x")),
    not_allowed(),
    range_of("root.fidx", 4095, 2),
    not_allowed(),
    range_of("set.blob", 0, 1),
    bad_name(),
    range_of("set.didx", 0, 1),
    no_file(),
    download("root.fidx", 4161),
    bad_range(4160),
    download("root.fidx", 4096),
    part(fixed_index(A, "root.fidx", NOW, [ZEROS, b"x"]), 4096),
    get_chunk(sha256(b"x")),
    rest(blob(b"x")),
    get_chunk(sha256(b"abc")),
    not_allowed(),
    range_of("root.fidx", 4095, 2),
    rest(b"\x00x"),
    range_of("root.fidx", 4096, 2),
    bad_range(4097),
    range_of("root.fidx", 0, 4194305),
    too_many(4194304),
    close_reader(),
    done(),
    get_chunk(sha256(b"x")),
    wrong_state(0),
]
ITS_FILES = [
    files(A),
    file_rows(
        (MANIFEST, 216, sha256(blob(manifest(A, listed("root.fidx", 4097, fixed_csum([ZEROS, b"x"])))))),
        ("root.fidx", 4097, fixed_csum([ZEROS, b"x"])),
    ),
]
# What is asked of six snapshots.
ASKING = [
    list_after(),
    rows(
        ("host/a/2020-01-14T00:00:00Z", 1),
        (A, 1),
        ("host/a/2020-01-15T12:00:00Z", 1),
        ("host/b/2020-12-31T00:00:00Z", 1),
        ("host/b/2021-01-03T00:00:00Z", 1),
        ("host/b/2021-01-04T00:00:00Z", 1),
    ),
    list_after("host/b/2021-01-03T00:00:00Z"),
    rows(("host/b/2021-01-04T00:00:00Z", 1)),
    list_after("host/b/2021-01-01T00:00:00Z"),
    rows(("host/b/2021-01-03T00:00:00Z", 1), ("host/b/2021-01-04T00:00:00Z", 1)),
    list_after("host/b"),
    bad_name(),
    files(A),
    file_rows((MANIFEST, 86, sha256(blob(manifest(A))))),
    files("host/c/2021-01-01T00:00:00Z"),
    no_snapshot(),
    group("host/b"),
    keys("host/b/2020-12-31T00:00:00Z", "host/b/2021-01-03T00:00:00Z", "host/b/2021-01-04T00:00:00Z"),
    group("host/c"),
    keys(),
]
# A count above the limit, a dry run, and weeks across the year's end; and what goes and stays beside the other lane.
PRUNING = [
    prune("host/b", weekly=1001),
    too_many(1000),
    prune("host/b", weekly=2, dry=1),
    marks(
        ("host/b/2021-01-04T00:00:00Z", 1),
        ("host/b/2021-01-03T00:00:00Z", 1),
        ("host/b/2020-12-31T00:00:00Z", 0),
    ),
    prune("host/b", weekly=2),
    marks(
        ("host/b/2021-01-04T00:00:00Z", 1),
        ("host/b/2021-01-03T00:00:00Z", 1),
        ("host/b/2020-12-31T00:00:00Z", 0),
    ),
    prune("host/a", last=1, daily=1),
    marks(("host/a/2020-01-15T12:00:00Z", 1), (A, 2), ("host/a/2020-01-14T00:00:00Z", 1)),
    forget("host/a/2020-01-15T12:00:00Z"),
    snapshot_busy(1),
    forget("host/a/2020-01-15T12:00:00Z"),
    done(),
    forget("host/a/2020-01-15T12:00:00Z"),
    no_snapshot(),
    prune("host/a", last=1),
    marks((A, 1), ("host/a/2020-01-14T00:00:00Z", 3)),
    list_after(),
    rows((A, 1), ("host/b/2021-01-03T00:00:00Z", 1), ("host/b/2021-01-04T00:00:00Z", 1)),
    prune("host/b", last=1),
    no_memory(),
    prune("host/b", last=1),
    disk_fault(),
]
# What another lane does in between.
BESIDE = [
    open_reader(A),
    done(),
    forget("host/a/2020-01-14T00:00:00Z"),
    wrong_state(2),
    prune("host/a"),
    wrong_state(2),
    close_reader(),
    done(),
    open_writer("host/a/2020-01-16T00:00:00Z"),
    base("host/a/2020-01-15T12:00:00Z"),
    abort(),
    done(),
    forget("host/a/2020-01-14T00:00:00Z"),
    done(),
]


def in_two(data, front):
    """A file that is zeros behind its front, up to 4,096 bytes: that, and the rest."""
    assert not any(data[front:4096])
    return [data[:front], data[4096:]]


LOADED = list(TWO_SNAPSHOTS.values())

# Snapshots of a group that is pruned.
TWO_DAYS = ["host/a/2020-01-14T23:59:59Z", "host/a/2020-01-15T00:00:00Z", "host/a/2020-01-15T06:30:03Z"]
NEW_YEAR = ["host/a/2020-12-31T12:00:00Z", "host/a/2021-01-03T12:00:00Z", "host/a/2021-01-04T12:00:00Z"]


def pruned(keep, snapshots, replies, forgets, report):
    """A PRUNE, the replies to its steps, and the frames of these and of the report."""
    asked = frames(group("host/a"), *(forget(snapshots[place]) for place in forgets), report)
    return [prune("host/a", **keep), keys(*snapshots), *replies, asked]


def not_pruned(reply):
    """A PRUNE whose own command is refused."""
    return [prune("host/a", **LAST), reply, frames(group("host/a"), reply)]


def marked(snapshots, *them):
    """The newest first."""
    return marks(*zip(reversed(snapshots), them))


LAST_AND_DAILY, WEEKLY, LAST = {"last": 1, "daily": 1}, {"weekly": 2}, {"last": 1}

# Digests that are none of a piece's.
OTHER, DAMAGED = bytes([7]) * 32, bytes([8]) * 32
MANY = 4 << 20


def long_verified(entries, size, digest=None):
    """The report of a VERIFY of one index, with the digest of the chunk that is damaged, if any."""
    faults = [file_fault("root.didx", 23, digest)] if digest else []
    return frame(verified(1, entries, size, *faults))


def verify_steps(*steps):
    """The frames of what a VERIFY asks behind its reader and the list of files, and of its report."""
    return frames(open_reader(A), files(A), *steps)


def first_part(total):
    """The reply to the read of a file of so many bytes, with the first of them."""
    return b"\0" + u64(total) + b"x"


def long_file(name, size, total, code):
    report = verified(1, 0, 0, file_fault(name, code))
    return [file_rows((name, size, bytes(32))), first_part(total), verify_steps(download(name), close_reader(), report)]


def longest(name, size):
    steps = verify_steps(download(name), download(name, 1), close_reader(), verified(1, 0, 0, file_fault(name, 24)))
    return [file_rows((name, size, bytes(32))), first_part(size), unreadable(name), steps]


TWO_LISTED = file_rows(("a.conf.blob", 21, sha256(blob(b"123456789"))), (MANIFEST, 86, sha256(blob(manifest(A)))))
NO_MANIFEST = blob(b"[]")

TABLES = {
    "plain_tests/src/loading.rt": {
        "LIST": [frame(list_after())],
        "BOTH": [frame(rows((A, 4), (A_B, 1)))],
        "OTHER_ALONE": [frame(rows((A_B, 1)))],
        "NO_JSON": [blob(b"x")],
        "OTHERS": [frame(rows(("ct/z/2020-01-15T06:30:03Z", 1), (A, 4), (A_B, 1), ("vm/A/9999-12-31T23:59:59Z", 1)))],
        "MANY": [many_listed(63)[:12], frame(rows((A, 64))), many_listed(64)[:12], frame(rows())],
    },
    "plain_tests/src/prunes.rt": {
        "PRUNES": [
            *pruned(WEEKLY, NEW_YEAR, [done()], [0], marked(NEW_YEAR, 1, 1, 0)),
            *pruned(LAST_AND_DAILY, TWO_DAYS, [done()], [1], marked(TWO_DAYS, 1, 0, 1)),
            *pruned(LAST, TWO_DAYS, [snapshot_busy(3), no_snapshot()], [1, 0], marked(TWO_DAYS, 1, 2, 3)),
        ],
        "KEEPING": [
            *pruned({**LAST_AND_DAILY, "dry": 1}, TWO_DAYS, [], [], marked(TWO_DAYS, 1, 0, 1)),
            *pruned({}, NEW_YEAR, [], [], marked(NEW_YEAR, 1, 1, 1)),
            *pruned(LAST, [], [], [], marks()),
        ],
        "ENDED": [
            *pruned(LAST, TWO_DAYS, [wrong_state(1)], [1], wrong_state(1)),
            *pruned(LAST, TWO_DAYS, [no_memory()], [1], no_memory()),
            *pruned(LAST, TWO_DAYS, [done(), disk_fault()], [1, 0], disk_fault()),
        ],
        "REFUSED": [
            *not_pruned(wrong_state(1)),
            *not_pruned(bad_name()),
            *not_pruned(too_many(1000)),
        ],
    },
    "plain_tests/src/pulls.rt": {
        "JOBS": [
            frames(gc(), bye()),
            frames(collected(0, 0, 0, 0, 0), done()),
            frames(verify(A), bye()),
            frames(verified(1, 0, 0), done()),
            frames(sync("host/a"), bye()),
            frames(keys(A), done()),
        ],
        "FREES": [
            frames(list_after(), gc(), gc()),
            frame(list_after()),
            *[frame(gc())] * 5,
        ],
        "WHOLE": [
            blob(manifest(A, *BOTH_LISTED)),
            blob(b"123456789"),
            dynamic_header(uuid_of(A, "root.didx"), NOW, dynamic_csum([b"abc", b"de"])),
            entries_of(ends_of([b"abc", b"de"])),
            blob(b"abc"),
            blob(b"de"),
        ],
        "AT_TEN": [blob(manifest(TEN))],
        "AT_ELEVEN": [blob(manifest(ELEVEN))],
        "LISTS_ITSELF": [blob(manifest(TEN, listed(MANIFEST, 1, bytes(32))))],
        "SYNC": [frames(sync("host/a"), group("host/a"))],
        "TWICE": [frames(sync("host/a"), sync("host/a"), group("host/a"))],
        "PULLED": [
            frame(sync("host/a")),
            frame(no_remote()),
            frame(sync("host")),
            frame(bad_name()),
            frames(keys(ELEVEN), keys(), keys(TEN, ELEVEN)),
            frames(keys(A), keys(A)),
        ],
        "FAILED": [
            frames(refused(30), keys()),
            frames(refused(30), keys(TEN)),
            frames(no_memory(), keys(TEN)),
            frames(disk_fault(), halted(5)),
        ],
        "REFUSED": [frames(exists(), keys())],
    },
    "plain_tests/src/reading.rt": {
        "OTHER_BLOB": [OTHER_BLOB],
        "DATASTORE": [
            *in_two(LOADED[0], 12),
            *LOADED[1:4],
            *in_two(LOADED[4], 80),
            *in_two(LOADED[5], 64),
            *LOADED[6:8],
        ],
        "CASES": [blob(b"y")],
    },
    "plain_tests/src/verifies.rt": {
        "VERIFY": [verify(A)],
        "DONE": [done()],
        "DIGEST": [sha256(b"x")],
        "BLOB": [rest(blob(b"x"))],
        "ZEROS_DIGEST": [sha256(bytes(MANY))],
        "ZEROS_FRONT": [rest(blob(bytes(MANY)))[:13]],
        "DAMAGED_TOLD": [damaged(DAMAGED, 0)],
        "UNREADABLE_TOLD": [unreadable("root.didx")],
        "listed": [b"\0\x01" + text("root.didx")],
        "index_of": [DYNAMIC_MAGIC],
        "BATCHES": [
            long_verified(4096, 4096),
            long_verified(4097, 4097),
            long_verified(4098, 4098, OTHER),
            long_verified(4098, 4098, OTHER),
            long_verified(4098, 4098, OTHER),
            long_verified(4098, 4098, OTHER),
            long_verified(4098, 4099, sha256(b"x")),
        ],
        "FAULTS": [
            long_verified(1, 1),
            long_verified(30, 30, OTHER),
            long_verified(30, 30, DAMAGED),
            long_verified(30, 30, OTHER),
            frame(verified(1, 30, 30, file_fault("root.didx", 24))),
            long_verified(17, 17 * MANY, OTHER),
        ],
        "LENGTHS": [
            long_verified(30, 31, sha256(b"x")),
            long_verified(30, 31, sha256(b"x")),
            long_verified(30, 31, OTHER),
            long_verified(30, 31, sha256(b"x")),
            long_verified(1, MANY + 1, sha256(bytes(MANY))),
            long_verified(1, MANY - 1, sha256(bytes(MANY))),
        ],
        "TOO_LONG": [
            *long_file("root.fidx", 33_558_529, 33_558_529, 24),
            *long_file("root.didx", 41_947_137, 41_947_137, 24),
            *long_file("root.didx", 5, 41_947_137, 24),
            *long_file("a.blob", 16_777_229, 16_777_229, 24),
            *long_file("a.blob", 16_777_228, 16_777_229, 19),
            *long_file(MANIFEST, 86, 2**64 - 1, 19),
        ],
        "LONGEST": [
            *longest("root.fidx", 33_558_528),
            *longest("root.didx", 41_947_136),
            *longest("a.blob", 16_777_228),
            *longest(MANIFEST, 16_777_228),
        ],
        "ENDED": [
            TWO_LISTED,
            unreadable(f"{A}/a.conf.blob"),
            part(blob(manifest(A))),
            verify_steps(
                download("a.conf.blob"), download(MANIFEST), close_reader(), verified(2, 0, 0, file_fault("a.conf.blob", 24))
            ),
            file_rows((MANIFEST, 14, sha256(NO_MANIFEST))),
            part(NO_MANIFEST),
            verify_steps(download(MANIFEST), close_reader(), verified(1, 0, 0, file_fault(MANIFEST, 24))),
            no_snapshot(),
            verify_steps(close_reader(), no_snapshot()),
            halted(7),
            verify_steps(halted(7)),
            file_rows(),
            halted(7),
            verify_steps(close_reader(), halted(7)),
            file_rows(),
            no_memory(),
            verify_steps(close_reader(), close_reader(), no_memory()),
            no_snapshot(),
            no_memory(),
            verify_steps(close_reader(), close_reader(), no_snapshot()),
        ],
    },
    "plain_tests/src/replays.rt": {
        "CHECKS": [
            *(LIST + LIST, LIST, LISTED + LISTED, LISTED, b"equal\n"),
            *(LIST, LIST, with_byte(LISTED, 0, 4), with_byte(LISTED, 6, 1), b"lane 0 byte 0: 03 04\n"),
            *(LIST, LIST, LISTED, with_byte(LISTED, 6, 1), b"lane 1 byte 6: 00 01\n"),
            *(LIST, LIST, LISTED[:6], with_byte(LISTED, 0, 1), b"lane 0 byte 6: 00 --\n"),
            *(LIST, LIST, LISTED + b"*", LISTED, b"lane 0 byte 7: -- 2a\n"),
            *(LIST, LIST, LISTED + b"\xff", b"lane 1 byte 7: -- ff\n"),
            *(LIST, LIST, LISTED, b"lane 1 byte 7: -- --\n"),
            *(COLLECT, COLLECTED, b"equal\n"),
            *(COLLECT, with_byte(COLLECTED, 5, 0xFE), b"equal\n"),
            *(COLLECT, with_byte(COLLECTED, 4, 0x1C), b"lane 0 byte 4: 00 1c\n"),
            *(COLLECT, COLLECTED[:20], b"lane 0 byte 20: 00 --\n"),
            *(COLLECT, COLLECTED + b"\x01", b"lane 0 byte 45: -- 01\n"),
            *(COLLECT + LIST, COLLECTED + with_byte(LISTED, 0, 9), b"lane 0 byte 45: 03 09\n"),
            *(COLLECT + LIST, COLLECTED + frame(no_memory()), b"equal\n"),
            *(LIST, frame(bye()), frame(done()), b"equal\n"),
            *(LIST, b"no order\n"),
            *(LIST, LISTED, b"no order\n"),
        ],
    },
    "plain_tests/src/weaving.rt": {
        "FIRST": sent(FIRST, OTHER_MANIFESTS, FIXED_ARCHIVE, BASE_NAMED),
        "FIRST_TOLD": told(FIRST, OTHER_MANIFESTS, FIXED_ARCHIVE, BASE_NAMED),
        "SECOND": sent(SECOND, ITS_FILES),
        "SECOND_TOLD": told(SECOND, ITS_FILES),
        "MANIFEST": [blob(manifest(A))],
        "ASKING": sent(ASKING, PRUNING),
        "ASKING_TOLD": told(ASKING, PRUNING),
        "BESIDE": sent(BESIDE),
        "BESIDE_TOLD": told(BESIDE),
        "ENDS": [
            frame(bye()),
            frame(done()),
            frame(b"c"),
            frame(bad_frame(0)),
            frame(bye()),
            misfit(0),
            frame(open_reader(A)),
            frame(done()),
            frame(prune("host/b", last=1)),
            misfit(1),
        ],
    },
}

"""Whole sessions: those that end at BYE or between two frames, those that come to a place without a command, and those whose sink fails."""
from scenarios.backups import *
from scenarios.faults import READ_BACK, UNFINISHED
from scenarios.listings import BACKED_UP

NO_SESSION, IN_WRITER, IN_READER = map(wrong_state, range(3))
CONF = blob(b"123456789")
PUT_CONF = (put("a.conf.blob", b"123456789"), DONE)
# Whose calls are counted: CHUNK asks whether the file is there, whether the session knows the chunk or not, and installs only where none
# was.
TWICE = [(open_writer(A), base()), (chunk(b"abc"), DONE), (chunk(b"abc"), DONE)]
AGAIN = [*TWICE[:2], (abort(), DONE), *TWICE[:2]]
# Sessions, how many steps beyond their commands they are, and the files that one leaves.
CLEAN = [
    ("nothing", [], 0),
    ("FINISH without a session", [(finish(), NO_SESSION)], 0),
    ("FINISH without a manifest", [(open_writer(A), base()), PUT_CONF, (finish(), no_file()), (bye(), DONE)], -1),
    ("no such snapshot", [(open_reader(A), no_snapshot()), (download(MANIFEST), NO_SESSION)], 0),
    (
        "a blob is downloaded from 0, 21 and 22",
        [
            (open_writer(A), base()),
            PUT_CONF,
            (put_manifest(A, listed_blob("a.conf.blob", CONF)), DONE),
            (finish(), DONE),
            (open_reader(A), DONE),
            (download("a.conf.blob"), part(CONF)),
            (download("a.conf.blob", 21), rest(u64(21))),
            (download("a.conf.blob", 22), bad_range(21)),
        ],
        0,
    ),
    (
        "uploads of other blobs",
        [
            (open_writer(A), base()),
            (put_file("a.blob", blob(b"")[:11]), bad_blob(1)),
            (put_file("a.blob", blob(b"123456789", crc=0xCBF43927)), wrong_crc(0xCBF43927, 0xCBF43926)),
            (put_file("a.blob", blob(b"123456789", COMPRESSED_MAGIC)), bad_blob(2)),
            (put("a.blob", b"123456789"), DONE),
            (put("b.blob", b""), DONE),
        ],
        0,
    ),
    (
        "what wants a writer, without one",
        [
            (append(0, (b"abc", 0)), NO_SESSION),
            (close_index(0, 0, 0, sha256(b"")), NO_SESSION),
            (put("a.blob", b""), NO_SESSION),
        ],
        0,
    ),
    (
        "a lane has one session at a time",
        [
            (open_writer(A), base()),
            (open_writer(B), IN_WRITER),
            (put_manifest(A), DONE),
            (finish(), DONE),
            (open_reader(A), DONE),
            (open_writer(B), IN_READER),
        ],
        0,
    ),
    (
        "names that are none",
        [
            (open_writer("host/a/2020-01-15"), bad_name()),
            (open_writer(A), base()),
            (new_dynamic("a/b.didx"), bad_name()),
            (put("a/b.blob", b""), bad_name()),
            # and one of another kind
            (put("root.didx", b""), bad_name()),
        ],
        0,
    ),
    (
        "an index that was not begun is closed",
        [(open_writer(A), base()), (close_index(7, 0, 0, sha256(b"")), no_file())],
        0,
    ),
    (
        "sessions are closed by their own words",
        [
            (abort(), NO_SESSION),
            (open_writer(A), base()),
            PUT_CONF,
            (close_reader(), IN_WRITER),
            (abort(), DONE),
            (open_writer(A), base()),
            (put_manifest(A), DONE),
            (finish(), DONE),
            (open_reader(A), DONE),
            (abort(), IN_READER),
            (close_reader(), DONE),
            (close_reader(), NO_SESSION),
        ],
        0,
    ),
    (
        "an archive without pieces",
        [
            (open_writer(A), base()),
            (new_dynamic("root.didx"), number(0)),
            (close_index(0, 1, 0, sha256(b"")), bad_close(1, 0)),
            (close_index(0, 0, 0, sha256(b"")), DONE),
            (put_manifest(A, listed("root.didx", 0, sha256(b""))), DONE),
            (finish(), DONE),
            (open_reader(A), DONE),
            (download("root.didx", 4096), part(dynamic_index(A, "root.didx", NOW, []), 4096)),
        ],
        0,
    ),
    (
        "chunks",
        [
            (chunk(b"abc"), NO_SESSION),
            (open_writer(A), base()),
            (chunk(b"abc"), DONE),
            (chunk(b"abc"), DONE),
            (chunk_as(sha256(b"abc"), blob(b"abd")), wrong_digest(sha256(b"abd"))),
            (chunk(b""), wrong_size(0, 0)),
            (chunk_as(sha256(b""), blob(b"")[:11]), bad_blob(1)),
        ],
        0,
    ),
    (
        "an index that is open",
        [
            (new_dynamic("root.didx"), NO_SESSION),
            (open_writer(A), base()),
            (new_dynamic("root.fidx"), bad_name()),
            (new_dynamic("root.didx"), number(0)),
            (new_dynamic("root.didx"), exists()),
            (finish(), open_indexes(1)),
            (abort(), DONE),
            (open_writer(A), base()),
        ],
        0,
    ),
    (
        "an archive of two pieces comes back",
        [
            (open_writer(A), base()),
            (new_dynamic("root.didx"), number(0)),
            (chunk(b"abc"), DONE),
            (append(0, (b"abc", 0), (b"de", 3)), unknown_chunk(1)),
            (chunk(b"de"), DONE),
            (append(0, (b"abc", 0), (b"de", 2)), bad_offset(1, 3)),
            (append(1, (b"abc", 0), (b"de", 3)), no_file()),
            (append(0, (b"abc", 0), (b"de", 3)), DONE),
            (close_index(0, 2, 5, BOTH_CSUM), DONE),
            *ROOT_FINISHED,
            (open_reader(A), DONE),
            (download("root.didx", 4096), part(ROOT, 4096)),
            (download("root.didx"), part(ROOT)),
        ],
        0,
        [(DE, 14), (ABC, 15), (PLAIN, 213), (f"{A}/root.didx", 4176)],
    ),
    ("a backup, and LIST", BACKED_UP, 0),
    ("a snapshot is read back", READ_BACK, 0),
    ("uploads are left unfinished at BYE", UNFINISHED + [(bye(), DONE)], -1),
    ("a chunk is sent again behind an ABORT", AGAIN, 0),
    (
        "two backups, PRUNE, which is of two steps where it removes, and GROUP",
        [
            (open_writer(A), base()),
            (put_manifest(A), DONE),
            (finish(), DONE),
            (open_writer(A_LATER), base(A)),
            (put_manifest(A_LATER), DONE),
            (finish(), DONE),
            (prune("host/a", last=1, dry=1), marks((A_LATER, 1), (A, 0))),
            (prune("host/a", last=1), marks((A_LATER, 1), (A, 0))),
            (prune("host/a", last=1001), too_many(1000)),
            (GROUP, keys(A_LATER)),
        ],
        1,
    ),
]
# What is sent and is no command, behind commands; the reply, how many bytes are taken, how many entries come before the end, and the
# place.
AT_0, AT_5 = bad_frame(0), bad_frame(5)
WRONG = (finish(), NO_SESSION)
BROKEN = [
    ("an unknown code", [], frame(b"c"), AT_0, 5, 0, 0),
    ("an empty body", [], frame(b""), AT_0, 4, 0, 0),
    ("a length without its body", [], u32(5) + b"\x0a", AT_0, 5, 0, 0),
    ("a frame that the end cuts", [], frame(open_writer(A))[:5], AT_0, 5, 0, 0),
    ("BYE with a byte more", [], frame(b"?\0"), AT_0, 6, 0, 0),
    ("a length over the limit", [], b"\x01\x04\0\x01", too_long(0x01000401), 4, 0, 0),
    ("the greatest length", [], b"\xff\xff\xff\xff", too_long(2**32 - 1), 4, 0, 0),
    ("behind a command", [WRONG], frame(b"c"), AT_5, 10, 1, 5),
    ("behind a command, with more behind it", [WRONG], frame(b"c") + frame(finish()), AT_5, 10, 1, 5),
    ("an empty body behind a command", [WRONG], frame(b""), AT_5, 9, 1, 5),
    ("a frame that the end cuts behind a command", [WRONG], u32(3) + finish(), AT_5, 10, 1, 5),
    ("half a length", [WRONG], b"\x03\0", AT_5, 7, 1, 5),
    ("LIST without a text", [], frame(bytes([LIST[0]])), AT_0, 5, 0, 0),
    ("an empty body behind LIST", [(LIST, rows())], frame(b""), bad_frame(6), 10, 1, 6),
    ("a PRUNE neither dry nor not", [], frame(prune("host/a", weekly=2, dry=2)), AT_0, 25, 0, 0),
]


def three_ways(name, turns, *parts, left=None):
    """A session whole, which leaves these files, if they are told; one byte a read; and beside a snapshot of another group."""
    return [
        *scenario(name, sent(turns), *parts, [] if left is None else files_left(left)),
        *scenario(f"{name}, one byte a read", gives(1), sent(turns), *parts),
        *scenario(f"{name}, beside another group", start_from(BESIDE), sent(beside(turns)), *parts, files_there(STAYING)),
    ]


def clean(name, turns, beyond, left=None):
    return three_ways(name, turns, ["ends Ok"], kinds(*[0] * (len(turns) + beyond), 6), left=left)


def broken(name, turns, data, reply, taken, count, place):
    whole = sum(len(frame(command)) for command, _ in turns) + len(data)
    return three_ways(
        f"broken: {name}",
        turns,
        raw(data) + told(reply) + ends("BadFrame", taken, whole),
        kinds(*[0] * count, 6),
        placed(place),
    )


def cut(count):
    """The sink fails within the reply to a LIST."""
    told_cut = talk([(LIST, rows((OTHER, 2)))], "SinkFault")
    return scenario(f"the sink takes {count} bytes", start_from(BESIDE), takes(count), told_cut, kinds(0, 6), saved())


SCENARIOS = [
    kept_backup(BESIDE, EARLIER),
    *(clean(*row) for row in CLEAN),
    three_ways("BYE", [(bye(), DONE)], ["ends Ok"], kinds(6)),
    scenario("what is behind BYE is not read", sent([(bye(), DONE)]) + raw(frame(finish())) + ends("Ok", 5, 10), kinds(6)),
    *(broken(*row) for row in BROKEN),
    # within the frame's length, in front of the rows, and within a row
    *map(cut, (0, 2, 5, 9)),
    scenario(
        "broken: the greatest length behind a command, with a byte more",
        sent([WRONG]) + raw(b"\xff\xff\xff\xff\0") + told(too_long(2**32 - 1)) + ends("BadFrame", 10, 10),
        kinds(0, 6),
        placed(5),
    ),
    scenario("a chunk is sent twice", talk(TWICE), calls(3, 7, 8, 8)),
    scenario("the same behind an ABORT", talk(AGAIN), calls(3, 7, 7, 7, 8, 8)),
]

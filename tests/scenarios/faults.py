"""Each call of the disk behind opening fails in turn; and each call fails, or the disk stops there, and a crash leaves whole files."""
from scenarios.backups import *

# What opening calls on an empty folder: sync, a list of all names, and the size of the book.
OPENING = 3
CONF = blob(b"123456789")
NO_SESSION = wrong_state(0)
READ_BACK = [
    (open_writer(A), base()),
    (put_manifest(A), DONE),
    (finish(), DONE),
    (open_reader(A), DONE),
    (download(MANIFEST), part(blob(manifest(A)))),
]
UNFINISHED = [
    *READ_BACK[:3],
    (open_writer(A_LATER), base(A)),
    (put("a.conf.blob", b"123456789"), DONE),
    (put("b.blob", b""), DONE),
]
ABORTED = [(open_writer(A), base()), (put("a.conf.blob", b"123456789"), DONE), (abort(), DONE), (abort(), NO_SESSION)]
STORED = [
    (open_writer(A), base()),
    (new_dynamic("root.didx"), number(0)),
    (chunk(b"abc"), DONE),
    (chunk(b"abc"), DONE),
    (append(0, (b"abc", 0)), DONE),
    (close_index(0, 1, 3, dynamic_csum([b"abc"])), DONE),
    (abort(), DONE),
]


def staged(name, size):
    """A file under its temporary name."""
    return (f"{name}.tmp", size)


PLAIN_THERE, CONF_THERE, B_THERE = (PLAIN, 86), (f"{A_LATER}/a.conf.blob", 21), (f"{A_LATER}/b.blob", 12)
UPLOAD_THERE, ABC_THERE, INDEX_THERE = (f"{A}/a.conf.blob", 21), (ABC, 15), (f"{A}/root.didx", 4136)
BOOK_STAGED = staged(".chunks/book", 56)
# FINISH puts, syncs, renames and syncs.
FINISHING = [(2, []), (2, [staged(*PLAIN_THERE)]), (2, [staged(*PLAIN_THERE)]), (2, [PLAIN_THERE])]
# The writing calls, the counts of calls at each entry, behind the last of which the book is saved by three, and the files that are left.
# For each call the command, from 0, that it fails, the number of commands for the lane's end, or None for the save of the book; and the
# files that are left.
SESSIONS = [
    (
        "read back",
        READ_BACK,
        False,
        "s - psrs - - - psr",
        [3, 3, 7, 7, 9, 9],
        [PLAIN_THERE],
        [
            *FINISHING,
            # DOWNLOAD asks for the size and reads
            (4, [PLAIN_THERE]),
            (4, [PLAIN_THERE]),
            # the book is installed
            (None, [PLAIN_THERE]),
            (None, [BOOK_STAGED, PLAIN_THERE]),
            (None, [BOOK_STAGED, PLAIN_THERE]),
        ],
    ),
    (
        "unfinished, to BYE",
        UNFINISHED,
        True,
        "s - psrs - psr psr dd psr",
        [3, 3, 7, 7, 10, 13, 15],
        [PLAIN_THERE],
        [
            *FINISHING,
            # each upload installs its file
            (4, [PLAIN_THERE]),
            (4, [PLAIN_THERE, staged(*CONF_THERE)]),
            (4, [PLAIN_THERE, staged(*CONF_THERE)]),
            (5, [PLAIN_THERE, CONF_THERE]),
            (5, [PLAIN_THERE, CONF_THERE, staged(*B_THERE)]),
            (5, [PLAIN_THERE, CONF_THERE, staged(*B_THERE)]),
            # the end removes both: a fault of it is not told, and it then comes again, without a call
            (6, [PLAIN_THERE, CONF_THERE, B_THERE]),
            (6, [PLAIN_THERE, B_THERE]),
            (None, [PLAIN_THERE]),
        ],
    ),
    (
        "aborted",
        ABORTED,
        False,
        "s psr d - - psr",
        [3, 6, 7, 7, 7],
        [],
        [
            (1, []),
            (1, [staged(*UPLOAD_THERE)]),
            (1, [staged(*UPLOAD_THERE)]),
            (2, [UPLOAD_THERE]),
            (None, []),
        ],
    ),
    (
        "a chunk and an index",
        STORED,
        False,
        "s - psr - - psr d - psr",
        [3, 3, 7, 8, 8, 11, 12, 12],
        [ABC_THERE],
        [
            # CHUNK asks whether the file is there, and installs it, once
            (2, []),
            (2, []),
            (2, [staged(*ABC_THERE)]),
            (2, [staged(*ABC_THERE)]),
            (3, [ABC_THERE]),
            (5, [ABC_THERE]),
            (5, [ABC_THERE, staged(*INDEX_THERE)]),
            (5, [ABC_THERE, staged(*INDEX_THERE)]),
            (6, [ABC_THERE, INDEX_THERE]),
            (None, [ABC_THERE]),
        ],
    ),
]


def told_at(turns, place):
    """The disk fails at a command: that is told, and its place to each behind it."""
    replies = [reply for _, reply in turns[:place]] + [disk_fault()] + [halted(place)] * (len(turns) - place - 1)
    return [(command, reply) for (command, _), reply in zip(turns, replies)]


def failed(name, turns, to_bye, call, place, files):
    count = len(turns)
    told = turns if place in (None, count) else told_at(turns, place)
    ended = [0] * count if place is None else [0] * place + [5] * max(count - place, 1)
    return scenario(
        f"{name}: call {call} fails",
        fails(OPENING + call),
        talk(told + [(bye(), DONE)] * to_bye, "DiskFault"),
        kinds(*ended, 6),
        files_left(files),
    )


# A later session finds no snapshot, or from the third act on the first.
NONE_FOUND = (0, 99, [(LIST, rows())], [])
FOUND = [(0, 3, [(LIST, rows())], []), (3, 99, [(LIST, rows((A, 1)))], [PLAIN])]
BOOK_THERE = (".chunks/book", 56)
# The files that each may leave behind a crash, how many calls its disk has, and what is found then.
CRASHES = [
    ("read back", READ_BACK, [PLAIN_THERE, BOOK_THERE], 12, FOUND),
    ("unfinished, to BYE", [*UNFINISHED, (bye(), DONE)], [PLAIN_THERE, CONF_THERE, B_THERE, BOOK_THERE], 18, FOUND),
    ("aborted", ABORTED, [UPLOAD_THERE, BOOK_THERE], 10, [NONE_FOUND]),
    ("a chunk and an index", STORED, [ABC_THERE, INDEX_THERE, (".chunks/book", 96)], 15, [NONE_FOUND]),
]


def crashed(name, turns, files, count, founds):
    return scenario(f"{name}: it is stopped", sent(turns), whole(files), flat(found(*state) for state in founds), sweep(count))


def each_call(name, turns, to_bye, writing, counts, left, rows_of):
    """The session as it is, and with each of its calls failing."""
    whole_talk = talk(turns + [(bye(), DONE)] * to_bye)
    none_fails = [fails(counts[-1] + 3), whole_talk, kinds(*[0] * len(turns), 6), files_left(left)]
    yield scenario(f"{name}: nothing fails", *none_fails, writes(writing), calls(*counts))
    for call, row in enumerate(rows_of):
        yield failed(name, turns, to_bye, call, *row)


SCENARIOS = [
    *(it for row in SESSIONS for it in each_call(*row)),
    *(crashed(*row) for row in CRASHES),
]

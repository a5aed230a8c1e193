"""Files that another program takes between two calls of the disk, which then reads nothing where they stood, and one that it puts there:
what is told of them."""
from scenarios.backups import *
from scenarios.books import BOOK

BACKUP = "a backup of a blob and an archive"
A_CONF, A_ROOT = f"{A}/a.conf.blob", f"{A}/root.didx"
CONF = blob(b"123456789")
LISTED = (LIST, rows((A, 3)))
# The calls of opening: sync, a list of all names, the manifest's size and the manifest, the sizes of the two files that it lists, and
# the book's size, its count of touches, and the book.
OPENED = 9
# Which of them finds nothing, and what is told: no snapshot, or a damaged one.
OPENINGS = [
    ("the manifest's size", 2, [(LIST, rows()), (open_reader(A), no_snapshot())]),
    ("the manifest", 3, [(LIST, rows()), (open_reader(A), no_snapshot())]),
    ("the blob's size", 4, [(LIST, rows((A, None))), (open_reader(A), unreadable(A_CONF))]),
    ("the archive's size", 5, [(LIST, rows((A, None))), (open_reader(A), unreadable(A_ROOT))]),
]
# And the book, whose touches are then lost: its chunks are dated by the first entry.
BOOK_OPENINGS = [("the book's size", 6), ("the book's count", 7), ("the book", 8)]
BACKED_UP_AT, LATER_AT = 1_600_000_000, 1_600_000_100

OPEN_READER = (open_reader(A), DONE)
ABC_BLOB = (get_chunk(sha256(b"abc")), rest(blob(b"abc")))
CONF_READ = (download("a.conf.blob"), part(CONF))
ROOT_READ = (download("root.didx", 4176), part(ROOT, 4176))
ABC_GONE, ABC_TORN = (damaged(sha256(b"abc"), found) for found in (0, 1))


def other_told(turn, reply):
    """The same command, told otherwise, and then as it was."""
    return [(turn[0], reply), turn]


# What is sent, and which call behind opening finds nothing: a size, and what has that size.
READS = [
    ("the size of a blob that is downloaded", 0, [OPEN_READER, *other_told(CONF_READ, unreadable(A_CONF))]),
    ("a blob that is downloaded", 1, [OPEN_READER, *other_told(CONF_READ, unreadable(A_CONF))]),
    ("the size of an index that is downloaded", 0, [OPEN_READER, *other_told(ROOT_READ, unreadable(A_ROOT)), ABC_BLOB]),
    ("an index that is downloaded", 1, [OPEN_READER, *other_told(ROOT_READ, unreadable(A_ROOT)), ABC_BLOB]),
    ("the size of an index that is opened", 2, [OPEN_READER, *other_told(ROOT_READ, unreadable(A_ROOT)), ABC_BLOB]),
    ("the front of an index that is opened", 3, [OPEN_READER, *other_told(ROOT_READ, unreadable(A_ROOT)), ABC_BLOB]),
    ("a page of an index that is opened", 4, [OPEN_READER, *other_told(ROOT_READ, unreadable(A_ROOT)), ABC_BLOB]),
    ("the size of a chunk", 5, [OPEN_READER, ROOT_READ, *other_told(ABC_BLOB, ABC_GONE)]),
    ("a chunk", 6, [OPEN_READER, ROOT_READ, *other_told(ABC_BLOB, ABC_TORN)]),
    ("the page of a range", 5, [OPEN_READER, ROOT_READ, *other_told(ALL_FIVE, unreadable(A_ROOT))]),
    ("the size of the first chunk of a range", 6, [OPEN_READER, ROOT_READ, *other_told(ALL_FIVE, ABC_GONE)]),
    ("the first chunk of a range", 7, [OPEN_READER, ROOT_READ, *other_told(ALL_FIVE, ABC_TORN)]),
    ("the manifest at FILES", 0, [(files(A), unreadable(PLAIN)), LISTED]),
    ("a blob of the base", 1, [(open_writer(A_LATER), base(A)), *other_told((previous("a.conf.blob"), part(CONF)), unreadable(A_CONF))]),
]

# The calls of a VERIFY: the manifest at FILES; of each file its size and a part; the size of the index, its front and its page as it is
# opened, from which the page of the first entry is taken; of each chunk its size and its file.
VERIFIED = [
    ("the manifest at FILES: nothing is read", 0, unreadable(PLAIN)),
    ("the blob's size", 1, verified(3, 2, 5, file_fault("a.conf.blob", 24))),
    ("the blob", 2, verified(3, 2, 5, file_fault("a.conf.blob", 24))),
    ("the manifest's size", 3, verified(3, 2, 5, file_fault(MANIFEST, 24))),
    ("the manifest", 4, verified(3, 2, 5, file_fault(MANIFEST, 24))),
    ("the index's size: no chunks are read", 5, verified(3, 0, 0, file_fault("root.didx", 24))),
    ("the index: no chunks are read", 6, verified(3, 0, 0, file_fault("root.didx", 24))),
    ("the index's size as it is opened: no chunks are read", 7, verified(3, 2, 5, file_fault("root.didx", 24))),
    ("the front of the index as it is opened: no chunks are read", 8, verified(3, 2, 5, file_fault("root.didx", 24))),
    ("a page of the index as it is opened: no chunks are read", 9, verified(3, 2, 5, file_fault("root.didx", 24))),
    ("the first chunk's size", 10, verified(3, 2, 5, file_fault("root.didx", 23, sha256(b"abc")))),
    ("the first chunk", 11, verified(3, 2, 5, file_fault("root.didx", 23, sha256(b"abc")))),
    ("the second chunk's size", 12, verified(3, 2, 5, file_fault("root.didx", 23, sha256(b"de")))),
    ("the second chunk", 13, verified(3, 2, 5, file_fault("root.didx", 23, sha256(b"de")))),
]


# A snapshot of a fixed archive of 1,025 pieces, whose index has pages of 1,024 and 1 entries. The calls of opening: sync, a list of all
# names, the manifest's size and the manifest, the size of the index, and the book's size, its count of touches, and the book.
LONG, LONG_OPENED = "an archive whose index has two pages", 8
A_LONG, PIECES = f"{A}/root.fidx", 1025 * [X]
LONG_INDEX = fixed_index(A, "root.fidx", NOW, PIECES)
LONG_END = len(LONG_INDEX)
LONG_FILES = [
    (f".chunks/{sha256(X).hex()[:4]}/{sha256(X).hex()}", blob(X)),
    (PLAIN, blob(manifest(A, listed("root.fidx", 1025 * 4096, fixed_csum(PIECES))))),
    (A_LONG, LONG_INDEX),
]
# An index that is told is opened by four calls behind its size and a part of it: its size again, its front, and each page.
OPENS = ["the size", "the front", "page 0", "page 1"]
TELLS = ["the size at first", "a part", *OPENS]
NAMES = [
    (open_writer(A_LATER), base(A)),
    (new_fixed("root.fidx", 4096, 4096), number(0)),
    (previous("root.fidx", LONG_END), unreadable(A_LONG)),
    (append(0, (X, 0)), unknown_chunk(0)),
    (previous("root.fidx", LONG_END), part(LONG_INDEX, LONG_END)),
    (append(0, (X, 0)), DONE),
]
LONG_RANGE = range_of("root.fidx", 1024 * 4096 - 2, 4)
READS_LONG = [
    OPEN_READER,
    (download("root.fidx", LONG_END), unreadable(A_LONG)),
    (get_chunk(sha256(X)), not_allowed()),
    (LONG_RANGE, not_allowed()),
    (download("root.fidx", LONG_END), part(LONG_INDEX, LONG_END)),
    (LONG_RANGE, rest(b"xxxx")),
]
# Behind six calls of DOWNLOAD a range in both pages reads the first one, a chunk by two calls, the second page, and the chunk again.
RANGES_LONG = [OPEN_READER, READS_LONG[4], *other_told(READS_LONG[5], unreadable(A_LONG))]
# A collection's first mark opens the index, and the second, of its last 25 entries, reads both pages again.
MARKS = [*OPENS, "page 0 again", "page 1 again"]
MARKS_LONG = [(gc(), unreadable(A_LONG)), (gc(), collected(NOW, NOW - 86_700, 1, 0, 0))]


def without_page(name, call, turns):
    return scenario(f"taken: {name} of an index of two pages", start_from(LONG), taken(LONG_OPENED + call), talk(turns))


# A collection marks the index by three calls, and then lists the chunks.
COLLECTED = [(gc(), collected(NOW, NOW - 86_700, 2, 0, 0))]
LISTING = OPENED + 3
# The file that a list has more.
MORE = f".chunks/ffff/{'ff' * 32}"


def without(name, call, turns):
    return scenario(f"taken: {name}", start_from(BACKUP), taken(call), talk(turns))


def book_left(touched_at):
    return bytes_at(".chunks/book", book(LATER_AT, (b"abc", touched_at), (b"de", touched_at)))


def without_book(name, call):
    turns = talk([LISTED])
    return scenario(f"taken: {name}, as it is opened", start_from(BACKUP), clock(LATER_AT), taken(call), turns, book_left(LATER_AT))


SCENARIOS = [
    kept_backup(BACKUP, ROOT_SENT, FIRST_RUN),
    *(without(f"{name}, as it is opened", call, turns) for name, call, turns in OPENINGS),
    scenario("nothing is taken as it is opened", start_from(BACKUP), clock(LATER_AT), talk([LISTED]), book_left(BACKED_UP_AT)),
    *(without_book(*row) for row in BOOK_OPENINGS),
    *(without(name, OPENED + call, turns) for name, call, turns in READS),
    scenario(
        "put: a chunk that the book does not have, as the chunks are listed: it is visited, and stays",
        start_from(BACKUP),
        shown(LISTING),
        talk(COLLECTED),
        kinds(3, 1, 1, 1, 1, 4, 6),
        writes("s - - - - psr - psr"),
    ),
    scenario(
        "put: a list that has a chunk twice, as it is opened: the book has it once",
        place(MORE, blob(b"abc")),
        shown(1),
        talk([(LIST, rows())]),
        bytes_at(BOOK, book_of([(b"\xff" * 32, NOW)], NOW, 1)),
    ),
    scenario(LONG, flat(place(*it) for it in LONG_FILES), talk([(LIST, rows((A, 2)))]), keep(LONG)),
    *(without_page(f"{name}, as a writer is told,", call, NAMES) for call, name in enumerate(TELLS)),
    *(without_page(f"{name}, as it is downloaded,", call, READS_LONG) for call, name in enumerate(TELLS)),
    without_page("page 0, as a range is read,", 6, RANGES_LONG),
    without_page("page 1, as a range is read,", 9, RANGES_LONG),
    *(without_page(f"{name}, as it is marked,", call, MARKS_LONG) for call, name in enumerate(MARKS)),
    *(without(f"{name}, as it is verified", OPENED + call, [(verify(A), reply), (forget(A), DONE)]) for name, call, reply in VERIFIED),
]

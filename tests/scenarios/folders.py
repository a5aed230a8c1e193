"""Folders as earlier runs left them, or with other files, opened again: what is told of them, what stays, and how an opening fails."""
from scenarios.archives import OVER
from scenarios.backups import *

NO_SESSION, IN_WRITER = wrong_state(0), wrong_state(1)
A_THIRD = "host/a/2020-01-15T06:30:05Z"
A_CONF, A_ROOT, LATER_PLAIN = f"{A}/a.conf.blob", f"{A}/root.didx", f"{A_LATER}/{MANIFEST}"
CONF = blob(b"123456789")
ROOT_LISTED = blob(manifest(A, listed("root.didx", 5, BOTH_CSUM)))
GET_ABC = get_chunk(sha256(b"abc"))
ONE_DAMAGED = rows((A, None))

# A second run lists what the first finished, restores it, and takes no snapshot of the same second.
FILES_FOUND = file_rows(("a.conf.blob", 21, sha256(CONF)), (MANIFEST, 344, sha256(blob(manifest(A, *BOTH_LISTED)))), ("root.didx", 5, BOTH_CSUM))
FOUND = [
    (LIST, rows((A, 3))),
    (GROUP, keys(A)),
    (files(A), FILES_FOUND),
    (open_writer(A), not_newer(A)),
    (open_reader(A), DONE),
    (download("a.conf.blob"), part(CONF)),
    (GET_ABC, not_allowed()),
    FROM_END,
    (GET_ABC, rest(blob(b"abc"))),
    ALL_FIVE,
    (close_reader(), DONE),
]
# It backs up over the first and forgets that; a third run restores the second's.
FORGOTTEN = [(LIST, rows((A, 3), (A_LATER, 2))), (forget(A), DONE), (LIST, rows((A_LATER, 2)))]
LEFT = [(LIST, rows((A_LATER, 2))), (open_reader(A), no_snapshot()), (open_reader(A_LATER), DONE), FROM_END, ALL_FIVE]
LATER_LEFT = [(DE, 14), (ABC, 15), (LATER_PLAIN, 213), (f"{A_LATER}/root.didx", 4176)]

# The snapshot is damaged: it is told so, it is no base, its second counts, and it can be forgotten.
MANIFEST_DAMAGED = [
    (LIST, ONE_DAMAGED),
    (GROUP, keys(A)),
    (files(A), unreadable(PLAIN)),
    (open_reader(A), unreadable(PLAIN)),
    (GET_ABC, NO_SESSION),
    (open_writer(A), not_newer(A)),
    (open_writer(A_LATER), base()),
    (open_reader(A), IN_WRITER),
    (abort(), DONE),
    (forget(A), DONE),
    (LIST, rows()),
    (open_reader(A), no_snapshot()),
]
FILE_MISSING = [
    (LIST, ONE_DAMAGED),
    (files(A), unreadable(A_CONF)),
    (open_reader(A), unreadable(A_CONF)),
    (open_writer(A_LATER), base()),
    (abort(), DONE),
    (forget(A), DONE),
    (LIST, rows()),
]
# No index is read at opening: the snapshot is whole as far as that tells.
INDEX_DAMAGED = [
    (LIST, rows((A, 2))),
    (open_reader(A), DONE),
    (download("root.didx"), unreadable(A_ROOT)),
    (ALL_FIVE[0], not_allowed()),
    (close_reader(), DONE),
    (open_writer(A_LATER), base(A)),
    (previous("root.didx"), unreadable(A_ROOT)),
    (abort(), DONE),
    (forget(A), DONE),
]
# Nor is any where its size is none of an index: it has a piece more than one may have.
FIXED_NAME, FIXED_LISTED = f"{A}/root.fidx", blob(manifest(A, listed("root.fidx", 3, fixed_csum([b"abc"]))))
LONG_INDEX = INDEX_HEADER + 32 * 1048577
INDEX_TOO_LONG = [
    (LIST, rows((A, 2))),
    (open_reader(A), DONE),
    (download("root.fidx"), unreadable(FIXED_NAME)),
    (close_reader(), DONE),
    (open_writer(A_LATER), base(A)),
    (previous("root.fidx"), unreadable(FIXED_NAME)),
    (abort(), DONE),
    (forget(A), DONE),
]
# The newer of two is damaged: the next must be later, and is over the older.
NEWER_DAMAGED = [
    (LIST, rows((A, 1), (A_LATER, None))),
    (GROUP, keys(A, A_LATER)),
    (open_writer(A_LATER), not_newer(A_LATER)),
    (open_writer(A_THIRD), base(A)),
    (abort(), DONE),
    (prune("host/a", last=1), marks((A_LATER, 1), (A, 0))),
    (open_writer(A_THIRD), base()),
    (abort(), DONE),
    (forget(A_LATER), DONE),
    (open_writer(A), base()),
]

# What stands in a folder before a run, the run, and what stands there then.
FOLDERS = [
    # what the manifest may have listed stays until the next opening
    ("the manifest is none", [(A_CONF, CONF), (PLAIN, b"abc")], MANIFEST_DAMAGED, [(A_CONF, 21)]),
    # those that are there go, and one that is not listed stays until the next opening
    (
        "a listed file is missing",
        [(f"{A}/b.blob", CONF), (PLAIN, blob(manifest(A, *BOTH_LISTED))), (A_ROOT, b"abc")],
        FILE_MISSING,
        [(f"{A}/b.blob", 21)],
    ),
    ("both listed files are missing", [(PLAIN, blob(manifest(A, *BOTH_LISTED)))], FILE_MISSING, []),
    ("both are missing, in the other order", [(PLAIN, blob(manifest(A, *reversed(BOTH_LISTED))))], FILE_MISSING, []),
    ("the index is none", [(PLAIN, ROOT_LISTED), (A_ROOT, b"abc")], INDEX_DAMAGED, []),
    ("the newer manifest is none", [plain(A), (LATER_PLAIN, b"abc")], NEWER_DAMAGED, []),
    (
        "a snapshot that was not finished",
        [(ABC, b"abc"), (A_CONF, CONF), (f"{PLAIN}.tmp", blob(manifest(A))), (A_ROOT, b"abc")],
        [(LIST, rows()), (open_reader(A), no_snapshot()), (open_writer(A), base())],
        [(ABC, 3)],
    ),
]
# Names of other forms stay, but for those with `.tmp`; a book that is none is written over.
OTHER_NAMES = [
    ".chunks/ba78/ba78",
    ".chunks/other/names/abc",
    f"{A}/notes.txt",
    f"{A}/x/{MANIFEST}",
    "host/a/notes.blob",
    "notes.txt",
]
GOING = [".chunks/959a.tmp", ".chunks/book", "notes.tmp"]
# A manifest that lists more than 63 files makes its snapshot damaged. It is forgotten with all of them.
MANY = [f"{A}/x{number}.blob" for number in range(10, 74)]
# The folders of `plain_tests`, which loads the same as a plain store: what it has of snapshots is what is whole here.
A_BLOB, A_FIXED, A_B_PLAIN = f"{A}/set.blob", f"{A}/root.fidx", f"{A_B}/{MANIFEST}"
BOTH_WHOLE, ONE_WHOLE = rows((A, 4), (A_B, 1)), rows((A, None), (A_B, 1))
TWO_THERE = "two snapshots of earlier runs"
# What is changed of them, what LIST tells, and which files go as they are opened.
LOADED = [
    ("they are", [], BOTH_WHOLE, []),
    ("a manifest is no blob", [(PLAIN, b"abc")], ONE_WHOLE, []),
    ("a manifest is empty", [(PLAIN, b"")], ONE_WHOLE, []),
    ("a blob is no manifest", [(PLAIN, blob(b"x"))], ONE_WHOLE, []),
    ("a blob is missing", [(A_BLOB, None)], ONE_WHOLE, []),
    ("an index is missing", [(A_ROOT, None)], ONE_WHOLE, []),
    # no index and no blob is read at opening
    ("an index and a blob are none", [(A_ROOT, b"abc"), (A_BLOB, b"abc")], BOTH_WHOLE, []),
    ("a manifest is missing", [(PLAIN, None)], rows((A_B, 1)), [A_BLOB, A_FIXED, A_ROOT]),
    (
        "names that are none of a snapshot's files",
        [
            (".chunks/ba78/ba78", b"abc"),
            (".chunks/book", b"abc"),
            (f"{A}/notes.txt", b"abc"),
            (f"{A}/x/{MANIFEST}", OTHER_BLOB),
            (f"host/a/2020-02-30T06:30:03Z/{MANIFEST}", OTHER_BLOB),
            (f"host/a/{MANIFEST}", OTHER_BLOB),
            (MANIFEST, OTHER_BLOB),
            ("notes.txt", b"abc"),
            (f"vm/-/2020-01-15T06:30:03Z/{MANIFEST}", OTHER_BLOB),
        ],
        BOTH_WHOLE,
        [".chunks/book"],
    ),
    (
        "temporary files, and those of a snapshot that was not finished",
        [
            (f"{PLAIN}.tmp", OTHER_BLOB),
            (f"{LATER_PLAIN}.tmp", OTHER_BLOB),
            (f"{A_LATER}/set.blob", b"abc"),
            ("notes.tmp", b"abc"),
        ],
        BOTH_WHOLE,
        [f"{PLAIN}.tmp", f"{LATER_PLAIN}.tmp", f"{A_LATER}/set.blob", "notes.tmp"],
    ),
    (
        "snapshots of all types, whatever key their manifests have",
        [
            (f"ct/z/2020-01-15T06:30:03Z/{MANIFEST}", OTHER_BLOB),
            (f"{A_B}/set.blob", b"abc"),
            (LATER_PLAIN, b"abc"),
            (f"vm/A/9999-12-31T23:59:59Z/{MANIFEST}", OTHER_BLOB),
        ],
        rows(("ct/z/2020-01-15T06:30:03Z", 1), (A, 4), (A_LATER, None), (A_B, 1), ("vm/A/9999-12-31T23:59:59Z", 1)),
        [],
    ),
]
# Names of 255 bytes: what they begin and end with, with `x` between, and whether they stay.
LONG = [
    ("", "", True),
    ("", ".tmp", False),
    (".chunks/", "", True),
    (".chunks/ba78/", ".tmp", False),
    (f"{A}/", ".blob", True),
    (f"{A}/", ".blob.tmp", False),
    ("host/", f"/2020-01-15T06:30:03Z/{MANIFEST}", True),
    ("host/", f"/2020-01-15T06:30:03Z/{MANIFEST}.tmp", False),
]

# A snapshot, what is left of another, and a temporary file, beside a book of no touches.
OPENED = [(PLAIN, ROOT_LISTED), (A_ROOT, b"abc"), (f"{A_LATER}/a.conf.blob", CONF), ("notes.tmp", b"abc")]
OPENED_SIZES = [(name, len(data)) for name, data in OPENED]
OPENED_BOOK = place(".chunks/book", book(NOW))
# Which of them stand once its disk has failed that call of opening: sync, a list of all names, two removals, the manifest's size, the
# manifest, the size of the file that it lists, and the book's size, its count of touches, and the book. It is then saved by three.
STANDING = [4, 4, 4, 3, 2, 2, 2, 2, 2, 2]
OPEN_CALLS = len(STANDING)


def folder(name, before, turns, left):
    return scenario(name, flat(place(*it) for it in before), talk(turns), files_left(left))


def loaded(name, changes, told, going):
    """Behind changes of that datastore a session lists it, and all files stay but these."""
    files = {**TWO_SNAPSHOTS, **dict(changes)}
    left = [(it, len(data)) for it, data in files.items() if data is not None and it not in going]
    changed = flat(change(it, data) for it, data in changes)
    return scenario(f"of two snapshots {name}", start_from(TWO_THERE), changed, talk([(LIST, told)]), files_left(left))


def long_name(front, end, stays):
    name = front + "x" * (255 - len(front) - len(end)) + end
    left = [(name, 3)] if stays else []
    return folder(f"a name of 255 bytes: {front}x..{end}", [(name, b"abc")], [(LIST, rows())], left)


def failed_opening(call, count, line):
    """No command is read. A later session finds the snapshot."""
    return scenario(
        f"an opening fails: {line[0]}",
        flat(place(*it) for it in OPENED),
        OPENED_BOOK,
        crash(1),
        line,
        asked(LIST),
        not_opened("unopened" if call else "unsynced"),
        entries(0),
        faults(1),
        files_left([*OPENED_SIZES[:2], *OPENED_SIZES[2:][4 - count :]]),
        talk(INDEX_DAMAGED),
        files_left([]),
    )


SCENARIOS = [
    scenario(
        "later runs go on",
        talk([*ROOT_SENT, *FIRST_RUN]),
        talk([*FOUND, *OVER, *FORGOTTEN]),
        talk(LEFT),
        files_left(LATER_LEFT),
    ),
    *(folder(*it) for it in FOLDERS),
    folder(
        "names of other forms",
        sorted((it, b"a") for it in OTHER_NAMES + GOING),
        [(LIST, rows()), (GROUP, NONE_THERE)],
        [(it, 1) for it in OTHER_NAMES],
    ),
    folder(
        "a manifest that lists 64 files",
        [(PLAIN, many_listed(64)), *((it, b"abc") for it in MANY)],
        MANIFEST_DAMAGED,
        [],
    ),
    folder(
        "a manifest that lists 63 files",
        [(PLAIN, many_listed(63)), *((it, b"abc") for it in MANY[:63])],
        [(LIST, rows((A, 64)))],
        [(PLAIN, len(many_listed(63))), *((it, 3) for it in MANY[:63])],
    ),
    scenario(TWO_THERE, flat(place(*it) for it in TWO_SNAPSHOTS.items()), crash(1), ends("Ok", 0, 0), keep(TWO_THERE)),
    *(loaded(*it) for it in LOADED),
    scenario("the index is too long", place(PLAIN, FIXED_LISTED), place_zeros(FIXED_NAME, LONG_INDEX), talk(INDEX_TOO_LONG), files_left([])),
    *(long_name(*it) for it in LONG),
    *(
        failed_opening(call, count, line)
        for call, count in enumerate(STANDING)
        for line in (fails(call), stops(call))
    ),
    scenario(
        "an opening is stopped",
        flat(place(*it) for it in OPENED),
        OPENED_BOOK,
        crash(1),
        sent([(LIST, rows((A, 2)))]),
        found(0, 99, INDEX_DAMAGED, []),
        sweep(OPEN_CALLS + 3),
    ),
    scenario(
        "its writing calls",
        flat(place(*it) for it in OPENED),
        OPENED_BOOK,
        ends("Ok", 0, 0),
        writes("sdd psr"),
        made(OPEN_CALLS + 3),
    ),
]

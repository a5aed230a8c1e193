"""Sessions whose disk fails at each of its calls, alone and with all behind it: what they are told, and what a later session finds
behind a crash."""
from scenarios import archives, prunes
from scenarios.backups import *

NO_SESSION = wrong_state(0)
ROOT_INDEX = f"{A}/root.didx"
LATER_INDEX = f"{A_LATER}/root.didx"
LATER_PLAIN = f"{A_LATER}/{MANIFEST}"

# A backup of eight commands, one over it of seven by PREVIOUS, and a FORGET of the first.
ARCHIVES = ROOT_SENT + ROOT_FINISHED + archives.OVER + [(forget(A), DONE)]


def archive_of(snapshot, is_there):
    """A restore of the archive, if its snapshot is there."""
    if is_there:
        return [(open_reader(snapshot), DONE), FROM_END, ALL_FIVE, (close_reader(), DONE)]
    asked = [FROM_END[0], ALL_FIVE[0], close_reader()]
    return [(open_reader(snapshot), no_snapshot()), *((it, NO_SESSION) for it in asked)]


def archives_found(*there):
    return [(LIST, rows(*((it, 2) for it in there))), *archive_of(A, A in there), *archive_of(A_LATER, A_LATER in there)]


# From how many acts that were done on, and up to how many, this is found; and the names of the files beside chunks.
ARCHIVES_FOUND = [
    (0, 8, archives_found(), []),
    (8, 15, archives_found(A), [PLAIN, ROOT_INDEX]),
    (15, 16, archives_found(A, A_LATER), [PLAIN, ROOT_INDEX, LATER_PLAIN, LATER_INDEX]),
    (16, 99, archives_found(A_LATER), [LATER_PLAIN, LATER_INDEX]),
]

# A first backup of one file, of four commands.
CONF = blob(b"123456789")
CONF_FILE = f"{A}/a.conf.blob"
FIRST = [
    (open_writer(A), base()),
    (put("a.conf.blob", b"123456789"), DONE),
    (put_manifest(A, listed_blob("a.conf.blob", CONF)), DONE),
    (finish(), DONE),
]


def conf_found(*there):
    asked = [open_reader(A), download("a.conf.blob"), close_reader()]
    if (A, 2) in there:
        return [(LIST, rows(*there)), *zip(asked, [DONE, part(CONF), DONE])]
    return [(LIST, rows(*there)), *zip(asked, [no_snapshot(), NO_SESSION, NO_SESSION])]


# Two files are uploaded and aborted, and again; then they go at the lane's end.
UPLOAD = [(open_writer(A_LATER), base(A)), (put("a.conf.blob", b"123456789"), DONE), (put("b.blob", b""), DONE)]
UPLOADS = FIRST + UPLOAD + [(abort(), DONE)] + UPLOAD
UPLOADS_FOUND = [(0, 4, conf_found(), []), (4, 99, conf_found((A, 2)), [CONF_FILE, PLAIN])]

# Two backups more, and a PRUNE that keeps the last: it is three steps, of which two forget, the newer snapshot first.
A_LAST = "host/a/2020-01-15T06:30:05Z"
LAST_PLAIN = f"{A_LAST}/{MANIFEST}"
PRUNES = FIRST + [
    (open_writer(A_LATER), base(A)),
    (put_manifest(A_LATER), DONE),
    (finish(), DONE),
    (open_writer(A_LAST), base(A_LATER)),
    (put_manifest(A_LAST), DONE),
    (finish(), DONE),
    (prune("host/a", last=1), marks((A_LAST, 1), (A_LATER, 0), (A, 0))),
]
FIRST_LEFT = [CONF_FILE, PLAIN]
PRUNES_FOUND = [
    (0, 4, conf_found(), []),
    (4, 7, conf_found((A, 2)), FIRST_LEFT),
    (7, 10, conf_found((A, 2), (A_LATER, 1)), [*FIRST_LEFT, LATER_PLAIN]),
    (10, 12, conf_found((A, 2), (A_LATER, 1), (A_LAST, 1)), [*FIRST_LEFT, LATER_PLAIN, LAST_PLAIN]),
    (12, 13, conf_found((A, 2), (A_LAST, 1)), [*FIRST_LEFT, LAST_PLAIN]),
    (13, 99, conf_found((A_LAST, 1)), [LAST_PLAIN]),
]


# A backup of seven commands, of one archive of a piece of three bytes; it is restored and listed.
FIXED_FILE = f"{A}/root.fidx"
FIXED_ROW = listed("root.fidx", 3, fixed_csum([b"abc"]))
FIXED_READ = [
    (open_reader(A), DONE),
    (download("root.fidx", 4128), part(fixed_index(A, "root.fidx", NOW, [b"abc"]), 4128)),
    (range_of("root.fidx", 0, 3), rest(b"abc")),
]
RESTORES = [
    (open_writer(A), base()),
    (new_fixed("root.fidx", 3, 4096), number(0)),
    (chunk(b"abc"), DONE),
    (append(0, (b"abc", 0)), DONE),
    (close_index(0, 1, 3, fixed_csum([b"abc"])), DONE),
    (put_manifest(A, FIXED_ROW), DONE),
    (finish(), DONE),
    *FIXED_READ,
    (get_chunk(sha256(b"abc")), rest(blob(b"abc"))),
    (LIST, rows((A, 2))),
    (files(A), file_rows((MANIFEST, 213, sha256(blob(manifest(A, FIXED_ROW)))), ("root.fidx", 3, fixed_csum([b"abc"])))),
    (GROUP, keys(A)),
    (close_reader(), DONE),
]
NO_FIXED = [(open_reader(A), no_snapshot()), *((it, NO_SESSION) for it, _ in FIXED_READ[1:]), (close_reader(), NO_SESSION)]
RESTORES_FOUND = [
    (0, 7, [(LIST, rows()), *NO_FIXED], []),
    (7, 99, [(LIST, rows((A, 2))), *FIXED_READ, (close_reader(), DONE)], [PLAIN, FIXED_FILE]),
]

# Two backups of one archive and a restore; and a backup that is verified: what is there stays.
AGAIN_FOUND = [*ARCHIVES_FOUND[:2], (15, 99, *ARCHIVES_FOUND[2][2:])]
VERIFIES = ROOT_SENT + ROOT_FINISHED + [(verify(A), verified(2, 2, 5))]
VERIFIES_FOUND = [ARCHIVES_FOUND[0], (8, 99, *ARCHIVES_FOUND[1][2:])]

# A FORGET of the first backup, a third one, and a PRUNE that keeps that alone: it is two steps, of which one forgets.
GONE_FOUND = [
    (0, 4, conf_found(), []),
    (4, 7, conf_found((A, 2)), FIRST_LEFT),
    (7, 10, conf_found((A, 2), (A_LATER, 1)), [*FIRST_LEFT, LATER_PLAIN]),
    (10, 13, conf_found((A_LATER, 1)), [LATER_PLAIN]),
    (13, 15, conf_found((A_LATER, 1), (A_LAST, 1)), [LATER_PLAIN, LAST_PLAIN]),
    (15, 99, conf_found((A_LAST, 1)), [LAST_PLAIN]),
]


# How many calls FINISH has made as its disk stops, and whether its snapshot is found behind a crash of each kind. It puts, syncs, renames
# and syncs; a crash undoes the rename, or it does not.
FINISHES = [(0, (0, 0, 0)), (1, (0, 0, 0)), (2, (0, 0, 0)), (3, (0, 1, 1)), (4, (1, 1, 1))]
# The same of a FORGET. It removes the manifest, syncs, and removes the other file, which opening does where a crash undoes it; a crash
# undoes the removal, or it does not.
FORGETS = [(0, (1, 1, 1)), (1, (1, 0, 1)), (2, (0, 0, 0)), (3, (0, 0, 0))]
# The calls before each: three of opening, four of each of two chunks, three of an index, and four of FINISH.
BEFORE_FINISH, BEFORE_FORGET = 14, 18
BACKUP = ROOT_SENT + ROOT_FINISHED


# Two chunks stand in each case, as an index's sync comes behind both.
CHUNKS = [(DE, 14), (ABC, 15)]


def first_found(is_found):
    """A later session finds the backup, with its files, or nothing of it."""
    left = [(PLAIN, 213), (ROOT_INDEX, 4176)] if is_found else []
    return talk(archives_found(*[A] * is_found)) + files_left(CHUNKS + left) + [f"chunks {len(CHUNKS)}"]


def stopped_last(name, turns, before, made_calls, of_last, found_behind):
    """The disk stops in the last command, or in the save of the book behind it. What is found behind each kind of crash."""
    last = (turns[-1][0], DONE if made_calls == of_last else disk_fault())
    return [
        scenario(
            f"{name} stopped behind {made_calls} calls, a crash of kind {choice}",
            stops(before + made_calls),
            talk([*turns[:-1], last], "DiskFault"),
            crash(choice),
            first_found(is_found),
        )
        for choice, is_found in enumerate(found_behind)
    ]

# Behind a backup one more is begun, and the put of its CHUNK fails: behind the calls up to FINISH, and one that asks for its file.
CHUNK_FAILS = [
    *BACKUP,
    (open_writer(A_LATER), base(A)),
    (chunk(b"xyz"), disk_fault()),
    (LIST, halted(9)),
]
PUT_FAILS = "the put of a chunk fails: what was finished is found"


def swept(name, turns, calls, founds):
    return scenario(name, sent(turns), flat(found(*it) for it in founds), sweep(calls))


SCENARIOS = [
    swept("a backup, one over it, and a FORGET", ARCHIVES, 36, ARCHIVES_FOUND),
    swept("uploads that are aborted, and cut off", UPLOADS, 29, UPLOADS_FOUND),
    swept("a PRUNE of two snapshots", PRUNES, 26, PRUNES_FOUND),
    # the chunk has four calls, the index three, FINISH four, DOWNLOAD two and three to open the index, RANGE one for a page and two, GET_CHUNK two, and FILES one
    swept("a fixed archive that is restored and listed", RESTORES, 28, RESTORES_FOUND),
    swept("two backups of an archive, and a restore", archives.AGAIN, 45, AGAIN_FOUND),
    swept("a FORGET, and a PRUNE behind it", prunes.GONE, 27, GONE_FOUND),
    # VERIFY has one for FILES, two for each file, three to open the index, of which one has its page, and two for each chunk
    swept("a backup that is verified", VERIFIES, 33, VERIFIES_FOUND),
    *flat(stopped_last("a FINISH", BACKUP, BEFORE_FINISH, count, 4, found_behind) for count, found_behind in FINISHES),
    *flat(stopped_last("a FORGET", [*BACKUP, (forget(A), DONE)], BEFORE_FORGET, count, 3, found_behind) for count, found_behind in FORGETS),
    scenario(PUT_FAILS, fails(BEFORE_FORGET + 1), talk(CHUNK_FAILS, "DiskFault"), first_found(True)),
    *(
        scenario(f"{PUT_FAILS}, behind a crash of kind {choice}", fails(BEFORE_FORGET + 1), talk(CHUNK_FAILS, "DiskFault"), crash(choice), first_found(True))
        for choice in range(3)
    ),
]

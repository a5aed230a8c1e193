"""The book of touches in a datastore's folder, as sessions find it and leave it. Each act has a moment of its own."""
from scenarios.backups import *

BOOK = ".chunks/book"
ABC_THERE, DE_THERE = (ABC, blob(b"abc")), (DE, blob(b"de"))
NO_SESSION = wrong_state(0)
SEND_ABC, SEND_DE = (chunk(b"abc"), DONE), (chunk(b"de"), DONE)
# What is no command.
NO_COMMAND = [(b"c", bad_frame(0))]
# `abc`, `de`, and `abc` again, which the session knows; in a later session `de`, which is there.
SENT = [(open_writer(A), base()), SEND_ABC, SEND_DE, SEND_ABC, (abort(), DONE), (open_writer(A), base()), SEND_DE]
AGAIN = [(open_writer(A), base()), SEND_ABC]
BACKED_UP = ROOT_SENT + ROOT_FINISHED
TAKE_OVER = (previous("root.didx", 4176), part(ROOT, 4176))
# A backup over it names `abc` and sends nothing; one sends `de`, which PREVIOUS told.
NAMED = [(open_writer(A_LATER), base(A)), TAKE_OVER, (new_dynamic("root.didx"), number(0)), (append(0, (b"abc", 0)), DONE)]
SENT_OVER = [(open_writer(A_LATER), base(A)), TAKE_OVER, SEND_DE]
RESTORED = [(open_reader(A), DONE), FROM_END, (get_chunk(sha256(b"abc")), rest(blob(b"abc"))), ALL_FIVE, (close_reader(), DONE)]
FORGOTTEN = [(forget(A), DONE), (LIST, rows())]
NOT_THERE = [(open_reader(A), no_snapshot())]
ABD, XYZ_DIGEST = sha256(b"abd"), sha256(b"xyz")
# What is refused, of chunks that are there and of others. An APPEND of no entries is done.
REFUSED = [
    (chunk(b"abc"), NO_SESSION),
    (open_writer(A), base()),
    (new_dynamic("root.didx"), number(0)),
    SEND_ABC,
    SEND_DE,
    (chunk_as(sha256(b"abc"), blob(b"abd")), wrong_digest(ABD)),
    (chunk_as(XYZ_DIGEST, blob(b"abd")), wrong_digest(ABD)),
    (chunk_as(sha256(b"abc"), blob(b"abc")[:11]), bad_blob(1)),
    (chunk(b""), wrong_size(0, 0)),
    (append(0, (b"abc", 0), (b"de", 2)), bad_offset(1, 3)),
    (append(0, (b"abc", 0), (b"xyz", 3)), unknown_chunk(1)),
    (append(1, (b"abc", 0)), no_file()),
    (append(0), DONE),
]


def run(moments, turns, book_after, status="Ok"):
    """A session by a clock with these readings, and then 0; and the book behind it."""
    return [*clock(*moments, 0), *talk(turns, status), *saved(), *bytes_at(BOOK, book_after)]


def one_run(name, files, *of_run):
    return scenario(name, flat(place(*it) for it in files), run(*of_run))


OLD, NEW_BOOK = book(18, (b"abc", 14), (b"de", 14)), book(24, (b"abc", 23), (b"de", 14))
# The calls of the second run before its save: of opening a sync, a list, the manifest's size and the manifest, the size of its archive,
# and the book's size, its head and the book; of PREVIOUS the index's size and a part, and its size, front and page as it is opened.
BEFORE_SAVE = 13
# How many calls of the save are made before the disk stops, whether the book is saved, and which one stands there once a crash of
# each kind comes. The save puts, syncs and renames; a crash undoes the rename, or it does not.
SAVES = [(0, False, [OLD] * 3), (1, False, [OLD] * 3), (2, False, [OLD] * 3), (3, True, [OLD, NEW_BOOK, NEW_BOOK])]
SAVE_BACKUP = "a backup, whose book is there"


def stopped_save(calls, is_saved, choice, book_left):
    return scenario(
        f"a save is stopped after {calls} calls, crash {choice}",
        start_from(SAVE_BACKUP),
        clock(20, 21, 22, 23, 24, 0),
        stops(BEFORE_SAVE + calls),
        talk(NAMED, "Ok" if is_saved else "DiskFault"),
        saved(is_saved),
        crash(choice),
        bytes_at(BOOK, book_left),
        clock(0),
        talk(RESTORED),
    )


KEPT = book(10, (b"abc", 5))
BOTH_SENT = [(open_writer(A), base()), SEND_ABC, SEND_DE]


def failed_chunk(call):
    """Behind opening the first CHUNK asks whether its file is there, and the second also installs its own."""
    first = call == 5
    turns = [BOTH_SENT[0], (BOTH_SENT[1][0], disk_fault() if first else DONE), (BOTH_SENT[2][0], halted(1) if first else disk_fault())]
    return scenario(
        f"call {call} fails: the book stays",
        place(*ABC_THERE),
        place(BOOK, KEPT),
        clock(20, 21, 22, 23, 0),
        fails(call),
        talk(turns, "DiskFault"),
        saved(),
        bytes_at(BOOK, KEPT),
    )


SCENARIOS = [
    scenario(
        "unfinished backups",
        run([100], [], book(100)),
        # each has the moment at which it was sent last
        run(range(200, 208), SENT, book(207, (b"abc", 203), (b"de", 206))),
        # moments never fall, from the book's on
        run([150, 160, 170], AGAIN, book(207, (b"abc", 207), (b"de", 206))),
        run([300], NO_COMMAND, book(300, (b"abc", 207), (b"de", 206)), "BadFrame"),
    ),
    scenario(
        "finished backups",
        # both were named together
        run(range(10, 19), BACKED_UP, OLD),
        run(range(20, 25), NAMED, NEW_BOOK),
        run(range(30, 34), SENT_OVER, book(33, (b"abc", 23), (b"de", 32))),
        # who reads touches none, and chunks outlast their snapshot
        run(range(40, 46), RESTORED, book(45, (b"abc", 23), (b"de", 32))),
        run(range(50, 53), FORGOTTEN, book(52, (b"abc", 23), (b"de", 32))),
    ),
    one_run("what is refused touches nothing", [], range(1, 15), REFUSED, book(14, (b"abc", 4), (b"de", 5))),
    # Chunks without a book are dated by the first entry, of whatever kind, and not by the next.
    one_run("undated chunks, one of which is sent", [ABC_THERE, DE_THERE], [70, 71, 72], AGAIN, book(72, (b"abc", 71), (b"de", 70))),
    one_run("undated chunks", [ABC_THERE, DE_THERE], [70, 71], NOT_THERE, book(71, (b"abc", 70), (b"de", 70))),
    one_run(
        "the book has a chunk that is gone, and lacks one that is there",
        [(XYZ, blob(b"xyz")), ABC_THERE, (BOOK, book(10, (b"abc", 5), (b"de", 4)))],
        [20, 21],
        NOT_THERE,
        book(21, (b"abc", 5), (b"xyz", 20)),
    ),
    one_run(
        "a book with another last byte is none",
        [ABC_THERE, (BOOK, KEPT[:-1] + b"\0")],
        [3, 4],
        NOT_THERE,
        book(4, (b"abc", 3)),
    ),
    scenario(SAVE_BACKUP, run(range(10, 19), BACKED_UP, OLD), keep(SAVE_BACKUP)),
    *(
        stopped_save(calls, is_saved, choice, book_left)
        for calls, is_saved, books in SAVES
        for choice, book_left in enumerate(books)
    ),
    *map(failed_chunk, range(5, 10)),
]

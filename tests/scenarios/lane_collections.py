"""Collections beside sessions on other lanes, which write and forget meanwhile: what is kept, what goes, and which lane is told as busy."""
from scenarios.backups import *
from scenarios.collections import chunks_left, gc_of
from scenarios.lanes import at_once, on

# A snapshot that is marked first, of so many archives of `xyz`; and one of `abc` and `de`. All was touched at 100.
MARKS = 40
FRONT = "ct/z/2020-01-15T06:30:03Z"
OF_XYZ = {f"x{at:02}.didx": dynamic_index(FRONT, f"x{at:02}.didx", NOW, [b"xyz"]) for at in range(MARKS)}
ROOT_LISTED = listed("root.didx", 5, BOTH_CSUM)
STORED = {
    **{f"{FRONT}/{name}": file for name, file in OF_XYZ.items()},
    f"{FRONT}/{MANIFEST}": blob(manifest(FRONT, *(listed(name, 3, dynamic_csum([b"xyz"])) for name in OF_XYZ))),
    f"{A}/root.didx": ROOT,
    PLAIN: blob(manifest(A, ROOT_LISTED)),
    **{path: blob(piece) for path, piece in ((ABC, b"abc"), (DE, b"de"), (XYZ, b"xyz"))},
    ".chunks/book": book(100, (b"abc", 100), (b"de", 100), (b"xyz", 100)),
}
LONG = "41 archives, touched long ago"
ABC_CSUM = dynamic_csum([b"abc"])
ABC_LEFT, DE_LEFT, XYZ_LEFT = (ABC, 15), (DE, 14), (XYZ, 15)
OVER_READ = (previous("root.didx", 4176), part(ROOT, 4176))
RESTORED = [
    (LIST, rows((FRONT, MARKS + 1), (A_LATER, 2))),
    (open_reader(A_LATER), DONE),
    (download("root.didx", 4136), part(dynamic_index(A_LATER, "root.didx", 1_000_000, [b"abc"]), 4136)),
    (range_of("root.didx", 0, 3), rest(b"abc")),
    (close_reader(), DONE),
    (verify(A_LATER), verified(2, 1, 3)),
]
# OPEN_WRITER over the snapshot, whose archive gives the pool; and an archive of `abc`, which is not sent again.
OPENED = [(open_writer(A_LATER), base(A)), OVER_READ, (new_dynamic("root.didx"), number(0))]
ABC_LISTED = (put_manifest(A_LATER, listed("root.didx", 3, ABC_CSUM)), DONE)
REUSED = [(append(0, (b"abc", 0)), DONE), (close_index(0, 1, 3, ABC_CSUM), DONE)]


def beside_gc(lane, turns, reply):
    """A collection on this lane, which is begun and not yet answered as the others' commands come."""
    return [(lane, gc(), None), *turns, (lane, None, reply)]


SCENARIOS = [
    scenario(LONG, flat(place(*it) for it in STORED.items()), clock(100), talk([(LIST, rows((FRONT, MARKS + 1), (A, 2)))]), keep(LONG)),
    scenario(
        "what a writer reuses of its base once a collection has begun stays, though the base is forgotten before it is marked",
        start_from(LONG),
        clock(1_000_000),
        tries(1_000),
        at_once(
            on(0, *OPENED, ABC_LISTED),
            # `de` is in the base alone: it goes where that is forgotten before its mark
            beside_gc(1, on(0, *REUSED, (finish(), DONE), (forget(A), DONE)), gc_of(1_000_000, 2, 0, 1)[1]),
        ),
        bytes_at(".chunks/book", book(1_000_000, (b"abc", 1_000_000), (b"xyz", 1_000_000))),
        chunks_left([ABC_LEFT, XYZ_LEFT]),
        talk(RESTORED),
    ),
    scenario(
        "what a writer reused before a collection began stays, though the base is forgotten before that",
        start_from(LONG),
        clock(1_000_000),
        at_once(
            on(0, *OPENED, *REUSED, ABC_LISTED, (finish(), DONE), (forget(A), DONE)),
            on(1, gc_of(1_000_000, 2, 0, 1)),
        ),
        chunks_left([ABC_LEFT, XYZ_LEFT]),
        talk(RESTORED),
    ),
    scenario(
        "what a snapshot alone has that is forgotten on another lane goes at the next collection",
        start_from(LONG),
        # (two commands, the collection's start, marks, chunks and end, and two commands)
        clock(*[1_000_000] * (2 + 1 + (MARKS + 1) + 3 + 1 + 2), 1_100_000),
        at_once(
            on(0, (open_reader(A), DONE)),
            on(1, (forget(A), snapshot_busy(0))),
            on(2, gc_of(1_000_000, 3, 0, 0)),
            on(0, (close_reader(), DONE)),
            on(1, (forget(A), DONE)),
            on(2, gc_of(1_100_000, 1, 0, 2)),
        ),
        chunks_left([XYZ_LEFT]),
    ),
    scenario(
        "a collection keeps what a writer on another lane sent since its start, and a little before",
        place(".chunks/book", book(899_699, (b"abc", 899_699), (b"de", 899_699))),
        place(ABC, blob(b"abc")),
        place(DE, blob(b"de")),
        clock(899_699, 899_700, 900_000, 900_000, 1_000_000),
        at_once(
            on(1, (open_writer(B), base()), (chunk(b"abc"), DONE)),
            on(0, (open_writer(A), base()), (chunk(b"xyz"), DONE)),
            on(1, (abort(), DONE)),
            # the oldest writer that runs has begun at 900,000: the cutoff is 899,700
            on(2, (gc(), collected(1_000_000, 899_700, 0, 2, 1))),
        ),
        chunks_left([ABC_LEFT, XYZ_LEFT]),
    ),
    scenario(
        "one lane collects at a time: another is told which, until that has ended",
        start_from(LONG),
        clock(1_000_000),
        tries(1_000),
        at_once(
            beside_gc(1, on(0, (gc(), collector_busy(1))) + on(2, (gc(), collector_busy(1))), gc_of(1_000_000, 3, 0, 0)[1]),
            on(0, gc_of(1_000_000, 3, 0, 0)),
        ),
    ),
    scenario(
        "LIST, VERIFY and PRUNE go on beside a collection",
        start_from(LONG),
        clock(1_000_000),
        at_once(
            beside_gc(
                1,
                on(0, (LIST, rows((FRONT, MARKS + 1), (A, 2))), (verify(A), verified(2, 2, 5)), (prune("host/a", last=1), marks((A, 1)))),
                gc_of(1_000_000, 3, 0, 0)[1],
            ),
        ),
        chunks_left([DE_LEFT, ABC_LEFT, XYZ_LEFT]),
    ),
]

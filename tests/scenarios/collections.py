"""Collections of unused chunks: what they report, which chunks they leave, and where the disk fails in one. Each run has a clock of its
own."""
from scenarios.backups import *
from scenarios.books import ABC_THERE, BOOK, KEPT, TAKE_OVER
from scenarios.pulls import SHARED

A_THIRD = "host/a/2020-01-15T06:30:05Z"
VW = f".chunks/{sha256(b'vw').hex()[:4]}/{sha256(b'vw').hex()}"
IN_WRITER, IN_READER = wrong_state(1), wrong_state(2)
BACKED_UP = ROOT_SENT + ROOT_FINISHED
OVER_CSUM = dynamic_csum([b"abc", b"xyz"])
# One over it, of `abc`, which it takes over, and `xyz`.
OVER = [
    (open_writer(A_LATER), base(A)),
    TAKE_OVER,
    (new_dynamic("root.didx"), number(0)),
    (chunk(b"xyz"), DONE),
    (append(0, (b"abc", 0), (b"xyz", 3)), DONE),
    (close_index(0, 2, 6, OVER_CSUM), DONE),
    (put_manifest(A_LATER, listed("root.didx", 6, OVER_CSUM)), DONE),
    (finish(), DONE),
]
ALL_SIX = (range_of("root.didx", 0, 6), rest(b"abcxyz"))
SIX_RESTORED = [(open_reader(A_LATER), DONE), FROM_END, ALL_SIX, (close_reader(), DONE)]
ONES = [0] * 8


def gc_of(now, used, pending, removed):
    """A collection at this moment, a day behind whose cutoff it reports; within the first day that is 0."""
    return gc(), collected(now, max(0, now - 86_700), used, pending, removed)


def run(moments, turns, entry_kinds, book_after, chunks):
    """A session by a clock with these readings, and then 0, where moments do not fall; and what it leaves."""
    return [
        *clock(*moments, 0),
        *talk(turns),
        *kinds(*entry_kinds),
        *saved(),
        *bytes_at(BOOK, book_after),
        *chunks_left(chunks),
    ]


def chunks_left(chunks):
    return [f"file {path} {size}" for path, size in chunks] + [f"chunks {len(chunks)}"]


ABC_LEFT, DE_LEFT, XYZ_LEFT, VW_LEFT = (ABC, 15), (DE, 14), (XYZ, 15), (VW, 14)
TWO_BACKUPS = "two backups"
FIRST = run([1_000_000], BACKED_UP, ONES + [6], book(1_000_000, (b"abc", 1_000_000), (b"de", 1_000_000)), [DE_LEFT, ABC_LEFT])
SECOND = run(
    [1_100_000],
    OVER,
    ONES + [6],
    book(1_100_000, (b"abc", 1_100_000), (b"de", 1_000_000), (b"xyz", 1_100_000)),
    [XYZ_LEFT, DE_LEFT, ABC_LEFT],
)
# What is in the book of a folder with a damaged snapshot, whatever is refused there.
UNTOUCHED = book(1_000_000, (b"abc", 5))
NO_INDEX = unreadable(f"{A}/root.didx")
ROOT_LISTED = blob(manifest(A, listed("root.didx", 5, BOTH_CSUM)))
DAMAGED = [
    ("its manifest is none", [(PLAIN, b"no blob")], [(gc(), unreadable(PLAIN))], [0, 6]),
    ("its index is missing", [(PLAIN, ROOT_LISTED)], [(gc(), NO_INDEX)], [0, 6]),
    # it is found as it is to be marked: that ends the collection, and no chunk is visited
    ("its index is none", [(PLAIN, ROOT_LISTED), (f"{A}/root.didx", b"no index")], [(gc(), NO_INDEX)] * 2, [3, 1, 4, 3, 1, 4, 6]),
]
# Behind two backups the first is forgotten, and `de` goes.
SWEPT = [(forget(A), DONE), gc_of(1_200_000, 2, 0, 1), (LIST, rows((A_LATER, 2)))]
SWEPT_KINDS = [0, 3, 1, 1, 1, 1, 4, 0, 6]
# What opening calls there: sync, a list, two manifests with their sizes, the sizes of their archives, and the book, with its size and its
# head.
OPENING = 11
# How many calls fail one after another with one outcome: the command that is told the fault, the entry's number, and its kind; the save
# of the book has none.
FAULTS = [(3, 0, 0), (3, 1, 2), (1, 1, 3), (1, 1, 4), (3, 1, 6), (3, None, None)]


def failed(call, command, entry):
    turns, ended = SWEPT, SWEPT_KINDS[:-1]
    if command is not None:
        replies = [reply for _, reply in SWEPT[:command]] + [disk_fault()] + [halted(entry)] * (2 - command)
        turns = [(it, reply) for (it, _), reply in zip(SWEPT, replies)]
        ended = SWEPT_KINDS[:entry] + [5] * (3 - command)
    return scenario(
        f"call {call} of a collection fails",
        start_from(TWO_BACKUPS),
        clock(1_200_000, 0),
        fails(OPENING + call),
        talk(turns, "DiskFault"),
        kinds(*ended, 6),
        saved(command is not None),
    )


def failed_calls():
    calls = [(command, entry) for count, command, entry in FAULTS for _ in range(count)]
    return [failed(call, *row) for call, row in enumerate(calls)]


def later(snapshots, used, removed):
    """A later run lists, restores and collects."""
    first = [(open_reader(A), DONE), FROM_END, ALL_FIVE, (close_reader(), DONE)]
    if A not in snapshots:
        first = [(open_reader(A), no_snapshot())] + [(it, wrong_state(0)) for it, _ in first[1:]]
    return [(LIST, rows(*((it, 2) for it in snapshots))), *first, *SIX_RESTORED, gc_of(1_300_000, used, 0, removed)]


def found_by(since, until, turns, names):
    state = found(since, until, turns, names)
    return [state[0], *clock(1_300_000, 0), *state[1:]]


ROOTS = [PLAIN, f"{A}/root.didx"]
LATER_ROOTS = [f"{A_LATER}/{MANIFEST}", f"{A_LATER}/root.didx"]

SCENARIOS = [
    scenario(
        "unused chunks go",
        run(
            [1_000_000],
            BACKED_UP + [gc_of(1_000_000, 2, 0, 0)],
            ONES + [3, 1, 1, 1, 4, 6],
            book(1_000_000, (b"abc", 1_000_000), (b"de", 1_000_000)),
            [DE_LEFT, ABC_LEFT],
        ),
        # once it is forgotten, and a day has passed, both go
        run([1_100_000], [(forget(A), DONE), gc_of(1_100_000, 0, 0, 2), (LIST, rows())], [0, 3, 1, 1, 4, 0, 6], book(1_100_000), []),
        # where no chunk is there, the act that lists them visits none
        run([1_200_000], [gc_of(1_200_000, 0, 0, 0)] * 2, [3, 1, 4, 3, 1, 4, 6], book(1_200_000), []),
    ),
    scenario(
        "indexes of each kind are marked, and one without entries is passed over",
        clock(1_000_000),
        talk(SHARED + [gc_of(1_000_000, 3, 0, 0)]),
        kinds(*[0] * len(SHARED), 3, 1, 1, 1, 1, 1, 1, 4, 6),
    ),
    scenario(
        "the one goes that was touched before the cutoff, and the one stays that was touched at it",
        run(
            [913_298, 913_299, 913_300],
            [(open_writer(A), base()), (chunk(b"abc"), DONE), (chunk(b"de"), DONE), (abort(), DONE)],
            [0, 0, 0, 0, 6],
            book(913_300, (b"abc", 913_299), (b"de", 913_300)),
            [DE_LEFT, ABC_LEFT],
        ),
        run([1_000_000], [gc_of(1_000_000, 0, 1, 1)], [3, 1, 1, 4, 6], book(1_000_000, (b"de", 913_300)), [DE_LEFT]),
    ),
    scenario(
        "within the first day the cutoff is 0",
        run(
            [50, 60, 70, 100],
            [(open_writer(A), base()), (chunk(b"abc"), DONE), (abort(), DONE), gc_of(100, 0, 1, 0)],
            [0, 0, 0, 3, 1, 4, 6],
            book(100, (b"abc", 60)),
            [ABC_LEFT],
        ),
    ),
    scenario(TWO_BACKUPS, FIRST, SECOND, keep(TWO_BACKUPS)),
    scenario(
        "chunks of the second are used, `vw` is pending, `de` goes; the second restores whole",
        start_from(TWO_BACKUPS),
        # a third sends `vw` and is aborted, and the first is forgotten
        run(
            [1_200_000],
            [(open_writer(A_THIRD), base(A_LATER)), (chunk(b"vw"), DONE), (abort(), DONE), (forget(A), DONE)],
            [0, 0, 0, 0, 6],
            book(1_200_000, (b"abc", 1_100_000), (b"de", 1_000_000), (b"xyz", 1_100_000), (b"vw", 1_200_000)),
            [XYZ_LEFT, DE_LEFT, ABC_LEFT, VW_LEFT],
        ),
        run(
            [1_250_000],
            [gc_of(1_250_000, 2, 1, 1), *SIX_RESTORED],
            [3, 1, 1, 1, 1, 1, 4, 0, 0, 0, 0, 6],
            book(1_250_000, (b"abc", 1_250_000), (b"xyz", 1_250_000), (b"vw", 1_200_000)),
            [XYZ_LEFT, ABC_LEFT, VW_LEFT],
        ),
    ),
    scenario(
        "a lane with a session collects nothing",
        FIRST,
        run(
            [1_100_000],
            [
                (open_writer(A_LATER), base(A)),
                (gc(), IN_WRITER),
                (abort(), DONE),
                (open_reader(A), DONE),
                (gc(), IN_READER),
                (close_reader(), DONE),
            ],
            [0] * 6 + [6],
            book(1_100_000, (b"abc", 1_000_000), (b"de", 1_000_000)),
            [DE_LEFT, ABC_LEFT],
        ),
    ),
    *(
        scenario(
            f"no collection where a snapshot is damaged: {name}",
            flat(place(*it) for it in [*files, ABC_THERE, (BOOK, KEPT)]),
            run([1_000_000], turns, entry_kinds, UNTOUCHED, [ABC_LEFT]),
        )
        for name, files, turns, entry_kinds in DAMAGED
    ),
    scenario(
        "its writing calls",
        start_from(TWO_BACKUPS),
        clock(1_200_000, 0),
        talk(SWEPT),
        kinds(*SWEPT_KINDS),
        # FORGET removes a manifest and an index, and syncs between; the second chunk that is visited goes; the end saves the book
        writes("sdsd - - - d - psr - - psr"),
        made(OPENING + 14),
    ),
    *failed_calls(),
    scenario(
        "it is stopped",
        start_from(TWO_BACKUPS),
        clock(1_200_000, 0),
        sent(SWEPT),
        # both snapshots; the second, and `de` still, up to the collection's end; the second alone, from the second visit on
        found_by(0, 1, later([A, A_LATER], 3, 0), ROOTS + LATER_ROOTS),
        found_by(1, 7, later([A_LATER], 2, 1), LATER_ROOTS),
        found_by(5, 99, later([A_LATER], 2, 0), LATER_ROOTS),
        sweep(OPENING + 14),
    ),
    scenario(
        "moments never fall",
        clock(100, 90, 110, 0),
        talk([(LIST, rows()), (LIST, rows()), (bye(), DONE)]),
        kinds(0, 0, 6),
        ["moments 100 100 110"],
    ),
]

"""Sessions at once, whose commands come in the order of the lines: what each is told as others write, read, hold and end beside it."""
from scenarios.backups import *
from scenarios.prunes import A_THIRD, IN_WRITER, of_a

NO_SESSION = wrong_state(0)
CONF = (put("a.conf.blob", b"123456789"), DONE)
DE_XYZ = dynamic_csum([b"de", b"xyz"])
C, D = "host/c/2020-01-15T06:30:03Z", "host/d/2020-01-15T06:30:03Z"


def on(lane, *talk):
    """These commands and replies are of this lane."""
    return [(lane, *it) for it in talk]


def plain_on(lane, snapshot, over=""):
    """A backup of a manifest alone."""
    return on(lane, (open_writer(snapshot), base(over)), (put_manifest(snapshot), DONE), (finish(), DONE))


def zipped(*talks):
    """The first of each, then the second of each, and so on."""
    return [row for rows in zip(*talks) for row in rows]


def at_once(*parts, status="Ok"):
    """Sessions at once of these rows, which end so."""
    return turns(*(row for part in parts for row in part)) + [f"ends {status}"]


# Two archives of two groups: `abc` and `de`, `de` and `xyz`.
OF_A = [*ROOT_SENT, *ROOT_FINISHED]
OF_B = [
    (open_writer(B), base()),
    (new_dynamic("root.didx"), number(0)),
    (chunk(b"de"), DONE),
    (chunk(b"xyz"), DONE),
    (append(0, (b"de", 0), (b"xyz", 2)), DONE),
    (close_index(0, 2, 5, DE_XYZ), DONE),
    (put_manifest(B, listed("root.didx", 5, DE_XYZ)), DONE),
    (finish(), DONE),
]
CHUNKS = [(ABC, 15), (DE, 14), (XYZ, 15)]
RESTORED = [
    (LIST, rows((A, 2), (B, 2))),
    (open_reader(A), DONE),
    FROM_END,
    ALL_FIVE,
    (close_reader(), DONE),
    (open_reader(B), DONE),
    (download("root.didx", 4176), part(dynamic_index(B, "root.didx", NOW, [b"de", b"xyz"]), 4176)),
    (range_of("root.didx", 0, 5), rest(b"dexyz")),
]


def four(name, order):
    """Four backups, whose commands come by this order of the lanes: all the first ones, then all the second, and the third."""
    talks = [plain_on(lane, (A, B, C, D)[lane]) for lane in order]
    return scenario(
        name,
        at_once(zipped(*talks)),
        lanes(*order * 3),
        kinds(*[0] * 12, *[6] * 4),
        talk([(LIST, rows((A, 1), (B, 1), (C, 1), (D, 1)))]),
    )


# A snapshot of `abc` and `de`.
BACKED_UP = "a backup of an archive"
# A writer that has sent a blob, of which nothing is left as it ends; LIST then shows nothing of it, and its group is free.
BLOB_SENT = on(0, (open_writer(A), base()), CONF)
BUSY_THEN = on(1, (LIST, rows()), (open_writer(A), group_busy(0)))
FREE_THEN = on(1, (open_writer(A), base()), CONF, (put_manifest(A, listed_blob("a.conf.blob", blob(b"123456789"))), DONE), (finish(), DONE))
ONE_LEFT = files_left([(f"{A}/a.conf.blob", 21), (PLAIN, 216)])


def ended(name, ending, status="Ok"):
    """A writer's session ends so, and another lane then takes the group."""
    return scenario(
        name,
        turns(*BLOB_SENT, *BUSY_THEN),
        of_lane(0, ending),
        at_once(FREE_THEN, on(1, (LIST, rows((A, 2)))), status=status),
        lanes(0, 0, 1, 1, 0, 1, 1, 1, 1, 1, 1),
        kinds(0, 0, 0, 0, 6, 0, 0, 0, 0, 0, 6),
        ONE_LEFT,
    )


SCENARIOS = [
    scenario(
        "two groups that share a chunk, command by command",
        at_once(zipped(on(0, *OF_A), on(1, *OF_B))),
        lanes(*[0, 1] * 8),
        kinds(*[0] * 16, 6, 6),
        files_left([*CHUNKS, *(f for it in (A, B) for f in ((f"{it}/{MANIFEST}", 213), (f"{it}/root.didx", 4176)))]),
        talk(RESTORED),
    ),
    four("four lanes, the last one first", [3, 2, 1, 0]),
    four("four lanes, the first one first", [0, 1, 2, 3]),
    scenario(
        "a group has one writer, whose lane the others are told; behind its FINISH or ABORT the next may be",
        at_once(
            on(0, (open_writer(A), base())),
            on(1, (open_writer(A), group_busy(0)), (open_writer(A_LATER), group_busy(0)), (open_writer(B), base())),
            on(2, (open_writer(B), group_busy(1)), (abort(), NO_SESSION)),
            on(0, (put_manifest(A), DONE), (finish(), DONE)),
            on(2, (open_writer(A), not_newer(A)), (open_writer(A_LATER), base(A))),
            on(0, (open_writer(A_THIRD), group_busy(2))),
            on(2, (abort(), DONE)),
            on(0, (open_writer(A_THIRD), base(A)), (put_manifest(A_THIRD), DONE), (finish(), DONE)),
            on(1, (abort(), DONE), (open_writer(A_LATER), not_newer(A_THIRD)), (LIST, rows((A, 1), (A_THIRD, 1)))),
        ),
    ),
    kept_backup(BACKED_UP, OF_A),
    scenario(
        "a base stays while its writer runs on another lane",
        start_from(BACKED_UP),
        at_once(
            on(1, (open_writer(A_LATER), base(A)), (previous("root.didx", 4176), part(ROOT, 4176))),
            on(0, (forget(A), snapshot_busy(1)), (LIST, rows((A, 2)))),
            on(1, (abort(), DONE)),
            on(0, (forget(A), DONE), (forget(A), no_snapshot())),
            on(1, (open_writer(A_LATER), base())),
        ),
    ),
    scenario(
        "a snapshot stays while it is read on other lanes; the least that holds it is told",
        start_from(BACKED_UP),
        at_once(
            on(3, (open_reader(A), DONE), FROM_END),
            on(1, (open_reader(A), DONE)),
            on(0, (forget(A), snapshot_busy(1))),
            on(1, (close_reader(), DONE)),
            on(2, (forget(A), snapshot_busy(3))),
            on(3, ALL_FIVE, (close_reader(), DONE)),
            on(0, (forget(A), DONE)),
            on(3, (open_reader(A), no_snapshot())),
        ),
        files_left([(ABC, 15), (DE, 14)]),
    ),
    scenario(
        "PRUNE tells of a snapshot that another lane reads that it is held; it goes once it is closed",
        at_once(
            plain_on(0, A),
            plain_on(0, A_LATER, A),
            on(1, (open_reader(A), DONE)),
            on(0, (of_a(last=1), marks((A_LATER, 1), (A, 2))), (GROUP, keys(A, A_LATER))),
            on(1, (download(MANIFEST), part(blob(manifest(A)))), (close_reader(), DONE)),
            on(0, (of_a(last=1), marks((A_LATER, 1), (A, 0)))),
            on(1, (GROUP, keys(A_LATER)), (open_reader(A), no_snapshot())),
        ),
    ),
    scenario(
        "PRUNE neither removes nor tells of a snapshot that is being written",
        at_once(
            plain_on(0, A),
            on(1, (open_writer(A_LATER), base(A))),
            on(0, (of_a(last=1), marks((A, 1)))),
            on(1, (put_manifest(A_LATER), DONE), (finish(), DONE)),
            on(0, (of_a(last=1), marks((A_LATER, 1), (A, 0)))),
        ),
    ),
    scenario(
        "a LIST tells of a snapshot from its FINISH on, and of none from its FORGET on",
        at_once(
            on(0, (open_writer(A), base()), (put_manifest(A), DONE)),
            on(1, (LIST, rows()), (GROUP, NONE_THERE), (files(A), no_snapshot()), (open_reader(A), no_snapshot())),
            on(0, (finish(), DONE)),
            on(1, (LIST, rows((A, 1))), (GROUP, keys(A)), (open_reader(A), DONE)),
            on(2, (verify(A), verified(1, 0, 0))),
            on(1, (close_reader(), DONE)),
            on(2, (forget(A), DONE)),
            on(1, (LIST, rows()), (verify(A), no_snapshot())),
        ),
    ),
    scenario(
        "what a session has sent or read is its own",
        start_from(BACKED_UP),
        at_once(
            on(0, (open_writer(A_LATER), base(A)), (new_dynamic("root.didx"), number(0)), (chunk(b"xyz"), DONE)),
            # another lane's writer knows none of it, nor the base, and numbers its own archives
            on(1, (open_writer(B), base()), (new_dynamic("root.didx"), number(0)), (append(0, (b"xyz", 0)), unknown_chunk(0))),
            on(1, (append(0, (b"abc", 0)), unknown_chunk(0)), (previous("root.didx"), no_snapshot())),
            on(0, (append(0, (b"xyz", 0)), DONE)),
            on(1, (close_index(0, 1, 3, dynamic_csum([b"xyz"])), bad_close(1, 0)), (finish(), open_indexes(1))),
            # and another reader may have what it has downloaded alone
            on(2, (open_reader(A), DONE), FROM_END, (get_chunk(sha256(b"abc")), rest(blob(b"abc")))),
            on(3, (open_reader(A), DONE), (get_chunk(sha256(b"abc")), not_allowed()), (close_reader(), DONE)),
            on(2, ALL_FIVE, (open_writer(B), wrong_state(2))),
            on(3, (open_reader(B), no_snapshot()), (close_reader(), NO_SESSION)),
            on(0, (gc(), IN_WRITER), (abort(), DONE)),
        ),
    ),
    ended("a writer's input ends: nothing is left of it, and its group is free", closes()),
    ended("BYE of a writer: nothing is left of it, and its group is free", turn(bye(), DONE)),
    ended("no command stands there: nothing is left of a writer, and its group is free", [">> \\01\\00\\00\\00c", *closes(), *told(bad_frame(71))], "BadFrame"),
    scenario(
        "a reader's input ends: its snapshot may go",
        start_from(BACKED_UP),
        turns(*on(0, (open_reader(A), DONE)), *on(1, (forget(A), snapshot_busy(0)))),
        of_lane(0, closes()),
        at_once(on(1, (forget(A), DONE), (LIST, rows()))),
        lanes(0, 1, 0, 1, 1, 1),
        kinds(0, 0, 6, 0, 0, 6),
    ),
    scenario(
        "a SYNC beside a writer of its group, and behind it",
        there(talk(OF_A)),
        at_once(
            on(0, (open_writer(A), base())),
            on(1, (sync("host/a"), group_busy(0)), (sync("host/b"), keys())),
            on(0, (abort(), DONE)),
            on(1, (sync("host/a"), keys(A)), (sync("host/a"), keys())),
            on(0, (LIST, rows((A, 2))), (open_writer(A), not_newer(A))),
        ),
        same(),
    ),
]

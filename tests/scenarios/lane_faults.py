"""Sessions at once, one of which meets a fault of the disk, the remote or its sink: what the others are told, and what a later session finds."""
from scenarios.backups import *
from scenarios.lanes import at_once, on, plain_on

C = "host/c/2020-01-15T06:30:03Z"
# What opening calls on an empty folder: sync, a list of all names, and the size of the book.
OPENING = 3
FAULT = disk_fault()
NAMES = ["puts", "syncs", "renames", "syncs again"]


def halted_at(entry, *commands):
    """Each of these lanes is told which entry was the first to fail."""
    return [(lane, command, halted(entry)) for lane, command in commands]


def later(*turns):
    """A later session."""
    return talk(turns)


# Lane 0 finishes a snapshot by four calls. Then lane 1's FINISH fails, and all are told so.
BEGUN = [row for parts in zip(plain_on(0, A)[:2], plain_on(1, B)[:2]) for row in parts]
FINISHED = [(0, finish(), DONE)]


def failed_finish(call):
    """The snapshot is there once its manifest is renamed."""
    left = [A] if call < 3 else [A, B]
    return scenario(
        f"FINISH {NAMES[call]}, which fails: the other lanes are halted, and what was finished before is there",
        fails(OPENING + 4 + call),
        at_once(
            BEGUN,
            FINISHED,
            [(1, finish(), FAULT)],
            halted_at(5, (0, LIST), (2, open_writer(C)), (1, finish()), (1, abort()), (0, gc()), (2, verify(A))),
            status="DiskFault",
        ),
        lanes(0, 1, 0, 1, 0, 1, 0, 2, 1, 1, 0, 2),
        kinds(*[0] * 5, *[5] * 7, *[6] * 3),
        faults(1),
        later((LIST, rows(*((it, 1) for it in left))), (open_writer(C), base()), (abort(), DONE), (verify(A), verified(1, 0, 0))),
    )


UPLOAD = (put("a.conf.blob", b"123456789"), DONE)


def failed_upload(call):
    """The other lane's writer, whose end makes no call, leaves nothing to a later session either."""
    return scenario(
        f"BLOB {NAMES[call]}, which fails: both writers leave nothing",
        fails(OPENING + 3 + call),
        at_once(
            on(0, (open_writer(A), base()), UPLOAD),
            on(1, (open_writer(B), base()), (UPLOAD[0], FAULT)),
            halted_at(3, (0, put_manifest(A)), (0, finish()), (1, abort())),
            status="DiskFault",
        ),
        kinds(0, 0, 0, 5, 5, 5, 5, 6, 6),
        later((LIST, rows()), (open_writer(A), base()), (abort(), DONE), (open_writer(B), base())),
        files_left([]),
    )


BOTH = "two backups of two groups"
# What opening calls there: sync, a list, two manifests with their sizes, and the book, with its size and its head.
OPENED = 9


def removed(call, name, left):
    return scenario(
        f"FORGET {name}, which fails: the other lanes are halted",
        start_from(BOTH),
        fails(OPENED + call),
        at_once(
            on(1, (open_reader(B), DONE)),
            on(0, (forget(A), FAULT)),
            halted_at(1, (1, download(MANIFEST)), (1, close_reader()), (2, LIST), (0, forget(A))),
            status="DiskFault",
        ),
        kinds(0, 5, 5, 5, 5, 5, 6, 6, 6),
        later((LIST, rows(*((it, 1) for it in left)))),
    )


SCENARIOS = [
    *map(failed_finish, range(4)),
    *map(failed_upload, range(3)),
    scenario(BOTH, at_once(plain_on(0, A), plain_on(1, B)), keep(BOTH)),
    removed(0, "removes", [A, B]),
    removed(1, "syncs", [B]),
    scenario(
        "DOWNLOAD reads, which fails: the other lanes are halted",
        start_from(BOTH),
        # it asks for the size, and reads
        fails(OPENED + 1),
        at_once(
            on(0, (open_reader(A), DONE)),
            on(1, (open_reader(B), DONE)),
            on(0, (download(MANIFEST), FAULT)),
            halted_at(2, (1, download(MANIFEST)), (0, download(MANIFEST)), (0, close_reader()), (2, LIST)),
            status="DiskFault",
        ),
        kinds(0, 0, 5, 5, 5, 5, 5, 6, 6, 6),
        later((LIST, rows((A, 1), (B, 1))), (open_reader(A), DONE), (download(MANIFEST), part(blob(manifest(A))))),
    ),
    scenario(
        "a lane's sink fails within its first reply: its group is free, and the other lane goes on",
        of_lane(0, takes(3)),
        turns(*on(0, (open_writer(A), base()))),
        of_lane(0, closes()),
        at_once(plain_on(1, A), status="SinkFault"),
        lanes(0, 0, 1, 1, 1),
        kinds(0, 6, 0, 0, 0, 6),
        later((LIST, rows((A, 1)))),
    ),
    scenario(
        "a lane's sink fails behind a reply: its reader holds nothing, and the other lane goes on",
        start_from(BOTH),
        of_lane(0, takes(6)),
        turns(*on(0, (open_reader(A), DONE)), *on(1, (forget(A), snapshot_busy(0))), *on(0, (download(MANIFEST), part(blob(manifest(A)))))),
        of_lane(0, closes()),
        at_once(on(1, (forget(A), DONE), (LIST, rows((B, 1)))), status="SinkFault"),
        lanes(0, 1, 0, 0, 1, 1),
        kinds(0, 0, 0, 6, 0, 0, 6),
    ),
    scenario(
        "the remote fails: the SYNC is told, and the other lanes go on",
        there(talk([(open_writer(A), base()), (put_manifest(A), DONE), (finish(), DONE)])),
        remote_fails(0),
        at_once(
            on(0, (open_writer(B), base())),
            on(1, (sync("host/a"), refused(30)), (LIST, rows())),
            on(0, (put_manifest(B), DONE), (finish(), DONE), (LIST, rows((B, 1)))),
            status="RemoteFault",
        ),
        remote_faults(1),
        later((LIST, rows((B, 1)))),
    ),
]

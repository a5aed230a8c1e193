"""Sessions at once, whose commands come in any order: each is told what the plain copy of the store tells it in the order that the run returned."""
from scenarios.backups import *
from scenarios.collections import chunks_left
from scenarios.lanes import C, D, OF_A, OF_B
from scenarios.prunes import of_a, plain_backup

GROUPS = [A, B, C, D]


def unordered(*sessions, status="Ok"):
    """Sessions at once, each of these commands, in any order. Where a session is of commands with their replies, each is told these."""
    lines = free()
    for lane, session in enumerate(sessions):
        lines += of_lane(lane, *(turn(*it) if isinstance(it, tuple) else asked(it) for it in session))
    return lines + [f"ends {status}"]


def only_sent(turns):
    return [command for command, _ in turns]


def archive_of(snapshot, first, second):
    """A backup of two pieces of two or three bytes in one archive."""
    csum = dynamic_csum([first, second])
    size = len(first) + len(second)
    return [
        (open_writer(snapshot), base()),
        (new_dynamic("root.didx"), number(0)),
        (chunk(first), DONE),
        (chunk(second), DONE),
        (append(0, (first, 0), (second, len(first))), DONE),
        (close_index(0, 2, size, csum), DONE),
        (put_manifest(snapshot, listed("root.didx", size, csum)), DONE),
        (finish(), DONE),
    ]


def read_back(snapshot, pieces):
    """Its restore, whole."""
    size = len(pieces)
    return [
        (open_reader(snapshot), DONE),
        (download("root.didx", 4176), part(b"\0" * 4176, 4176)),
        (range_of("root.didx", 0, size), rest(pieces)),
        (close_reader(), DONE),
        (verify(snapshot), verified(2, 2, size)),
    ]


# Four groups of pieces that they share.
FOUR = [archive_of(A, b"abc", b"de"), archive_of(B, b"de", b"xyz"), archive_of(C, b"xyz", b"abc"), archive_of(D, b"abc", b"xyz")]
CONTENTS = [b"abcde", b"dexyz", b"xyzabc", b"abcxyz"]
ALL_FOUR = rows(*((it, 2) for it in GROUPS))
FOUR_LEFT = [(path, size) for path, size in ((ABC, 15), (DE, 14), (XYZ, 15))]
BUSY = [open_writer(A), put_manifest(A), finish(), LIST]
TWO = "two snapshots of two groups"
LATER = "host/a/2020-01-16T06:30:03Z"

SCENARIOS = [
    scenario(TWO, talk([*OF_A, *OF_B]), keep(TWO)),
    scenario(
        "backups over one base, PRUNE and FORGET of it, and readers",
        start_from(TWO),
        unordered(
            [open_writer(LATER), previous("root.didx", 4176), put_manifest(LATER), finish(), of_a(last=1)],
            [open_reader(A), download("root.didx"), range_of("root.didx", 0, 5), close_reader(), forget(A)],
            [forget(A), LIST, verify(A), of_a(last=1)],
            [open_reader(B), download("root.didx"), get_chunk(sha256(b"de")), LIST],
        ),
        talk([(open_reader(B), DONE), (download("root.didx", 4176), part(ROOT, 4176)), (range_of("root.didx", 0, 5), rest(b"dexyz"))]),
    ),
    scenario(
        "four lanes, each backs up and verifies a group of its own; a later session restores all",
        unordered(*([*turns, (verify(snapshot), verified(2, 2, len(content)))] for turns, snapshot, content in zip(FOUR, GROUPS, CONTENTS))),
        entries(4 * (8 + 7 + 1)),
        chunks_left(FOUR_LEFT),
        talk([(LIST, ALL_FOUR), *(it for row in zip(GROUPS, CONTENTS) for it in read_back(*row))]),
    ),
    scenario(
        "the same beside lanes that list and read",
        unordered(*FOUR, *[[LIST, group("host/a"), files(A), open_reader(A), download("root.didx"), range_of("root.didx", 1, 3), LIST]] * 4),
        chunks_left(FOUR_LEFT),
        talk([(LIST, ALL_FOUR), *(it for row in zip(GROUPS, CONTENTS) for it in read_back(*row))]),
    ),
    scenario(
        "64 lanes LIST",
        start_from(TWO),
        unordered(*[[(LIST, rows((A, 2), (B, 2))), (bye(), DONE)]] * 64),
        entries(128),
    ),
    scenario(
        "eight lanes want one group: one of them has it at a time",
        unordered(*[BUSY] * 8),
        talk([(LIST, rows((A, 1)))]),
    ),
    scenario(
        "collections on two lanes beside backups and a FORGET",
        start_from(TWO),
        clock(*range(1_600_000_000, 1_600_000_000 + 200_000 * 60, 200_000)),
        unordered([gc(), gc()], [gc(), LIST, gc()], only_sent(archive_of(C, b"xyz", b"abc")), only_sent(archive_of(D, b"abc", b"xyz")), [forget(A)]),
        clock(2_000_000_000),
        talk([(LIST, rows((B, 2), (C, 2), (D, 2))), *read_back(B, b"dexyz"), *read_back(C, b"xyzabc"), *read_back(D, b"abcxyz")]),
    ),
    scenario(
        "SYNCs of one group on two lanes, beside one who lists",
        there(talk(plain_backup(A) + plain_backup(LATER, A))),
        unordered([sync("host/a")], [sync("host/a"), LIST], [LIST, group("host/a"), LIST]),
        talk([(LIST, rows((A, 1), (LATER, 1)))]),
        same(),
    ),
    *(
        scenario(
            f"sessions that end without a FINISH, and one {name}, beside a backup",
            free(),
            of_lane(0, *(turn(*it) for it in plain_backup(A))),
            of_lane(1, asked(open_writer(B)), asked(put_manifest(B))),
            of_lane(2, *lines),
            of_lane(3, asked(LIST), asked(open_writer(D)), asked(LIST)),
            [f"ends {status}"],
            talk([(LIST, rows((A, 1)))]),
        )
        for name, status, lines in (
            ("at no command", "BadFrame", [asked(open_writer(C)), raw(frames(b"c"))]),
            ("whose sink fails", "SinkFault", [takes(3), asked(open_writer(C)), asked(put_manifest(C)), asked(finish())]),
        )
    ),
    *(
        scenario(
            f"call {call} of the disk fails: the lane whose act made it is told, and all others behind it",
            start_from(TWO),
            fails(call),
            unordered(*map(only_sent, (archive_of(C, b"xyz", b"abc"), archive_of(D, b"abc", b"xyz"))), [LIST, LIST, forget(A)], status="DiskFault"),
            faults(1),
        )
        for call in (13, 16, 20)
    ),
]

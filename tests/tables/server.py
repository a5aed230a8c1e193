"""Sessions that want memory or whose ports fail, and long and large ones, by `serve`, and sessions on lanes, alone and at once: commands, and
the replies that each must get."""
from pbclient.session import *
from tables import generated
from tables.common import *

# The blob of 4 MiB, and one of a byte more.
LARGE_BLOBS = [blob(bytes((4 << 20) - 12)), blob(bytes((4 << 20) - 11))]
# Long archives.
LONG = [[b"x"] * count for count in (4096, 4097, 8193)]

# The archive of two pieces that is sent, listed, and finished; and behind it a VERIFY.
BOTH_CSUM = dynamic_csum([b"abc", b"de"])
BACKUP = [
    (open_writer(A), base()),
    (new_dynamic("root.didx"), number(0)),
    (chunk(b"abc"), done()),
    (chunk(b"de"), done()),
    (append(0, (b"abc", 0), (b"de", 3)), done()),
    (close_index(0, 2, 5, BOTH_CSUM), done()),
    (put_manifest(A, listed("root.didx", 5, BOTH_CSUM)), done()),
    (finish(), done()),
]
# Two snapshots, the second over the first.
TWO = [
    (open_writer(A), base()),
    (put_manifest(A), done()),
    (finish(), done()),
    (open_writer(A_LATER), base(A)),
    (put_manifest(A_LATER), done()),
    (finish(), done()),
]


# Snapshots of four groups.
FOUR = [A, B, "host/c/2020-01-15T06:30:03Z", "host/d/2020-01-15T06:30:03Z"]
# A backup without its FINISH.
UPLOAD = [(open_writer(A), base()), (put_manifest(A), done())]


def talk(*turns):
    """What is sent, and what is told."""
    return [frames(*(command for command, _ in turns)), frames(*(reply for _, reply in turns))]


SENT, TOLD = talk(*UPLOAD)
# No command behind it, a frame that the input's end cuts, and BYE.
BEHIND = [(frame(b"c"), frame(bad_frame(len(SENT)))), (frame(finish())[:3], frame(bad_frame(len(SENT)))), (frame(bye()), frame(done()))]


# The replies to a backup of three commands, of which none, the first, the second or the third lacked memory.
LACKING = [
    frame(it)
    for replies in (
        (base(), done(), done()),
        (no_memory(), wrong_state(0), wrong_state(0)),
        (base(), no_memory(), no_file()),
        (base(), done(), no_memory()),
    )
    for it in replies
]
# Two groups' snapshots, and a later one of each.
NEXT = [(A, A_LATER), (B, "host/b/2020-01-15T06:30:04Z")]


def conf_backed_up(snapshot):
    """A snapshot of one blob is backed up, its files are told, its manifest is read, and it is forgotten: what is sent, and the replies."""
    conf = blob(b"123456789")
    file = blob(manifest(snapshot, listed_blob("a.conf.blob", conf)))
    turns = [
        (open_writer(snapshot), base()),
        (put("a.conf.blob", b"123456789"), done()),
        (put_manifest(snapshot, listed_blob("a.conf.blob", conf)), done()),
        (finish(), done()),
        (files(snapshot), file_rows(*((name, len(it), sha256(it)) for name, it in (("a.conf.blob", conf), (MANIFEST, file))))),
        (open_reader(snapshot), done()),
        (download(MANIFEST), part(file)),
        (close_reader(), done()),
        (forget(snapshot), done()),
    ]
    return frames(*(command for command, _ in turns)), [frame(reply) for _, reply in turns]


# The same of another group, with a blob in place of the manifest.
B_SENT, B_TOLD = talk((open_writer(B), base()), (put("a.conf.blob", b"123456789"), done()))

TABLES = {
    "server_tests/src/serving/generated.rt": {
        "SUMMARY": [generated.summary([b"", *map(generated.replies_to, range(1, 5))], generated.kept(4))],
        "SUMMARIES": [generated.summary([b"", told(1)], generated.kept(1)) for told in (generated.replies_to, generated.later_replies_to)],
    },
    "server_tests/src/at_once.rt": {
        "UPLOAD": [SENT],
        "UPLOADED": [TOLD],
        "ENDINGS": [TOLD[:1], TOLD[:8], *(it for sent, told in BEHIND for it in (SENT + sent, TOLD + told))],
        "AGAIN": talk((open_writer(A), base()), (list_after(), rows((B, 1)))),
    },
    "server_tests/src/judged.rt": {
        "NO_MEMORY": [frame(no_memory())],
        "DISK_FAULT": [frame(disk_fault())],
        "NEXT": [it for one, later in NEXT for it in (frame(open_writer(later)), frame(base()), frame(base(one)))],
    },
    "server_tests/src/lacking.rt": {
        "REPLIES": LACKING,
    },
    "server_tests/src/lanes.rt": {
        "TWO_SENT": talk(*TWO)[:1],
        "TWO_TOLD": talk(*TWO)[1:],
        "PRUNED": [frames(prune("host/a", last=1), group("host/a"))],
        "HELD": [frames(marks((A_LATER, 1), (A, 2)), keys(A, A_LATER))],
        "REMOVED": [frames(marks((A_LATER, 1), (A, 0)), keys(A_LATER))],
    },
    "server_tests/src/serving.rt": {
        "READ_BACK": [frames(open_writer(A), put_manifest(A), finish(), open_reader(A), download(MANIFEST))],
        "READ_BACK_REPLIES": [frames(base(), done(), done(), done(), part(blob(manifest(A))))],
        "UNFINISHED": [
            frames(
                open_writer(A),
                put_manifest(A),
                finish(),
                open_writer(A_LATER),
                put("a.conf.blob", b"123456789"),
                put("b.blob", b""),
                bye(),
            ),
        ],
        "UNFINISHED_REPLIES": [frames(base(), done(), done(), base(A), done(), done(), done())],
    },
    "server_tests/src/rounds.rt": {
        "FRAMES": [frames(open_writer(A))[: -len(A)], frames(put_manifest(A))[: -len(manifest(A)) - 4], frames(finish())],
    },
    "server_tests/src/unlisted.rt": {"MANIFEST": [blob(manifest("host/a/2020-01-15T06:00:01Z"))]},
    "server_tests/src/serving/checks.rt": {"EQUAL": [b"equal\n"], "FIRST_BYTE": [b"lane 0 byte 0: 02 03\n"]},
    "server_tests/src/serving/disk_faults.rt": {
        "SENT": [conf_backed_up(it)[0] for it in (A, B)],
        "REPLIES": [reply for it in (A, B) for reply in conf_backed_up(it)[1]],
    },
    "server_tests/src/serving/gated.rt": {
        "BACKUP_A": [frames(open_writer(A), put_manifest(A), finish())],
        "BACKUPS": [frames(open_writer(it), put_manifest(it), finish()) for it in FOUR[1:]],
        "BACKED_UP": [frames(base(), done(), done())],
        "LIST": [frames(list_after())],
        "FOUR_LISTED": [frames(rows(*((it, 1) for it in FOUR)))],
        "LIST_AND_BYE": [frames(list_after(), bye())],
        "NONE_LISTED": [frames(rows(), done())],
        "GATED": [
            frame(bye()),
            frames(gc(), finish()),
            frames(finish(), b"c"),
            frames(*(command for command, _ in TWO), prune("host/a", last=1, dry=1), prune("host/a", last=1), group("host/a"), bye()),
        ],
    },
    "server_tests/src/serving/journal.rt": {
        "TAKEN": [order((0, NOW, 6))],
        "ORDER": [order(*[(0, NOW, 0)] * 5, (0, NOW, 6))],
    },
    "server_tests/src/serving/long.rt": {
        "LARGE": [
            frame(open_writer(A)) + u32(len(put_file("a.blob", blob(b""))) + (16 << 20) + 1) + put_file("a.blob", blob(b"")),
            frames(base(), bad_blob(6)),
            (frame(open_writer(A)) + frame(chunk(bytes(16 << 20))))[:82],
            frames(base(), done()),
        ],
        "VERIFY": [frame(verify(A))],
        "TWO_FILES": [frame(verified(2, 0, 0))],
        "SYNC": [frame(sync("host/a"))],
        "ONE_KEY": [frame(keys(A))],
        "LARGE_BLOBS": [
            it
            for file in LARGE_BLOBS
            for it in (file[:12], blob(manifest(A, listed_blob("a.blob", file))))
        ],
        "LONG_ARCHIVES": [
            it
            for pieces in LONG
            for it in (
                dynamic_header(uuid_of(A, "root.didx"), NOW, dynamic_csum(pieces)),
                blob(manifest(A, listed("root.didx", len(pieces), dynamic_csum(pieces)))),
            )
        ],
        "long_index": [sha256(b"x")],
        "long_remote": [blob(b"x")],
    },
    "server_tests/src/serving/memory.rt": {
        "OVER_BASE": [
            frames(
                open_writer(A),
                put_manifest(A),
                finish(),
                open_writer(A_LATER),
                previous(MANIFEST, 86),
                new_fixed("root.fidx", 3, 4096),
                chunk(b"abc"),
                append(0, (b"abc", 0)),
                close_index(0, 1, 3, fixed_csum([b"abc"])),
                put_manifest(A_LATER, listed("root.fidx", 3, fixed_csum([b"abc"]))),
                finish(),
                open_writer("host/a/2020-01-15T06:30:05Z"),
                previous("root.fidx", 4128),
                new_dynamic("root.didx"),
                append(0, (b"abc", 0)),
                abort(),
                open_reader(A_LATER),
                download("root.fidx", 4128),
                get_chunk(sha256(b"abc")),
                range_of("root.fidx", 1, 2),
            ),
            frames(
                base(),
                done(),
                done(),
                base(A),
                part(blob(manifest(A_LATER)), 86),
                base(),
                done(),
                done(),
                done(),
                done(),
                done(),
                base(A_LATER),
                part(fixed_index(A, "root.fidx", NOW, [b"abc"]), 4128),
                base(),
                done(),
                done(),
                done(),
                part(fixed_index(A, "root.fidx", NOW, [b"abc"]), 4128),
                rest(blob(b"abc")),
                rest(b"bc"),
            ),
        ],
        "ALL_BUT_ONE": [
            frames(
                open_writer(A),
                put_manifest(A),
                finish(),
                open_writer(B),
                put_manifest(B),
                finish(),
                open_writer("host/b/2020-01-15T06:30:04Z"),
                put_manifest("host/b/2020-01-15T06:30:04Z"),
                finish(),
                list_after(),
                files(A),
                group("host/b"),
                prune("host/b", last=1),
                forget("host/b/2020-01-15T06:30:04Z"),
                list_after(),
            ),
            frames(
                base(),
                done(),
                done(),
                base(),
                done(),
                done(),
                base(B),
                done(),
                done(),
                rows((A, 1), (B, 1), ("host/b/2020-01-15T06:30:04Z", 1)),
                file_rows((MANIFEST, 86, sha256(blob(manifest(A))))),
                keys(B, "host/b/2020-01-15T06:30:04Z"),
                marks(("host/b/2020-01-15T06:30:04Z", 1), (B, 0)),
                done(),
                rows((A, 1)),
            ),
        ],
        "SHORT": [frame(no_memory())],
        "SHORT_AND_DONE": [frames(no_memory(), done())],
        "VERIFIED": talk(*BACKUP, (verify(A), verified(2, 2, 5)), (forget(A), done())),
        "PULLED": talk((sync("host/a"), keys(A)), (open_writer(A_LATER), base(A))),
        "NO_BASE": [frame(base())],
        "COLLECTED": talk(*BACKUP, (forget(A), done()), (gc(), collected(1_100_000, 1_013_300, 0, 0, 2))),
        "OPENED": [blob(b"123456789")],
        "ROOT_LISTED": [blob(manifest(A, listed("root.didx", 5, BOTH_CSUM)))],
        "LISTED": talk((list_after(), rows((A, 2)))),
    },
    "server_tests/src/serving/statuses.rt": {"NO_COMMAND": [frame(b"c")]},
    "server_tests/src/serving/together.rt": {
        "OPENED": [frame(open_writer(B))],
        "STARTED": [B_SENT],
        "BROKEN": [B_SENT + frame(b"")],
        "CUT": [B_SENT + frame(finish())[:3]],
        "BROKEN_REPLIES": [B_TOLD + frame(bad_frame(len(B_SENT)))],
        "NO_BASE": [frame(base())],
    },
}

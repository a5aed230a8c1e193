"""LIST, FILES, GROUP and FORGET: in a datastore where nothing else is, and beside a snapshot of another group."""
from scenarios.backups import *

IN_WRITER, IN_READER = wrong_state(1), wrong_state(2)
ROOT_LISTED = (MANIFEST, 213, sha256(blob(manifest(A, listed("root.didx", 5, BOTH_CSUM)))))


def one_snapshot(*others):
    """One snapshot, from before its backup until it is forgotten."""
    none, one = rows(*others), rows((A, 1), *others)
    its_files = file_rows((MANIFEST, 86, sha256(blob(manifest(A)))))
    return [
        (LIST, none),
        (GROUP, NONE_THERE),
        (files(A), no_snapshot()),
        (forget(A), no_snapshot()),
        (open_writer(A), base()),
        # a running backup is not told, and its lane forgets nothing, whatever the name
        (LIST, none),
        (GROUP, NONE_THERE),
        (files(A), no_snapshot()),
        (forget(A), IN_WRITER),
        (forget("host/a"), IN_WRITER),
        (put_manifest(A), DONE),
        (finish(), DONE),
        (LIST, one),
        (GROUP, keys(A)),
        (files(A), its_files),
        # LIST behind a snapshot, which need not be there
        (list_after(A), none),
        (list_after("host/a/2020-01-15T06:30:02Z"), one),
        (list_after("ct/z/1970-01-01T00:00:00Z"), one),
        (list_after("host/Z/9999-12-31T23:59:59Z"), one),
        (list_after(A_LATER), none),
        (list_after("vm/a/1970-01-01T00:00:00Z"), none),
        (list_after("host/a"), bad_name()),
        (list_after("host/a/2020-02-30T00:00:00Z"), bad_name()),
        (list_after("host/-/2020-01-15T06:30:03Z"), bad_name()),
        # FILES, GROUP and FORGET of other names
        (files(""), bad_name()),
        (files("host/a"), bad_name()),
        (files(A_LATER), no_snapshot()),
        (files(B), no_snapshot()),
        (group(""), bad_name()),
        (group(A), bad_name()),
        (group("hosts/a"), bad_name()),
        (group("host/b"), NONE_THERE),
        (group("vm/a"), NONE_THERE),
        (forget(""), bad_name()),
        (forget("host/a"), bad_name()),
        (forget(A_LATER), no_snapshot()),
        (forget("ct/a/2020-01-15T06:30:03Z"), no_snapshot()),
        # it is told with a reader, and with a writer that has it as base
        (open_reader(A), DONE),
        (LIST, one),
        (GROUP, keys(A)),
        (files(A), its_files),
        (forget(A), IN_READER),
        (forget("host/a"), IN_READER),
        (close_reader(), DONE),
        (open_writer(A_LATER), base(A)),
        (LIST, one),
        (GROUP, keys(A)),
        (files(A), its_files),
        (forget(A), IN_WRITER),
        (abort(), DONE),
        # what is aborted is not told
        (LIST, one),
        (GROUP, keys(A)),
        # it is forgotten, and the group may begin with the same time again
        (forget(A), DONE),
        (forget(A), no_snapshot()),
        (LIST, none),
        (GROUP, NONE_THERE),
        (files(A), no_snapshot()),
        (open_reader(A), no_snapshot()),
        (open_writer(A), base()),
        (abort(), DONE),
    ]


def two_snapshots(*others):
    """Files stand in byte order of their names, with what the manifest says of them."""
    z, conf = blob(b""), blob(b"123456789")
    later = manifest(A_LATER, listed_blob("z.blob", z), listed_blob("a.conf.blob", conf))
    first_files = file_rows(ROOT_LISTED, ("root.didx", 5, BOTH_CSUM))
    later_files = file_rows(("a.conf.blob", 21, sha256(conf)), (MANIFEST, 342, sha256(blob(later))), ("z.blob", 12, sha256(z)))
    return [
        *ROOT_SENT,
        *ROOT_FINISHED,
        (LIST, rows((A, 2), *others)),
        (files(A), first_files),
        (open_writer(A_LATER), base(A)),
        (put("z.blob", b""), DONE),
        (put("a.conf.blob", b"123456789"), DONE),
        (put(MANIFEST, later), DONE),
        (files(A_LATER), no_snapshot()),
        (finish(), DONE),
        (LIST, rows((A, 2), (A_LATER, 3), *others)),
        (list_after(A), rows((A_LATER, 3), *others)),
        (GROUP, keys(A, A_LATER)),
        (files(A_LATER), later_files),
        (files(A), first_files),
        # the older one goes: a backup may still be later than the newer
        (forget(A), DONE),
        (LIST, rows((A_LATER, 3), *others)),
        (files(A), no_snapshot()),
        (files(A_LATER), later_files),
        (open_writer(A_LATER), not_newer(A_LATER)),
    ]


def both_gone(*others):
    """The newer one goes too."""
    return [
        *two_snapshots(*others),
        (forget(A_LATER), DONE),
        (LIST, rows(*others)),
        (files(A_LATER), no_snapshot()),
    ]


CT, HOST_B, HOST_AX, VM = (
    "ct/b/2020-01-15T06:30:04Z",
    "host/B/2020-01-15T06:30:03Z",
    "host/a.x/2020-01-15T06:30:03Z",
    "vm/a/2020-01-15T06:30:03Z",
)


def backed_up(snapshot, over=""):
    return [(open_writer(snapshot), base(over)), (put_manifest(snapshot), DONE), (finish(), DONE)]


def in_order(*others):
    """Snapshots stand by their kind, then by the bytes of their ids, then by time."""
    six = [CT, HOST_B, A, A_LATER, HOST_AX, VM]

    def behind(place):
        return rows(*((it, 1) for it in six[place:]), *others)

    return [
        *flat(map(backed_up, (VM, HOST_AX, A))),
        *backed_up(A_LATER, A),
        *flat(map(backed_up, (HOST_B, CT))),
        (LIST, behind(0)),
        *((list_after(it), behind(place)) for place, it in enumerate(six, 1)),
        # behind an id that stands between two
        (list_after("host/a-b/2020-01-15T06:30:03Z"), behind(4)),
        (list_after("host/a.b/9999-12-31T23:59:59Z"), behind(4)),
        (list_after("host/A/2020-01-15T06:30:03Z"), behind(1)),
        # their groups, before one is forgotten and behind it
        (GROUP, keys(A, A_LATER)),
        (group("host/a.x"), keys(HOST_AX)),
        (group("ct/a"), NONE_THERE),
        (group("vm/a"), keys(VM)),
        (forget(A_LATER), DONE),
        (LIST, rows(*((it, 1) for it in six if it != A_LATER), *others)),
        (GROUP, keys(A)),
        (group("host/a.x"), keys(HOST_AX)),
    ]


# What is left of two snapshots, and of one; of six.
CHUNKS_LEFT = [(DE, 14), (ABC, 15)]
LATER_LEFT = [*CHUNKS_LEFT, *((f"{A_LATER}/{name}", size) for name, size in (("a.conf.blob", 21), (MANIFEST, 342), ("z.blob", 12)))]
FIVE_LEFT = [(f"{it}/{MANIFEST}", size) for it, size in ((CT, 84), (HOST_B, 86), (HOST_AX, 88), (A, 86), (VM, 84))]
TALKS = [
    ("one snapshot", one_snapshot, []),
    ("two snapshots, of which one is forgotten", two_snapshots, LATER_LEFT),
    ("and then the other", both_gone, CHUNKS_LEFT),
    ("six snapshots in order", in_order, FIVE_LEFT),
]
BACKED_UP = [*backed_up(A), (LIST, rows((A, 1)))]

SCENARIOS = [
    *(scenario(name, talk(turns()), files_left(left)) for name, turns, left in TALKS),
    kept_backup(BESIDE, EARLIER),
    *(
        scenario(
            f"{name}, beside another",
            start_from(BESIDE),
            talk(turns((OTHER, 2))),
            files_left(sorted({*left, *CHUNKS_LEFT, *STAYING})),
        )
        for name, turns, left in TALKS
    ),
    scenario("a backup, and LIST", talk(BACKED_UP), kinds(0, 0, 0, 0, 6)),
    scenario("the same, one byte a read", gives(1), talk(BACKED_UP), kinds(0, 0, 0, 0, 6)),
]

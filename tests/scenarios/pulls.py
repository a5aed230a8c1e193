"""Groups that are pulled from a remote: which snapshots, which steps, and what then stands here."""
from scenarios.backups import *

# Snapshots of one group at three hours, at the last of them also one whose manifest is none; one of another group; a file of one
# without a manifest.
STORES = {
    "ten": plain(TEN),
    "eleven": plain(ELEVEN),
    "noon": plain(NOON),
    "noon damaged": (f"{NOON}/index.json.blob", b"abc"),
    "another group": plain("host/b/2020-01-15T12:00:00Z"),
    "unfinished": ("host/a/2020-01-15T13:00:00Z/a.conf.blob", b"abc"),
}
# A SYNC that pulls nothing reads the remote's list and what is here; one snapshot is its writer, its manifest read and sent, and FINISH.
NONE_PULLED = [1, 0, 1, 0, 0, 6]
ONE_PULLED = [1, 0, 0, 1, 0, 0, 1, 0, 0, 6]
TWO_PULLED = [1, 0, 0, 1, 0, 0, 0, 1, 0, 0, 1, 0, 0, 6]
SYNC_A = sync("host/a")
NO_MANIFEST = unreadable(f"{NOON}/index.json.blob")

# What stands here and there, what two SYNCs and GROUP are told, and the kinds of the entries.
GROUPS_PULLED = [
    # those of the remote that are later than the newest here, the oldest first
    (["ten"], ["ten", "eleven"], keys(ELEVEN), keys(), keys(TEN, ELEVEN), ONE_PULLED),
    ([], ["ten", "eleven"], keys(TEN, ELEVEN), keys(), keys(TEN, ELEVEN), TWO_PULLED),
    (["eleven"], ["ten", "noon"], keys(NOON), keys(), keys(ELEVEN, NOON), ONE_PULLED),
    # what is here of another group does not count
    (["another group"], ["ten"], keys(TEN), keys(), keys(TEN), ONE_PULLED),
    (["ten"], ["eleven", "another group", "unfinished"], keys(ELEVEN), keys(), keys(TEN, ELEVEN), ONE_PULLED),
    # the second has no manifest to be read: what was pulled before it stays
    ([], ["ten", "noon damaged"], NO_MANIFEST, NO_MANIFEST, keys(TEN), [1, 0, 0, 1, 0, 0, 0, 1, 0, 1, 0, 0, 1, 0, 0, 6]),
    # none of the remote is later, or none is there
    (["eleven"], ["ten", "eleven"], keys(), keys(), keys(ELEVEN), NONE_PULLED),
    (["noon"], ["ten", "eleven"], keys(), keys(), keys(NOON), NONE_PULLED),
    # a damaged one here counts
    (["noon damaged"], ["ten", "eleven"], keys(), keys(), keys(NOON), NONE_PULLED),
    (["ten"], ["another group"], keys(), keys(), keys(TEN), NONE_PULLED),
    (["ten"], ["unfinished"], keys(), keys(), keys(TEN), NONE_PULLED),
    (["ten"], [], keys(), keys(), keys(TEN), NONE_PULLED),
    ([], [], keys(), keys(), keys(), NONE_PULLED),
]


def store(names):
    return flat(place(*STORES[name]) for name in names)


def pulled_group(here, remote, first, second, listed_after, steps):
    return scenario(
        f"pulled: {', '.join(here) or 'nothing'} here; {', '.join(remote) or 'nothing'} there",
        store(here),
        there(store(remote)),
        talk([(SYNC_A, first), (SYNC_A, second), (GROUP, listed_after)]),
        kinds(*steps),
    )


IN_WRITER = wrong_state(1)
# A SYNC that is refused does not read the remote.
REFUSED = [
    (open_writer(A), base()),
    (SYNC_A, IN_WRITER),
    (sync("host"), IN_WRITER),
    (abort(), DONE),
    (sync("host"), bad_name()),
    (sync(A), bad_name()),
]
# A snapshot of a blob and an archive is restored behind a SYNC.
RESTORED = [(SYNC_A, keys(A)), (open_reader(A), DONE), FROM_END, ALL_FIVE, (close_reader(), DONE)]
# Archives that share pieces, one of which stands twice in the last, and an empty one.
TWICE, SHARING, ONCE = [b"abc", b"de", b"abc"], [b"de", b"abc", b"xyz"], [b"abc"]
SHARED = [
    (open_writer(A), base()),
    *((chunk(it), DONE) for it in sorted(SHARING)),
    (new_dynamic("root.didx"), number(0)),
    (append(0, (b"abc", 0), (b"de", 3), (b"abc", 5)), DONE),
    (close_index(0, 3, 8, dynamic_csum(TWICE)), DONE),
    (new_dynamic("b.didx"), number(0)),
    (append(0, (b"de", 0), (b"abc", 2), (b"xyz", 5)), DONE),
    (close_index(0, 3, 8, dynamic_csum(SHARING)), DONE),
    (new_fixed("root.fidx", 3, 4096), number(0)),
    (append(0, (b"abc", 0)), DONE),
    (close_index(0, 1, 3, fixed_csum(ONCE)), DONE),
    (new_dynamic("none.didx"), number(0)),
    (close_index(0, 0, 0, dynamic_csum([])), DONE),
    (
        put_manifest(
            A,
            listed("root.fidx", 3, fixed_csum(ONCE)),
            listed("none.didx", 0, dynamic_csum([])),
            listed("b.didx", 8, dynamic_csum(SHARING)),
            listed("root.didx", 8, dynamic_csum(TWICE)),
        ),
        DONE,
    ),
    (finish(), DONE),
]
# A manifest behind which so many spaces stand that it is read in two parts.
IN_TWO_PARTS = place(PLAIN, blob(manifest(A) + b" " * PART_LIMIT))
# The steps of each file, in the manifest's order: a blob is read and sent; of an archive's index that is read, each chunk where its
# digest is used first.
WHOLE = [1, 0, 0, 1] + [1, 0] + [1, 0, 1, 0, 1, 0, 0, 0] + [0, 0, 0, 0, 0, 0, 6]
SHARED_ONCE = [1, 0, 0, 1] + [1, 0, 1, 0, 0, 0] + [1, 0, 0] + [1, 0, 1, 0, 1, 0, 0, 0] + [1, 0, 0, 0] + [0, 0, 6]


def one_pulled(name, remote, steps):
    """A remote with one snapshot, which then stands here as it stands there."""
    return scenario(name, there(remote), talk([(SYNC_A, keys(A))]), kinds(*steps), same())


SCENARIOS = [
    *(pulled_group(*row) for row in GROUPS_PULLED),
    scenario(
        "a SYNC that is refused reads nothing",
        there(store(["ten"])),
        talk(REFUSED),
        kinds(0, 0, 0, 0, 0, 0, 6),
        remote_made(0),
    ),
    scenario(
        "without a remote a SYNC is refused by one entry, which is no read",
        talk([(SYNC_A, no_remote()), (GROUP, NONE_THERE)]),
        kinds(0, 0, 6),
    ),
    kept_backup("a backup of a blob and an archive", ROOT_SENT, FIRST_RUN),
    scenario(
        "it is pulled whole, and restored",
        there(start_from("a backup of a blob and an archive")),
        talk(RESTORED),
        kinds(*WHOLE),
        same(),
    ),
    one_pulled("a chunk is sent once", talk(SHARED), SHARED_ONCE),
    one_pulled("a manifest of two parts is read by two steps", IN_TWO_PARTS, [1, 0, 0, 1, 1, 0, 0, 6]),
]

"""As many files, open indexes, entries and snapshots as there may be, and one more."""
from scenarios.backups import *

# A seventeenth archive, and one of pieces of a fixed size, while 16 are open.
SIXTEEN = [f"a{place:02}.didx" for place in range(16)]
ARCHIVES = [
    (open_writer(A), base()),
    *((new_dynamic(name), number(place)) for place, name in enumerate(SIXTEEN)),
    (new_dynamic("b.didx"), too_many(16)),
    (new_fixed("b.fidx", 1, 4096), too_many(16)),
    # one more name where one of them is closed
    (close_index(7, 0, 0, sha256(b"")), DONE),
    (new_fixed("b.fidx", 1, 4096), number(7)),
]
# A 65th file of each kind.
FILES_UP_TO = [f"f{place:02}.blob" for place in range(64)]
FILES_SENT = [
    (open_writer(A), base()),
    *((put(name, b""), DONE) for name in FILES_UP_TO),
    (put("g.blob", b""), too_many(64)),
    (put_manifest(A), too_many(64)),
    (new_dynamic("g.didx"), too_many(64)),
    (new_fixed("g.fidx", 1, 4096), too_many(64)),
    # a name that is taken comes first
    (put("f00.blob", b""), exists()),
]
# An entry more than a command may have.
ENTRIES = [
    (open_writer(A), base()),
    (new_dynamic("root.didx"), number(0)),
    (append_digests(0, [(sha256(b"abc"), 0)] * (APPEND_LIMIT + 1)), too_many(APPEND_LIMIT)),
    (append_digests(0, [(sha256(b"abc"), 0)] * APPEND_LIMIT), unknown_chunk(0)),
]



def page(names):
    return rows(*((name, None) for name in names))


# A group with a snapshot more than it may have, a year apart, each damaged; and one that is later.
GROUP_LIMIT = 4096
MANY = [f"ct/a/{1970 + place}-01-01T00:00:00Z" for place in range(GROUP_LIMIT + 1)]
LATER = "ct/a/9999-01-01T00:00:00Z"
NEW_BACKUP, NEW_PULL = open_writer(LATER), sync("ct/a")
FULL = [
    # the oldest are told
    (group("ct/a"), keys(*MANY[:GROUP_LIMIT])),
    # the group takes no backup, and none that is pulled; another does
    (NEW_BACKUP, too_many(GROUP_LIMIT)),
    (NEW_PULL, too_many(GROUP_LIMIT)),
    (open_writer("ct/b/1970-01-01T00:00:00Z"), base()),
    (abort(), DONE),
    # nor where one is forgotten, but where two are
    (forget(MANY[0]), DONE),
    (NEW_BACKUP, too_many(GROUP_LIMIT)),
    (forget(MANY[1]), DONE),
    (NEW_BACKUP, base()),
]
OVERFULL = "4,097 snapshots"
# LIST tells so many at once. Behind the 3,145th snapshot fewer are left, and behind the last one none.
PAGE = 1024
LISTED = [
    (list_after(), page(MANY[:PAGE])),
    (list_after(MANY[PAGE - 1]), page(MANY[PAGE : 2 * PAGE])),
    (list_after(MANY[3144]), page(MANY[3145:])),
    (list_after(MANY[-1]), page([])),
]


def damaged_snapshots(names):
    return flat(place(f"{name}/{MANIFEST}", b"") for name in names)


SCENARIOS = [
    scenario("a seventeenth index", talk(ARCHIVES)),
    scenario("a 65th file", talk(FILES_SENT)),
    scenario("4,097 entries", talk(ENTRIES)),
    scenario(OVERFULL, damaged_snapshots(MANY), keep(OVERFULL), there(damaged_snapshots([LATER])), talk(FULL)),
    scenario("LIST comes in pages", start_from(OVERFULL), talk(LISTED)),
    scenario(
        "none is pulled that is behind the oldest 4,096 of the remote",
        damaged_snapshots(MANY[-2:-1]),
        there(start_from(OVERFULL)),
        talk([(NEW_PULL, keys())]),
        kinds(1, 0, 6),
    ),
]

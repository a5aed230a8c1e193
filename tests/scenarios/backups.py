"""Backups that several files of scenarios begin with."""
from scenario import *
from pbclient.session import *
from tables.common import *

DONE = done()
LIST, GROUP = list_after(), group("host/a")
BOTH_CSUM = dynamic_csum([b"abc", b"de"])
PLAIN = f"{A}/index.json.blob"
# The chunks of pieces.
ABC, DE, XYZ = (f".chunks/{sha256(it).hex()[:4]}/{sha256(it).hex()}" for it in (b"abc", b"de", b"xyz"))
NONE_THERE = keys()

# OPEN_WRITER, and the archive `root.didx` of the pieces `abc` and `de`; the manifest that lists it, and FINISH.
ROOT_SENT = [
    (open_writer(A), base()),
    (new_dynamic("root.didx"), number(0)),
    (chunk(b"abc"), DONE),
    (chunk(b"de"), DONE),
    (append(0, (b"abc", 0), (b"de", 3)), DONE),
    (close_index(0, 2, 5, BOTH_CSUM), DONE),
]
ROOT_FINISHED = [(put_manifest(A, listed("root.didx", 5, BOTH_CSUM)), DONE), (finish(), DONE)]
# Behind the archive a blob, and both are listed.
FIRST_RUN = [(put("a.conf.blob", b"123456789"), DONE), (put_manifest(A, *BOTH_LISTED), DONE), (finish(), DONE)]

# RANGE of the archive's five bytes, and DOWNLOAD of its index from its end on.
ALL_FIVE = (range_of("root.didx", 0, 5), rest(b"abcde"))
FROM_END = (download("root.didx", 4176), part(ROOT, 4176))


def plain(snapshot):
    """A snapshot with its manifest alone: where that stands, and the file."""
    return f"{snapshot}/index.json.blob", blob(manifest(snapshot))


def kept_backup(name, *turns):
    """The scenario of a backup that later ones begin with."""
    return scenario(name, talk([it for part in turns for it in part]), keep(name))


# A snapshot of another group, which stands behind all others, of pieces that later sessions send too; and its files, which stay.
OTHER = "vm/z/2020-01-15T06:30:03Z"
BESIDE = "a snapshot of another group"
EARLIER = [
    (open_writer(OTHER), base()),
    *ROOT_SENT[1:],
    (put_manifest(OTHER, listed("root.didx", 5, BOTH_CSUM)), DONE),
    (finish(), DONE),
]
STAYING = [(f"{OTHER}/{MANIFEST}", 211), (f"{OTHER}/root.didx", 4176)]


def beside(turns):
    """The same beside that snapshot: each LIST that is done tells it too, as its last row."""
    row = rows((OTHER, 2))[3:]
    is_listed = [command[:1] == LIST[:1] and reply[:1] == b"\0" for command, reply in turns]
    told_too = [b"\0" + u16(int.from_bytes(it[1:3], "little") + 1) + it[3:] + row for _, it in turns]
    return [(command, more if listed else reply) for (command, reply), more, listed in zip(turns, told_too, is_listed)]


def alone_and_beside(name, turns, left=None):
    """A session on an empty datastore, which leaves these files, and beside a snapshot of another group."""
    files_behind = [] if left is None else files_left(left)
    return [
        *scenario(name, talk(turns), files_behind),
        *scenario(f"{name}, beside another group", start_from(BESIDE), talk(beside(turns)), files_there((left or []) + STAYING)),
    ]

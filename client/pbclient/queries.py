"""What is asked of the store by more than one command: its snapshots, their files, a file whole, the snapshot that words name."""
import difflib, json, struct
from typing import NamedTuple

from . import session as s
from .failures import Failure


class Row(NamedTuple):
    """A snapshot as LIST tells it. The files count the manifest."""

    snapshot: str
    damaged: bool
    files: int


class File(NamedTuple):
    """A file of a snapshot: of an archive the size and the index's checksum, of a blob those of its file."""

    name: str
    size: int
    csum: bytes


def texts_in(rows, count, behind):
    """So many texts, each with so many bytes behind it."""
    at = 0
    for _ in range(count):
        end = at + 1 + rows[at]
        yield rows[at + 1 : end].decode(), rows[end : end + behind]
        at = end + behind


def names(talk, command):
    """The snapshots that the reply to GROUP or SYNC names."""
    reply = talk.ask(command)
    return [text for text, _ in texts_in(reply[2:], struct.unpack("<H", reply[:2])[0], 0)]


def snapshots(talk):
    """All snapshots, in the store's order."""
    after = ""
    while True:
        reply = talk.ask(s.list_after(after))
        rows = list(texts_in(reply[2:], struct.unpack("<H", reply[:2])[0], 2))
        yield from (Row(text, bool(state), count) for text, (state, count) in rows)
        if not rows:
            return
        after = rows[-1][0]


def group_of(snapshot):
    return snapshot.rpartition("/")[0]


def groups(rows):
    """The rows of each group, by its name, the oldest first."""
    found = {}
    for it in rows:
        found.setdefault(group_of(it.snapshot), []).append(it)
    return found


def in_group(talk, group):
    """A group's snapshots, the oldest first, damaged ones too."""
    return names(talk, s.group(group))


def files_of(talk, snapshot):
    """A snapshot's files, the manifest among them, in byte order."""
    reply = talk.ask(s.files(snapshot))
    return [File(name, struct.unpack("<Q", it[:8])[0], it[8:]) for name, it in texts_in(reply[1:], reply[0], 40)]


def whole(talk, ask, name):
    """A file, part after part; `ask` spells the command for an offset: `previous` or `download`."""
    found, size = b"", 1
    while len(found) < size:
        reply = talk.ask(ask(name, len(found)))
        size = struct.unpack("<Q", reply[:8])[0]
        found += reply[8:]
    return found


def read_manifest(talk, snapshot):
    """A snapshot's manifest. The session has no reader and no writer."""
    talk.ask(s.open_reader(snapshot))
    data = s.data_of(whole(talk, s.download, s.MANIFEST))
    talk.ask(s.close_reader())
    return json.loads(data)


def no_group(group, known):
    """The failure of a group that has no snapshot."""
    near = difflib.get_close_matches(group, known, 1)
    meant = f"did you mean {near[0]}? " if near else ""
    return Failure(f"{group} has no snapshot", f"{meant}pbclient snapshots lists what is there")


def need_group(talk, group):
    """A group's snapshots, the oldest first. One without any is refused: it is mistyped, most likely."""
    found = in_group(talk, group)
    if not found:
        raise no_group(group, sorted(groups(snapshots(talk))))
    return found


def latest_of_all(talk):
    """The latest snapshot of the one group that the store has."""
    known = groups(snapshots(talk))
    if not known:
        raise Failure(f"{talk.root} has no snapshot", "make one: pbclient backup")
    if len(known) > 1:
        raise Failure(f"latest could be any of {len(known)} groups'", f"say whose: {', '.join(f'{it}/latest' for it in list(known)[:3])}")
    return next(iter(known.values()))[-1].snapshot


def resolve(talk, text):
    """The snapshot that is named: host/me/TIME, host/me/latest, host/me for its latest, or latest where there is one group alone."""
    if text == "latest":
        return latest_of_all(talk)
    front, _, last = text.rpartition("/")
    if "/" not in front:
        return need_group(talk, text)[-1]
    found = need_group(talk, front)
    if last == "latest":
        return found[-1]
    if text not in found:
        raise Failure(f"there is no snapshot {text}", f"pbclient snapshots {front} lists the group's")
    return text

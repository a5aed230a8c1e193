"""Inputs of sessions: those of the scenarios' texts, and drawn ones that leave things open, are refused, break off or hold no command."""
import os, random, re, struct
from typing import NamedTuple

from harness import HERE, noise, s, snapshot

SCENARIOS = os.path.join(os.path.dirname(os.path.dirname(HERE)), "crates", "scenarios", "data")
# As docs/SCENARIOS.md spells bytes: so many times these, these, one byte, or a sign.
SPELLED = re.compile(r"\\\{(\d+) ([0-9a-f]+)\}|\\([0-9a-f]{2})|(.)")


def read(text):
    return b"".join(int(n) * bytes.fromhex(some) if n else bytes.fromhex(one) if one else sign.encode() for n, some, one, sign in SPELLED.findall(text))


class Input(NamedTuple):
    """A session's input, and the status that its run ends with in the scenario."""

    data: bytes
    status: str


def of_scenarios():
    """Each scenario's inputs, lane by lane and run by run, without those of no bytes."""
    for name in sorted(os.listdir(SCENARIOS)):
        with open(os.path.join(SCENARIOS, name)) as file:
            yield from filter(None, map(of_scenario, file.read().split("\n= ")[1:]))


def of_scenario(text):
    found, run, lane = [], {}, "0"
    for word, _, rest in (line.partition(" ") for line in text.split("\n")[1:]):
        if word == "lane":
            lane = rest
        elif word == ">":
            run[lane] = run.get(lane, b"") + s.frame(read(rest.partition(" ")[2]))
        elif word == ">>":
            run[lane] = run.get(lane, b"") + read(rest)
        elif word in ("ends", "sweep", "checks"):
            found += [Input(it, rest.split(" ")[0]) for it in run.values() if it]
            run, lane = {}, "0"
    return found


def writer(snapshot, *pieces):
    """A whole backup of a dynamic archive."""
    csum, ends = s.dynamic_csum(pieces), [0]
    for it in pieces:
        ends.append(ends[-1] + len(it))
    return [
        s.open_writer(snapshot), s.new_dynamic("a.didx"), *map(s.chunk, pieces),
        s.append(0, *zip(pieces, ends)), s.close_index(0, len(pieces), ends[-1], csum),
        s.put_manifest(snapshot, s.listed("a.didx", ends[-1], csum)), s.finish(),
    ]


def reader(snapshot, size=5):
    return [s.open_reader(snapshot), s.download("a.didx"), s.range_of("a.didx", 1, size), s.get_chunk(s.sha256(b"abc")), s.download(s.MANIFEST)]


# How a session ends, by BYE where nothing is said: at its input's end, or by a frame that is none. Those of MARRED the program itself tells,
# and the lane is used up.
ENDS = {0: b"", 1: struct.pack("<I", 0xFFFFFF00), 2: b"\2\0\0\0\x1e", 3: b"\2\0"}
MARRED = [b"\1\0\0\0\x63", b"\0\0\0\0", b"\2\0\0\0\x12x"]


def drawn(seed, group="host/a", marred=0.0, count=40):
    """So many inputs of a seed; of so great a part of them a frame holds no command."""
    chance, found = random.Random(seed), []
    for number in range(1, count + 1):
        here, there = snapshot(group, number), snapshot(group, chance.randrange(1, number + 1))
        bodies = chance.choice([
            writer(here, b"abc", b"de%d" % number), writer(here, b"abc", noise(seed, 3000))[: chance.randrange(1, 8)], writer(here, b"abc"),
            reader(there), reader(there), [s.list_after(), s.group(group), s.files(there)], [s.forget(there)], [s.prune(group, last=3)],
            [s.verify(there)], [s.gc()], [s.sync(group)],
            [s.open_writer(here), s.previous("a.didx"), s.append(0), s.new_dynamic("b.didx"), s.append(0, (b"abc", 0))],
            [s.range_of("a.didx", 0, 1), s.get_chunk(s.sha256(b"abc"))], [s.abort()], [s.close_reader()], [s.open_reader(there), s.open_writer(here)],
            mixed(chance, group, here, there), mixed(chance, group, here, there),
        ])
        end = chance.choice(MARRED) if chance.random() < marred else ENDS.get(chance.randrange(8), s.frame(s.bye()))
        found.append(s.frames(*bodies) + end)
    return found


def mixed(chance, group, here, there):
    """Commands in any order: what an earlier client left in the lane would show."""
    pieces = [b"abc", b"de", bytes(4096), noise(here, 4096)]

    def one():
        name, piece = chance.choice(["a.didx", "b.didx", "c.fidx", "d.blob", s.MANIFEST]), chance.choice(pieces)
        return chance.choice([
            s.open_writer(here), s.open_reader(there), s.previous(name, chance.choice([0, 0, 4096, 9999])), s.new_dynamic(name),
            s.new_fixed(name, 4096, 4096), s.chunk(piece), s.chunk(piece), s.append(chance.randrange(3), (piece, 0)),
            s.close_index(0, 1, len(piece), s.dynamic_csum([piece])), s.put("d.blob", piece), s.put_manifest(here), s.finish(), s.abort(),
            s.close_reader(), s.download(name, chance.choice([0, 0, 4096])), s.get_chunk(s.sha256(piece)), s.range_of(name, 0, 3),
            s.list_after(), s.files(there), s.forget(there), s.group(group),
        ])

    return [s.open_writer(here)] * chance.randrange(2) + [one() for _ in range(chance.randrange(1, 16))]


def bodies(data):
    """The bodies of frames, the last of which may be cut or none."""
    found, at = [], 0
    while at < len(data):
        size = struct.unpack("<I", data[at : at + 4].ljust(4, b"\0"))[0]
        found.append(data[at + 4 : at + 4 + size])
        at += 4 + size
    return found


def masked(data, replies):
    """The replies without what the clock makes of them, each at its place: when an index was begun, where PREVIOUS or DOWNLOAD gives it from its
    first byte; a collection's two moments, and how many chunks were touched in its second, of those that stay."""
    found = bodies(replies)
    for at, (sent, reply) in enumerate(zip(bodies(data), found)):
        if reply[:1] != s.done():
            continue
        if sent[:1] == s.gc():
            used, pending, removed = struct.unpack("<3Q", reply[17:])
            found[at] = (used + pending, removed)
        elif sent[0] in (s.PREVIOUS, s.DOWNLOAD) and sent[1:].endswith(b"idx" + s.u64(0)):
            found[at] = reply[:33] + reply[41:]
    return found


def tree(root):
    """The files of a folder with their bytes, but for the book, which has moments, and the moments of indexes."""
    found = {}
    for at, _, names in os.walk(root):
        for name in names:
            with open(os.path.join(at, name), "rb") as file:
                data = file.read()
            path = os.path.relpath(os.path.join(at, name), root)
            found[path] = b"" if name == "book" else data[:24] + data[32:] if name.endswith("idx") else data
    return found


def whole_tree(root):
    """The files of a folder with their bytes."""
    found = {}
    for at, _, names in os.walk(root):
        for name in names:
            with open(os.path.join(at, name), "rb") as file:
                found[os.path.relpath(os.path.join(at, name), root)] = file.read()
    return found

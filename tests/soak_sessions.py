"""Random sessions for `tests/soak`: backups, restores, jobs and collections, most of them legal, with wrong commands among them.

All that is drawn goes by one random.Random, so that a run can be made again.
"""
import os, sys
from datetime import datetime, timezone

sys.path.insert(0, os.path.join(os.path.dirname(os.path.dirname(os.path.abspath(__file__))), "client"))
from pbclient import session as s

DAY = 24 * 60 * 60
# Where the time of the first snapshots is, in seconds since 1970.
START = 1_579_069_803
INDEX, DISK, CONF = "root.didx", "disk.fidx", "etc.blob"
SIZE = 4096
# One in so many sessions has wrong commands.
WRONG = 4


def snapshot_of(group, second):
    at = datetime.fromtimestamp(START + second, timezone.utc)
    return f"{group}/{at:%Y-%m-%dT%H:%M:%SZ}"


class Backup:
    """A snapshot with the pieces of its archives, by file name, and the data of its blob."""

    def __init__(self, name, archives, conf):
        self.name, self.archives, self.conf = name, archives, conf

    def csum(self, file):
        pieces = self.archives[file]
        return s.fixed_csum(pieces) if file.endswith(".fidx") else s.dynamic_csum(pieces)

    def upload(self, file, number, sent, parts):
        """The commands of an archive: its chunks, but for those that are not `sent`, and its pieces in so many parts."""
        pieces = self.archives[file]
        size, start, begins = sum(map(len, pieces)), 0, []
        for piece in pieces:
            begins.append((piece, start))
            start += len(piece)
        step = max(1, -(-len(begins) // parts))
        yield s.new_fixed(file, size, SIZE) if file.endswith(".fidx") else s.new_dynamic(file)
        yield from (s.chunk(it) for it in dict.fromkeys(pieces) if it in sent)
        yield from (s.append(number, *begins[at : at + step]) for at in range(0, len(begins), step))
        yield s.close_index(number, len(pieces), size, self.csum(file))

    def manifest(self):
        files = [s.listed(it, sum(map(len, self.archives[it])), self.csum(it)) for it in sorted(self.archives)]
        return s.put_manifest(self.name, s.listed_blob(CONF, s.blob(self.conf)), *files)

    def commands(self, draw, last, base):
        """All of it. Where there should be a base, its archives are often read, and most of their chunks then not sent."""
        known = set()
        yield s.open_writer(self.name)
        if base and draw.random() < 0.6:
            yield from (s.previous(it) for it in base.archives)
            known.update(*base.archives.values())
        for file, pieces in self.archives.items():
            sent = {it for it in pieces if it not in known or draw.random() < 0.3}
            yield from self.upload(file, 0, sent, draw.randint(1, 3))
        yield s.put(CONF, self.conf)
        yield self.manifest()
        yield last

    def restore(self, draw=None):
        """Reads it whole; or a part of each archive and perhaps a chunk, as it is drawn."""
        yield s.open_reader(self.name)
        yield s.download(s.MANIFEST)
        yield s.download(CONF)
        for file, pieces in self.archives.items():
            size = sum(map(len, pieces))
            yield s.download(file)
            start = draw.randint(0, size) if draw else 0
            yield s.range_of(file, start, draw.randint(0, size - start) if draw else size)
            if draw and pieces:
                yield s.get_chunk(s.sha256(draw.choice(pieces)))
        yield s.close_reader()

    def is_restored(self, replies):
        """Whether the replies to `restore` are those of it. An index has the time when it was begun."""
        wanted = [s.done(), s.part(self.manifest()[2 + len(s.MANIFEST) :]), s.part(s.blob(self.conf))]
        found = list(replies)
        for place, (file, pieces) in enumerate(self.archives.items()):
            index = s.fixed_index(self.name, file, 0, pieces, SIZE) if file.endswith(".fidx") else s.dynamic_index(self.name, file, 0, pieces)
            wanted += [s.part(index), s.rest(b"".join(pieces))]
            at = 3 + 2 * place
            if len(found) > at:
                # (behind 0, the size, the magic and the identifier)
                found[at] = found[at][:33] + wanted[at][33:41] + found[at][41:]
        return found == [*wanted, s.done()]


class Sessions:
    """Draws backups over as many groups as there are lanes, and sessions, over a datastore that has some."""

    def __init__(self, draw, lanes, there=()):
        self.draw, self.there, self.known = draw, list(there), list(there)
        self.groups = [f"{draw.choice(['ct', 'host', 'vm'])}/g{number}" for number in range(lanes)]
        self.seconds = dict.fromkeys(self.groups, 0)
        short = [draw.randbytes(draw.randint(1, 200)) for _ in range(20)]
        long = [bytes([number]) * SIZE for number in range(4)]
        self.short, self.long = short, long

    def backup(self, group):
        """A backup of a group, later than those before."""
        draw = self.draw
        self.seconds[group] += draw.choice([1, 1, 60, 3600, DAY, 9 * DAY])
        archives = {}
        if draw.random() < 0.8:
            archives[INDEX] = draw.choices(self.short, k=draw.randint(0, 8))
        if draw.random() < 0.4:
            archives[DISK] = [*draw.choices(self.long, k=draw.randint(0, 2)), draw.choice(self.short)]
        found = Backup(snapshot_of(group, self.seconds[group]), archives, draw.randbytes(draw.randint(0, 30)))
        self.known.append(found)
        return found

    def latest(self, group, own):
        """The group's last backup of those that should be there, with a session's own."""
        return max((it for it in [*self.there, *own] if it.name.rpartition("/")[0] == group), key=lambda it: it.name, default=None)

    def any_backup(self, own):
        """Mostly one that should be there."""
        found = [*self.there, *own] if self.draw.random() < 0.8 else self.known
        return self.draw.choice(found or self.known or [self.backup(self.groups[0])])

    def action(self, home, own):
        """The commands of one thing that a session does, mostly on a group of its own, behind these backups of its own."""
        draw = self.draw
        group = home if draw.random() < 0.85 else draw.choice(self.groups)
        kind = draw.choices(
            ["backup", "restore", "list", "forget", "prune", "verify", "sync", "gc", "other"], [9, 7, 3, 1, 2, 3, 3, 2, 1]
        )[0]
        if kind == "backup":
            base, backup = self.latest(group, own), self.backup(group)
            last = draw.choices([s.finish(), s.abort(), s.group(group)], [20, 2, 1])[0]
            if last == s.finish():
                own.append(backup)
            return list(backup.commands(draw, last, base))
        if kind == "restore":
            found = list(self.any_backup(own).restore(draw))
            return found if draw.random() < 0.95 else found[:-1]
        name = self.any_backup(own).name
        if kind == "list":
            return [draw.choice([s.list_after(), s.list_after(name), s.files(name), s.group(group)])]
        if kind == "forget":
            return [s.forget(name)]
        if kind == "prune":
            counts = [draw.choice([0, 0, 1, 2]) for _ in range(6)]
            return [s.prune(group, *counts, draw.random() < 0.2)]
        if kind == "verify":
            return [s.verify(name)]
        if kind == "sync":
            return [s.sync(group)]
        return [s.gc()] if kind == "gc" else [self.wrong()]

    def wrong(self):
        """A command that is mostly refused where it comes."""
        draw = self.draw
        piece = draw.choice(self.short)
        return draw.choice([
            s.open_writer("host/../x"), s.open_reader(snapshot_of("host/none", 5)), s.chunk_as(s.sha256(b"other"), s.blob(piece)),
            s.chunk_as(s.sha256(piece), s.blob(piece, crc=1)), s.append(draw.randint(0, 17), (piece, draw.randint(0, 9))),
            s.close_index(0, 1, 1, bytes(32)), s.new_fixed(DISK, 5000, 3000), s.new_dynamic("x.blob"), s.put("y.blob", piece),
            s.put(s.MANIFEST, b"{"), s.finish(), s.abort(), s.close_reader(), s.download(INDEX), s.get_chunk(s.sha256(piece)),
            s.range_of(INDEX, 0, 1 << 23), s.previous("none.didx"), s.prune("host/g0", 1001), s.verify("x"), s.sync("host"), s.gc(),
            s.forget(""), s.put("z.blob", b"")[:-3],
        ])  # fmt: skip

    def turned(self, commands):
        """The commands with something wrong among them."""
        draw = self.draw
        at = draw.randrange(len(commands))
        how = draw.choice(["drop", "twice", "swap", "byte", "more", "more"])
        if how == "drop":
            return commands[:at] + commands[at + 1 :]
        if how == "twice":
            return commands[: at + 1] + commands[at:]
        if how == "swap":
            return commands[:at] + commands[at : at + 2][::-1] + commands[at + 2 :]
        if how == "more":
            return commands[:at] + [self.wrong()] + commands[at:]
        body = bytearray(commands[at])
        # (not the code: with another one it may be no command, which ends the session)
        if len(body) > 1:
            body[draw.randrange(1, len(body))] ^= 1 << draw.randrange(8)
        return commands[:at] + [bytes(body)] + commands[at + 1 :]

    def commands(self, actions, home):
        own = []
        found = [it for _ in range(actions) for it in self.action(home, own)]
        if self.draw.random() < 1 / WRONG:
            for _ in range(self.draw.randint(1, 3)):
                found = self.turned(found) or [s.gc()]
        return found

    def prepared(self, count):
        """So many backups, each of which is done, and a session that makes them."""
        own, commands = [], []
        for _ in range(count):
            group = self.draw.choice(self.groups)
            base = self.latest(group, own)
            own.append(self.backup(group))
            commands += own[-1].commands(self.draw, s.finish(), base)
        return own, s.frames(*commands)

    def ended(self, sent):
        """A session with an end: BYE, none, what is no command, or a frame that is cut."""
        how = self.draw.choices(["bye", "none", "broken", "cut"], [8, 2, 1, 1])[0]
        if how == "bye":
            return sent + s.frame(s.bye())
        if how == "broken":
            return sent + self.draw.choice([s.frame(b""), s.frame(b"c"), s.frame(bytes([s.GC, 0])), s.u32(1 << 25)])
        return sent[: -self.draw.randint(1, 20)] if how == "cut" else sent


# A run in memory


NEVER = (1 << 64) - 1
# So many things a session does, by how many lanes there are.
ACTIONS = {2: 12, 7: 6, 64: 2}


def readings(draw):
    """What the clock reads: it stands, or it stands, rises and falls by a second, an hour or a day."""
    now = START + 400 * DAY
    found = [now]
    for _ in range(draw.choice([0, 300, 3000])):
        now += draw.choices([0, 1, -1, 3600, -3600, 2 * DAY, -2 * DAY], [60, 10, 5, 5, 4, 4, 2])[0]
        found.append(now)
    return found


def lane_of(draw, sent):
    """A session, with how its source and its sink work: whole, or a few bytes at once, or failing at some read or write."""
    gives, takes = (draw.choice([NEVER, NEVER, 1000, 7]) for _ in range(2))
    failing = draw.choices(["none", "source", "sink"], [14, 1, 1])[0]
    unread = draw.randint(0, 5) if failing == "source" else NEVER
    untaken = draw.randint(0, 9) if failing == "sink" else NEVER
    return b"".join(map(s.u64, (gives, unread, takes, untaken))) + held(sent)


def held(data):
    return s.u64(len(data)) + data


def memory_run(draw, lanes):
    """A run's file, as `soak_program.py` has it."""
    sessions = Sessions(draw, lanes)
    sooner = dict(sessions.seconds)
    _, beside = sessions.prepared(draw.randint(1, 8)) if draw.random() < 0.7 else ([], None)
    # (what the remote has is sooner than what stands here, or not)
    if draw.random() < 0.5:
        sessions.seconds = sooner
    sessions.there, here = sessions.prepared(draw.randint(0, 3 + lanes // 4))
    sent = [sessions.ended(s.frames(*sessions.commands(ACTIONS[lanes], it))) for it in sessions.groups]
    read = draw.sample(sessions.known, min(len(sessions.known), 20))
    later = s.frames(s.list_after(), *(it for backup in read for it in backup.restore()), s.gc(), *(s.verify(it.name) for it in read[:3]), s.bye())
    clock = readings(draw)
    parts = [s.u64(clock[0] - 3 * DAY), held(here), s.u64(0) if beside is None else s.u64(1) + held(beside)]
    parts += [s.u64(len(clock)), *map(s.u64, clock), s.u64(lanes), *(lane_of(draw, it) for it in sent), held(later)]
    return b"".join(parts)

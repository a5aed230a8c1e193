"""Clients that back up, restore, forget, verify and collect, and come again where they are cut off; and what has to be true of the store then."""
import random, struct, threading, time

from harness import noise, s, snapshot
from inputs import writer
from pbclient.served.hello import Refused

CLIENTS = 8
DISK_FAULT, HALTED, COLLECTOR_BUSY, NO_SNAPSHOT, CLOSED = 26, 27, 25, 8, 255


class Gone(Exception):
    """The server ended the session, or the connection broke."""


class Load:
    """What was answered is kept: snapshots that are finished, with their bytes; that may be, since no answer came; that are to be forgotten."""

    def __init__(self, server):
        self.server, self.is_over, self.threads = server, False, []
        self.done, self.unsure, self.removed, self.wrong, self.endings = {}, set(), set(), [], {}

    def start(self):
        self.threads = [threading.Thread(target=self.serve, args=(it,)) for it in range(CLIENTS)]
        for it in self.threads:
            it.start()

    def stop(self):
        self.is_over = True
        for it in self.threads:
            it.join()

    def count(self, ending):
        self.endings[ending] = self.endings.get(ending, 0) + 1

    def serve(self, number):
        chance, at = random.Random(number), 0
        while not self.is_over:
            try:
                with self.server.client() as it:
                    for _ in range(chance.randrange(1, 6)):
                        at += 1
                        self.act(it, chance, f"host/{number}", at)
                    self.ask(it, s.bye())
                    self.count("bye")
            except Gone as gone:
                self.count(str(gone))
            except Refused as refused:
                self.count(f"no {refused.cause}")
                time.sleep(0.05)
            except OSError as error:
                self.count(type(error).__name__)

    def ask(self, it, body, expected=(0,)):
        reply = it.ask(body)
        if not reply or reply[0] == CLOSED:
            raise Gone((reply[1:] if reply else b"the end").decode())
        if reply[0] in (DISK_FAULT, HALTED):
            raise Gone(f"reply {reply[0]}")
        if reply[0] not in expected:
            self.wrong.append((body[:60], reply[:60]))
        return reply

    def act(self, it, chance, group, at):
        kind = chance.randrange(8)
        mine = [name for name in list(self.done) if name.startswith(f"{group}/")]
        if kind < 4:
            self.back_up(it, chance, snapshot(group, at))
        elif kind == 4:
            self.ask(it, *((s.gc(), (0, COLLECTOR_BUSY)) if chance.randrange(4) == 0 else (s.list_after(),)))
        elif kind == 5 and mine:
            self.forget(it, mine[0])
        elif kind > 5 and set(mine) - self.removed:
            self.look(it, chance.choice(sorted(set(mine) - self.removed)))

    def back_up(self, it, chance, name):
        pieces = [noise(chance.randrange(200), chance.randrange(1, 400_000)) for _ in range(chance.randrange(1, 6))]
        *before, finish = writer(name, *pieces)
        for body in before:
            self.ask(it, body)
        self.unsure.add(name)
        self.ask(it, finish)
        self.done[name] = b"".join(pieces)
        self.unsure.discard(name)

    def forget(self, it, name):
        # (if an earlier answer was lost it is gone already)
        expected = (0, NO_SNAPSHOT) if name in self.removed else (0,)
        self.removed.add(name)
        self.ask(it, s.forget(name), expected)
        self.done.pop(name)

    def look(self, it, name):
        self.restore(it, name)
        self.ask(it, s.verify(name))

    def restore(self, it, name):
        self.ask(it, s.open_reader(name))
        self.ask(it, s.download("a.didx"))
        data = self.done[name]
        found = self.ask(it, s.range_of("a.didx", 0, len(data)))[1:]
        if found != data:
            self.wrong.append((name, f"restored other bytes, {len(found)} for {len(data)}"))
        self.ask(it, s.close_reader())

    def look_at_all(self, test):
        """All that was finished is there and whole, and nothing else but what was never answered."""
        with self.server.client() as it:
            states = dict(listed(it))
            test.assertEqual(set(states.values()) | {0}, {0})
            test.assertEqual(sorted(set(self.done) - self.removed - set(states))[:9], [])
            test.assertEqual(sorted(set(states) - set(self.done) - self.unsure - self.removed)[:9], [])
            for name in states:
                if name in self.done:
                    self.restore(it, name)
                test.assertEqual(it.ask(s.verify(name))[-1:], b"\0", name)
        test.assertEqual(self.wrong[:9], [])


def listed(client):
    """All snapshots with their states."""
    last = ""
    while rows := rows_of(client.ask(s.list_after(last))):
        yield from rows
        last = rows[-1][0]


def rows_of(reply):
    """The snapshots of a LIST, with their states."""
    found, at = [], 3
    for _ in range(struct.unpack("<H", reply[1:3])[0]):
        end = at + 1 + reply[at]
        found.append((reply[at + 1 : end].decode(), reply[end]))
        at = end + 2
    return found

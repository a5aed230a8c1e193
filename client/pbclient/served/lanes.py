"""A lane of the running program: two pipes, which serve one client after another.

A lane is *at rest* if it has no session, owes no reply and has no frame begun. It then answers as a new one does, but that it counts the
offsets of BadFrame from its own first byte; `reply` counts them from the client's.
"""
import os, select, struct, time

from .. import session as s
from ..pipes import Pipes
from . import limits

# A pipe's, in bytes; and of a reply so many are read at once.
PIPE_SIZE = PART = 1 << 18
# LIST after the last name that there can be: legal in any state, and tells nothing.
LOOK = s.list_after("vm/" + "z" * 64 + "/9999-12-31T23:59:59Z")
JOBS = {s.PRUNE, s.VERIFY, s.SYNC, s.GC}
BAD_FRAME, DISK_FAULT, HALTED, NO_MEMORY = 1, 26, 27, 28
WITHOUT_SESSION, WITH_READER = s.wrong_state(0), s.wrong_state(2)


class LaneEnded(Exception):
    """The lane answers no more."""


def wait_for(pipe, event, seconds):
    """Whether the event comes in time."""
    waiting = select.poll()
    waiting.register(pipe, event)
    return bool(waiting.poll(seconds * 1000))


class Lane:
    """One thread sends, one reads replies."""

    def __init__(self, number, path):
        self.number, self.pipes = number, Pipes(path, PIPE_SIZE)
        self.commands, self.replies = self.pipes.commands, self.pipes.replies
        os.set_blocking(self.commands, False)
        # Bytes of the lane that the program took, and those before the client's first.
        self.taken = self.began = 0
        # A client has it; the program reads it no more; memory was wanting, and perhaps it reads it no more.
        self.is_lent = self.is_used_up = self.is_doubtful = False
        self.part = bytearray(PART)

    def is_free(self):
        return not self.is_lent and not self.is_used_up and self.taken < limits.LANE_FULL

    def lend(self):
        self.is_lent, self.began = True, self.taken

    def send(self, data, goes_on):
        """Writes a frame. A lane that ended may read no more and yet have its pipe: whoever learns of it says so by `goes_on`."""
        view = memoryview(data)
        self.taken += len(view)
        while view:
            try:
                view = view[os.write(self.commands, view) :]
            except BlockingIOError:
                if not goes_on():
                    raise LaneEnded from None
                wait_for(self.commands, select.POLLOUT, limits.TICK)
            except OSError:
                raise LaneEnded from None

    def reply(self, give, note=lambda number: None, limit=None):
        """Reads a reply, notes its number (the body's first byte), and gives its bytes, part after part, each to be used at once."""
        view = memoryview(self.part)
        self.fill(view[:4], limit)
        size = struct.unpack_from("<I", view)[0]
        first = min(size, PART - 4)
        self.fill(view[4 : 4 + first])
        number = view[4]
        # (before the client has it: what it tells of the run holds for whoever comes then)
        note(number)
        self.is_doubtful = number == NO_MEMORY
        if number == BAD_FRAME:
            self.is_used_up = True
            struct.pack_into("<Q", view, 5, struct.unpack_from("<Q", view, 5)[0] - self.began)
        give(view[: 4 + first])
        for at in range(first, size, PART):
            part = view[: min(PART, size - at)]
            self.fill(part)
            give(part)

    def fill(self, view, limit=None):
        """Reads as many bytes as there is room for. If they do not begin to come in time, the lane has ended."""
        if limit and not wait_for(self.replies, select.POLLIN, limit):
            raise LaneEnded
        while view:
            count = os.readv(self.replies, [view])
            if not count:
                raise LaneEnded
            view = view[count:]

    def ask(self, command):
        """The reply to a command of the server's own, when no other is owed."""
        end, found = time.monotonic() + limits.ALIVE, bytearray()
        self.send(s.frame(command), lambda: not self.is_doubtful or time.monotonic() < end)
        self.reply(found.extend, limit=limits.ALIVE if self.is_doubtful else None)
        return bytes(found[4:])

    def rest(self):
        """Ends what the client left open. What that is the store itself tells, by refusing ABORT. Gives the last answer's number."""
        body = self.ask(s.abort())
        if body == WITH_READER:
            body = self.ask(s.close_reader())
        if body not in (s.done(), WITHOUT_SESSION):
            self.is_used_up = True
        return body[0]

    def close(self):
        if self.commands is not None:
            os.close(self.commands)
            self.commands = None

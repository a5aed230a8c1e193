"""A client on a lane: its frames go to the lane, the lane's replies to it. One thread does the first, another the second, and each waits
while the other side does not take: so a slow client holds its own lane alone, and no more than a frame of it is held in memory.
"""
import collections, contextlib, mmap, socket, struct, threading, time

from .. import session as s
from . import limits
from .hello import CLOSED
from .lanes import DISK_FAULT, HALTED, JOBS, LOOK, LaneEnded

# In the place of a command's code: one of the server's own.
OWN = -1
ENDED = "the store's program ended, or had no memory left for this session"


def room_for(size):
    """A buffer of so many bytes at least, whose memory goes back to the system with it."""
    return mmap.mmap(-1, 1 << (size - 1).bit_length(), mmap.MAP_PRIVATE | mmap.MAP_ANONYMOUS)


class Session:
    def __init__(self, client, run, lane, user, idle):
        """`idle` is how many seconds a client may send nothing, or not take its replies."""
        self.client, self.run, self.lane, self.user, self.idle = client, run, lane, user, idle
        # The codes of the commands whose replies are owed.
        self.owed, self.changed = collections.deque(), threading.Condition()
        self.began = self.last = time.monotonic()
        # Bytes and commands of the client that were passed, and bytes of replies.
        self.offset = self.count = self.replied = 0
        self.buffer = room_for(4096)
        # No command is passed any more; the client takes no more; the lane answers no more, which cut a reply.
        self.is_over = self.is_gone = self.is_dead = self.is_cut = False
        # The client takes nothing at the moment.
        self.is_stuck = False
        self.is_at_rest = True
        # Why the server ended the session, if it did.
        self.reason = None

    def serve(self):
        """Serves the client to its end, and brings the lane to rest."""
        self.client.settimeout(min(limits.TICK, self.idle))
        replies = threading.Thread(target=self.pass_replies, daemon=True)
        replies.start()
        words = self.pass_commands()
        self.pass_no_more()
        replies.join()
        self.rest()
        self.give(self.last_words(words))

    def rest(self):
        if self.is_at_rest or self.is_dead or self.owed or self.lane.is_used_up:
            return
        try:
            self.note(self.lane.rest())
            self.is_at_rest = True
        except LaneEnded:
            self.is_dead = True

    def last_words(self, words):
        """What the client is told at the end: what a lane of its own would have told it, or why the server ended it."""
        if self.reason and not self.is_cut:
            return s.frame(bytes([CLOSED]) + self.reason.encode())
        return words if self.is_at_rest and not self.reason else b""

    def end(self, reason=None):
        """Passes no more commands. Replies that are owed are passed still."""
        # (a lane that is used up owes nothing more, and a program whose lanes all are ends by itself)
        if not self.lane.is_used_up:
            self.reason = self.reason or reason
        self.pass_no_more()
        self.shut(socket.SHUT_RD)

    def pass_no_more(self):
        with self.changed:
            self.is_over = True
            self.changed.notify_all()

    def cut(self):
        """Leaves a client that does not take its replies."""
        self.is_gone = True
        self.shut(socket.SHUT_RDWR)

    def shut(self, side):
        with contextlib.suppress(OSError):
            self.client.shutdown(side)

    def told(self):
        """A line on the session, for the log."""
        seconds = time.monotonic() - self.began
        passed = f"{self.count} commands, {self.offset} bytes, {self.replied} replied"
        return f"{self.user}: lane {self.lane.number}, {seconds:.1f} s, {passed}{f'; {self.reason}' if self.reason else ''}"

    # Commands

    def pass_commands(self):
        """Passes whole frames, up to BYE or the end of the input. Gives what the client is told then."""
        while not self.is_over:
            held = self.take(0, 4)
            if held < 4:
                return s.frame(s.bad_frame(self.offset)) if held else b""
            size = struct.unpack_from("<I", self.buffer)[0]
            if size > limits.BODY:
                return s.frame(s.too_long(size))
            if self.take(4, size) < size:
                return s.frame(s.bad_frame(self.offset))
            if size == 1 and self.buffer[4] == s.BYE:
                return s.frame(s.done())
            self.pass_frame(4 + size)
        return b""

    def pass_frame(self, size):
        if self.lane.taken + size > limits.LANE_BYTES:
            return self.end("the session is too long")
        self.is_at_rest = False
        code = self.buffer[4] if size > 4 else None
        if code in JOBS:
            self.look_alive()
            if self.is_over:
                return
        self.send(code, memoryview(self.buffer)[:size])
        self.offset += size
        self.count += 1

    def look_alive(self):
        """A job's reply may take any time. So before one the lane has answered all else, and if memory was wanting, a LIST of the server's own."""
        self.await_replies()
        if self.lane.is_doubtful and not self.is_over:
            look = s.frame(LOOK)
            self.lane.began += len(look)
            self.send(OWN, look)
            self.await_replies()
            if self.lane.is_doubtful:
                self.end(ENDED)

    def await_replies(self):
        with self.changed:
            self.changed.wait_for(lambda: not self.owed or self.is_over)

    def send(self, code, data):
        with self.changed:
            self.owed.append(code)
            self.changed.notify_all()
        try:
            self.lane.send(data, self.is_taken)
        except LaneEnded:
            # (if a reply is owed, whoever waits for it learns that it does not come)
            if not self.owed:
                self.is_dead = True
                self.end(ENDED)

    def is_taken(self):
        """Whether the rest of a frame may still be taken. If its own reply came before, memory for it was wanting: its lane has ended."""
        return not self.is_dead and bool(self.owed)

    def take(self, at, size):
        """Reads so many bytes into the buffer, from this place on; fewer at the input's end."""
        if len(self.buffer) < at + size:
            held, self.buffer = self.buffer[:at], room_for(at + size)
            self.buffer[:at] = held
        view, end = memoryview(self.buffer), at + size
        while at < end and not self.is_over:
            try:
                count = self.client.recv_into(view[at:end])
            except socket.timeout:
                self.look_idle()
                continue
            except OSError:
                break
            if not count:
                break
            at += count
            self.last = time.monotonic()
        return size - (end - at)

    def look_idle(self):
        if not self.owed and time.monotonic() - self.last > self.idle:
            self.end(f"nothing was sent for {self.idle:g} s")

    # Replies

    def pass_replies(self):
        """Passes a reply for each command, until none is owed and no command comes."""
        while self.is_owed():
            before, code = self.replied, self.owed[0]
            limit = limits.ALIVE if self.lane.is_doubtful else None
            try:
                self.lane.reply(self.drop if code == OWN else self.give, self.note, limit)
            except LaneEnded:
                self.is_dead, self.is_cut = True, self.replied != before
                return self.end(ENDED)
            with self.changed:
                self.owed.popleft()
                self.changed.notify_all()
            self.last = time.monotonic()
            if self.lane.is_used_up:
                return self.end()

    def is_owed(self):
        with self.changed:
            self.changed.wait_for(lambda: self.owed or self.is_over)
            return bool(self.owed)

    def note(self, number):
        if number in (DISK_FAULT, HALTED):
            self.run.is_halted = True

    def give(self, data):
        """Hands bytes to the client. Those that it takes no more are dropped, so that its lane comes to rest."""
        view, since = memoryview(data), time.monotonic()
        self.replied += len(view)
        while view and not self.is_gone:
            try:
                view = view[self.client.send(view) :]
                since, self.is_stuck = time.monotonic(), False
            except socket.timeout:
                self.is_stuck = True
                if time.monotonic() - since > self.idle:
                    self.leave("replies were not taken")
            except OSError:
                self.leave("the client went away")

    def drop(self, data):
        """The reply to a command of the server's own is not the client's."""

    def leave(self, reason):
        self.is_gone = True
        self.end(reason)

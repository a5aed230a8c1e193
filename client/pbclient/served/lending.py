"""Who waits for a lane, who has one, and whether the run of the program may go on. Each call but `__init__` is made by who holds `changed`."""
import threading, time

from . import limits
from .hello import Refused

NOBODY, OPENING, OTHERS = "closed, no client is there", "the store is being opened", "another program has the store"
ALL_LENT, CLOSING = "all lanes are in use", "the store is being closed, and opened anew"


class Wait:
    """A client that waits for a lane. `failure` is why it gets none."""

    def __init__(self, user):
        self.user, self.failure = user, None


class Lending:
    def __init__(self):
        self.changed = threading.Condition()
        # The run that lanes are lent of, and what is done while there is none.
        self.run, self.state = None, OPENING
        self.sessions, self.waits = [], []
        # Commands that the run had of sessions that ended.
        self.commands = 0
        self.stopped_at = None
        # New clients wait until then, so that the store can be opened anew; not before then is that tried again.
        self.renewing_until = self.next_renewal = 0

    # Clients

    def lane_for(self, wait):
        """The free lane that took least, if nobody who came before wants it; else None."""
        if self.stopped_at:
            raise Refused("stopping", "the server is stopping")
        if wait.failure:
            raise Refused("opening", wait.failure)
        if not self.run or not self.run.is_alive() or self.run.is_halted or self.is_renewing():
            return None
        if self.has_used_up(wait.user):
            return None
        free = sorted((it for it in self.run.lanes if it.is_free()), key=lambda it: it.taken)
        place = self.waits.index(wait)
        return free[place] if place < len(free) else None

    def has_no_lane_left(self, user):
        return self.run.used_up_by.get(user, 0) >= limits.USED_UP

    def has_used_up(self, user):
        """Whether the user gets no lane of this run any more. Without a session the run is ended; else the user is refused."""
        if not self.has_no_lane_left(user):
            return False
        if self.sessions:
            text = f"{user} sent {limits.USED_UP} sessions with a frame that holds no command; wait until no session is open"
            raise Refused("broken", text)
        return True

    def begin(self, session, wait):
        self.waits.remove(wait)
        session.lane.lend()
        self.sessions.append(session)

    def end(self, session):
        run, lane, user = session.run, session.lane, session.user
        lane.is_lent = False
        # (a lane that was not seen to be at rest is lent no more)
        lane.is_used_up = lane.is_used_up or not session.is_at_rest
        self.sessions.remove(session)
        self.commands += session.count
        if lane.is_used_up and not session.is_dead:
            run.used_up_by[user] = run.used_up_by.get(user, 0) + 1
        self.changed.notify_all()

    def why_wait(self):
        """What who waits is told."""
        if self.run and self.run.is_halted:
            return "the store's disk failed; it is opened anew once its sessions have ended"
        if self.is_renewing():
            return f"the store is opened anew once {len(self.sessions)} sessions have ended"
        return self.state

    def status(self):
        """The state, a line a session, and how many wait."""
        if self.run:
            state = f"open, {sum(it.is_used_up for it in self.run.lanes)} lanes used up"
        else:
            state = self.state if self.waits else NOBODY
        rows = [
            f"{it.lane.number} {it.user} {time.monotonic() - it.began:.0f} s {it.count} commands {it.offset} bytes"
            for it in self.sessions
        ]
        return [state, *rows, f"{len(self.waits)} wait"]

    # The run

    def open(self, run):
        self.run, self.commands, self.renewing_until, self.state = run, 0, 0, ALL_LENT
        self.changed.notify_all()

    def close(self):
        self.run, self.state = None, CLOSING

    def fail(self, text):
        """Nobody who waits now gets a lane."""
        for wait in self.waits:
            wait.failure = text
        self.changed.notify_all()

    def renew(self):
        """From now on new clients wait, until no session is left or the time is over."""
        now = time.monotonic()
        self.renewing_until, self.next_renewal = now + limits.RENEWAL, now + limits.NEXT_RENEWAL
        self.changed.notify_all()

    def is_renewing(self):
        return self.run is not None and time.monotonic() < self.renewing_until

    def is_worn(self):
        now = time.monotonic()
        is_old = self.commands > limits.RUN_COMMANDS or now - self.run.began > limits.RUN_AGE
        return is_old and now > self.next_renewal

    def stop(self):
        self.stopped_at = time.monotonic()
        self.changed.notify_all()

    def is_over(self, idle, linger):
        """Whether the run has to end now. `idle` is for how many seconds nobody was there."""
        if self.sessions:
            return False
        if not self.run.is_alive() or self.run.is_halted or self.stopped_at or self.is_renewing():
            return True
        if self.waits:
            return not any(it.is_free() for it in self.run.lanes) or any(self.has_no_lane_left(it.user) for it in self.waits)
        return idle >= linger

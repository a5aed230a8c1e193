"""Runs the program whenever clients are there, and ends it."""
import contextlib, shutil, time

from .. import damage, store
from ..failures import FAILED, IN_USE, Failure
from . import limits
from .lending import OPENING, OTHERS
from .runs import NotOpened, Run

STATUSES = {
    3: "its disk failed, or the folder is not there or in use",
    6: "out of memory",
    # (SIGILL)
    -4: "this processor is older than the program needs, which is x86-64-v2",
}
STOPPED, HALTED, GONE = "the server was stopped", "the store's disk failed", "the store's program ended"


def why(status):
    other = f"the program was ended by the signal {-status}" if status < 0 else f"the program ended with status {status}"
    return STATUSES.get(status, other)


class Keeper:
    def __init__(self, options, lending, say):
        self.options, self.lending, self.changed, self.say = options, lending, lending.changed, say
        # The names of the run's sessions. They are beside the socket, so that the next server takes away those that a killed one left.
        self.work = options.socket + ".lanes"

    def keep(self):
        while self.is_wanted():
            with contextlib.ExitStack() as turn:
                run = self.begin(turn)
                if run:
                    self.await_over(run)
                    self.finish(run)

    def is_wanted(self):
        with self.changed:
            self.changed.wait_for(lambda: self.lending.waits or self.lending.stopped_at)
            return not self.lending.stopped_at

    def begin(self, turn):
        """The program, once it reads its sessions; None if it fails, which all who wait are told. `turn` holds the store for it."""
        root = self.options.root
        try:
            # (each time: the folder may be another than it was, as of a disk that is not mounted)
            store.look(root, force=self.options.force)
            turn.enter_context(store.turn(root, 0))
            with self.changed:
                self.lending.state = OPENING
            run = self.start(root)
        except Failure as failure:
            return self.await_other() if failure.status == IN_USE else self.fail(failure)
        except OSError as error:
            return self.fail(error)
        with self.changed:
            self.lending.open(run)
        return run

    def await_other(self):
        """Another program has the store."""
        with self.changed:
            self.lending.state = OTHERS
            self.changed.wait(limits.TICK)

    def start(self, root):
        self.set_aside(root)
        # (a killed server's)
        shutil.rmtree(self.work, ignore_errors=True)
        remote = ["--remote", self.options.remote] if self.options.remote else []
        try:
            return Run([self.options.program, "run", root, *remote], self.options.lanes, self.work)
        except NotOpened as not_opened:
            # (the program of a server that was killed as it started it may have come first)
            status = IN_USE if store.is_locked(root) else FAILED
            raise Failure(why(not_opened.status), "look at the store's folder", status) from None

    def set_aside(self, root):
        """Damaged chunks go out of the way of those that are sent again. A store that can only be read is served with them."""
        try:
            damage.set_aside(root)
        except (Failure, OSError) as error:
            self.say(f"damaged chunks stay where they are: {error}")

    def fail(self, cause):
        text = f"the store could not be opened: {cause}"
        self.say(text)
        with self.changed:
            self.lending.fail(text)
            self.changed.wait_for(lambda: self.lending.stopped_at, limits.RETRY)

    def await_over(self, run):
        """Waits until the run is to end and no session is left in it."""
        busy, limit = time.monotonic(), None
        with self.changed:
            while True:
                now = time.monotonic()
                if self.lending.is_worn():
                    self.lending.renew()
                if self.lending.sessions or self.lending.waits:
                    busy = now
                if self.lending.is_over(now - busy, self.options.linger):
                    return self.lending.close()
                limit = self.hurry(run, limit, now)
                self.changed.wait(limits.TICK)

    def hurry(self, run, limit, now):
        """Ends the sessions of a run that has to end, once their time is over, and leaves those that take no replies."""
        if not run.is_alive():
            reason, seconds = GONE, 0
        elif self.lending.stopped_at:
            reason, seconds = STOPPED, self.options.grace
        elif run.is_halted:
            reason, seconds = HALTED, limits.HALTED
        else:
            return None
        limit = min(limit or now + seconds, now + seconds)
        for session in self.lending.sessions:
            # (replies of a program that ended may still be on their way)
            if now >= limit and (run.is_alive() or not session.owed):
                session.end(reason)
            if now >= limit + limits.LAST_REPLIES and (session.is_stuck or not run.is_alive()):
                session.cut()
        self.look_stop(run)
        return limit

    def look_stop(self, run):
        stopped = self.lending.stopped_at
        if stopped and run.is_alive() and time.monotonic() - stopped > self.options.stop_limit:
            self.say("the program is killed: its book is not saved")
            run.kill()

    def finish(self, run):
        """Ends the program, which saves its book."""
        run.end()
        while run.is_alive():
            self.look_stop(run)
            time.sleep(0.01)
        run.clear()
        status = run.program.returncode
        if status not in (0, 1):
            self.say(f"the run ended: {why(status)}")

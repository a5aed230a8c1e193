"""Sessions of a store's server, as `talk` has them of a run of the program here."""
import contextlib, struct, time

from ..failures import FAILED, IN_USE, MISTYPED, Failure
from ..talk import Refused, Talk
from . import dial, hello

# By the server's cause: what to do, and the status.
ADVICE = {
    "line": ("look at the address: is it a server of a store, of this version?", MISTYPED),
    "version": ("take the client of the server's version", MISTYPED),
    "store": ("ask for the store by its name", MISTYPED),
    "user": ("ask who keeps the server", FAILED),
    "broken": ("mend the client that sends what is no command, and come again", FAILED),
    "opening": ("look at the server's log and at the store's folder", FAILED),
    "server": ("look whether the server runs, or wait for it: --wait SECONDS", FAILED),
    "busy": ("run again later, or wait: --wait SECONDS", IN_USE),
    "stopping": ("run again later, or wait: --wait SECONDS", IN_USE),
}
# Causes that go by: the server is being started, or stopped.
PASSING = {"server", "busy", "stopping"}
PAUSE = 0.5


def failure_of(refused):
    """The failure that a server's refusal is."""
    advice, status = ADVICE.get(refused.cause, ("look at the server's log", FAILED))
    return Failure(f"the server: {refused}", advice, status)


def ended(text):
    return Failure(f"the server ended the session: {text}", "run again; no finished snapshot was lost")


def soon(call, seconds=0):
    """What a call of a server gives. One that is not there yet is tried again for so many seconds."""
    end = time.monotonic() + seconds
    while True:
        try:
            return call()
        except hello.Refused as refused:
            if refused.cause not in PASSING or time.monotonic() >= end:
                raise failure_of(refused) from None
            time.sleep(PAUSE)


class ServedTalk(Talk):
    """A session of a server. It waits for a lane as it is entered."""

    def __init__(self, run):
        super().__init__(run)
        self.stream = None

    def __enter__(self):
        self.stream = self.run.connected()
        return self

    def read(self, size):
        # (a server that is killed before it read all resets the connection)
        with contextlib.suppress(ConnectionResetError):
            found = self.stream.read(size)
            if len(found) == size:
                return found
        raise ended("the connection ended")

    def write(self, data):
        try:
            self.stream.write(data)
        except OSError:
            raise self.last_words() from None

    def reply(self):
        try:
            return super().reply()
        except Refused as refused:
            if refused.number == hello.CLOSED:
                raise ended(refused.body[1:].decode()) from None
            raise

    def last_words(self):
        """Why no more is taken: the server's last word may be there, after replies that were owed."""
        try:
            while True:
                body = self.read(struct.unpack("<I", self.read(4))[0])
                if body[0] == hello.CLOSED:
                    return ended(body[1:].decode())
        except (Failure, OSError):
            return ended("the connection ended")

    def close(self):
        if self.stream:
            self.stream.close()


class ServedRun:
    """So many sessions of the server that is found by `way`, each of which may wait for a lane; `told` takes why."""

    def __init__(self, root, way, count=1, told=lambda text: None, seconds=0):
        self.root, self.way, self.told, self.seconds = root, way, told, seconds
        self.talks = [ServedTalk(self) for _ in range(count)]

    def __enter__(self):
        return self

    def __exit__(self, *cause):
        self.close()

    def connected(self):
        """A stream that is ready for frames."""
        return soon(lambda: dial.begin(self.way, self.told)[0], self.seconds)

    def end(self):
        """The server's program goes on."""

    def close(self):
        for it in self.talks:
            it.close()

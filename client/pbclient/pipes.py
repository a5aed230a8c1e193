"""The two pipes of a session of the program: its commands, and its replies.

The program finds each by a name, which is a link to a descriptor that it inherits. It is no named pipe: whoever opens one of these waits for
the other end, and for ever if that one was killed before it came to it.
"""
import contextlib, fcntl, os

from .failures import Failure

DESCRIPTORS = "/proc/self/fd"
# (`fcntl.F_SETPIPE_SZ` is in Python from 3.10 on)
SET_PIPE_SIZE = 1031


class Pipes:
    """`commands` and `replies` are the ends of this process, `given` those that the program is to inherit."""

    def __init__(self, path, size):
        """`path` names the session, and with `.out` behind it the replies. Each pipe has room for so many bytes, if the system has that."""
        if not os.path.isdir(DESCRIPTORS):
            raise Failure("/proc is not mounted: the program could not find its session", "mount it: mount -t proc proc /proc")
        self.names = path, f"{path}.out"
        with contextlib.ExitStack() as made:
            (read, self.commands), (self.replies, written) = (self.opened(made) for _ in self.names)
            self.given = read, written
            for name, end in zip(self.names, self.given):
                os.symlink(os.path.join(DESCRIPTORS, str(end)), name)
            made.pop_all()
        for end in (self.commands, self.replies):
            with contextlib.suppress(OSError):
                fcntl.fcntl(end, SET_PIPE_SIZE, size)

    def opened(self, made):
        """Both ends of a pipe, to be closed if what comes next fails."""
        ends = os.pipe()
        for it in ends:
            made.callback(os.close, it)
        return ends

    def hand_over(self):
        """Closes the ends that the program has by now, so that its end and this one's are told to the other."""
        for it in self.given:
            os.close(it)
        self.given = ()

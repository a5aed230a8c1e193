"""Conversations with the store: the program on a folder, with sessions at once that are sent command by command.

A session and its replies go through two pipes, so that neither takes room on the disk. Their names go as soon as the program has opened them.
"""
import contextlib, os, shutil, struct, subprocess, tempfile

from .pipes import Pipes
from .session import REFUSALS, abort, bye, frame

STATUSES = {
    1: "a frame of the session holds no command",
    2: "the program read its words otherwise",
    3: "the disk failed: the folder isn't there, is full, or may not be written",
    4: "the session could not be read",
    5: "the replies could not be written",
    6: "out of memory",
    7: "there are more than 64 sessions at once",
    9: "the session is too long",
    10: "a read of the second store failed",
    # (SIGILL)
    -4: "this processor is older than the program needs, which is x86-64-v2",
}
STATES = {0: "no session", 1: "a writer", 2: "a reader"}
WORDS = {
    "BadFrame": "the store took no command from what was sent",
    "TooLong": "a frame is too long",
    "BadName": "that is no name of a snapshot, a group or a file of this kind",
    "GroupBusy": "another backup of the group runs",
    "SnapshotBusy": "the snapshot is in use",
    "NotNewer": "the group has a snapshot that is as late",
    "NoSnapshot": "there is no such snapshot",
    "NoFile": "the snapshot has no such file",
    "Exists": "the backup has a file of this name",
    "BadBlob": "the bytes are no blob",
    "WrongDigest": "a chunk has another digest than it was sent under",
    "WrongSize": "a piece or a chunk size that may not have this size",
    "UnknownChunk": "a chunk was named that was not sent",
    "BadOffset": "a piece does not begin where the archive ends so far",
    "BadClose": "the index has other entries than were told",
    "OpenIndexes": "an index is still open",
    "BadManifest": "the manifest cannot be read",
    "ManifestMismatch": "the manifest is not that of the files",
    "NotAllowed": "its index was not downloaded",
    "TooMany": "there would be too many",
    "BadRange": "that is beyond the end",
    "Damaged": "a chunk is damaged on the disk",
    "Unreadable": "a file of the snapshot is missing or cannot be read",
    "CollectorBusy": "another collection runs",
    "DiskFault": "the disk failed",
    "Halted": "the disk failed before",
    "NoMemory": "the store is out of memory",
    "NoRemote": "there is no second store to pull from",
    "RemoteFault": "the second store's disk failed",
}
# The refusals of a disk that failed, and those of what is damaged on it.
DISK_REFUSALS, DAMAGES = ("DiskFault", "Halted"), ("Damaged", "Unreadable")
# So long a run is waited for whose sessions have all ended.
END_SECONDS = 5
# (so that neither end waits for the other as often where pieces are large)
PIPE_SIZE = 1 << 20


class Refused(Exception):
    """The store refused a command."""

    def __init__(self, body):
        self.body, self.number, self.name = body, body[0], REFUSALS.get(body[0], "?")
        super().__init__(f"{self.words(body[1:])} ({self.name}, {self.number})")

    @property
    def is_damage(self):
        """Whether a file of the store is missing or damaged; the run goes on."""
        return self.name in DAMAGES

    @property
    def is_disk(self):
        """Whether the disk failed; the run does nothing more."""
        return self.name in DISK_REFUSALS

    def words(self, fields):
        if self.name == "WrongState":
            return f"the lane has {STATES.get(fields[0])}, and the command wants another"
        if self.name == "Unreadable":
            return f"{fields[1:].decode()} is missing or cannot be read"
        if self.name == "Damaged":
            return f"the chunk {fields[:32].hex()} is damaged on the disk"
        if self.name == "TooMany":
            return f"there would be more than {struct.unpack('<I', fields)[0]}"
        return WORDS.get(self.name, "the command was refused")


class Ended(Exception):
    """The program ended before it was to, with this status; one below 0 tells the signal."""

    def __init__(self, status):
        self.status = status
        other = f"the program was ended by the signal {-status}" if status < 0 else f"the program ended with status {status}"
        super().__init__(STATUSES.get(status, other))


class NoProgram(Exception):
    """The program is not to be found."""


def program(named=None):
    """The path of the program: the one that is named, by an option or by PBSTORE, or that stands beside the client, or on the path. It is
    never built."""
    here = os.path.dirname(os.path.abspath(__file__))
    top = os.path.dirname(os.path.dirname(here))
    # (in a checkout the client is in client/pbclient, else in lib/pbclient/pbclient, with the program in bin)
    beside = [os.path.join(top, "crates", "pbstore", "out", "pbstore"), os.path.join(os.path.dirname(top), "bin", "pbstore")]
    asked = named or os.environ.get("PBSTORE")
    places = [asked] if asked else [*beside, shutil.which("pbstore")]
    for path in places:
        if path and os.path.isfile(path) and os.access(path, os.X_OK):
            return os.path.abspath(path)
    raise NoProgram(f"{asked} is no program" if asked else "the program pbstore is not built, and not on the path")


class Talk:
    """A session: `with it as store: store.ask(command)` gives the reply's fields, or raises Refused. `read`, `write` and `close` are its way
    to the store."""

    def __init__(self, run):
        self.run, self.root = run, run.root

    def __exit__(self, *cause):
        try:
            if cause[0] is None:
                self.ask(bye())
        finally:
            self.close()

    def send(self, command):
        """Sends a command without waiting for its reply. Replies come in the order of the commands."""
        self.write(frame(command))

    def reply(self):
        """The fields of the next reply."""
        body = self.read(struct.unpack("<I", self.read(4))[0])
        if body[0]:
            raise Refused(bytes(body))
        return bytes(memoryview(body)[1:])

    def ask(self, command):
        self.send(command)
        return self.reply()


class PipedTalk(Talk):
    """A session of a run of the program here."""

    def __init__(self, run, path):
        super().__init__(run)
        self.pipes = Pipes(path, PIPE_SIZE)
        self.pipe = open(self.pipes.commands, "wb", buffering=0)
        self.replies = open(self.pipes.replies, "rb", buffering=0)

    def __enter__(self):
        """Waits until the store is open, which answers then that nothing is to be aborted."""
        with contextlib.suppress(Refused):
            self.ask(abort())
        self.unlink()
        return self

    def unlink(self):
        """Takes the pipes' names away, and their folder with the last of them, so that nothing is left if this process is killed."""
        for name in self.pipes.names:
            os.unlink(name)
        with contextlib.suppress(OSError):
            os.rmdir(self.run.work)

    def read(self, size):
        """So many bytes of the replies, once they are there."""
        found = bytearray(size)
        left = memoryview(found)
        while left:
            count = self.replies.readinto(left)
            if not count:
                raise self.run.ended()
            left = left[count:]
        return found

    def write(self, data):
        try:
            view = memoryview(data)
            while view:
                view = view[self.pipe.write(view) :]
        except BrokenPipeError:
            raise self.run.ended() from None

    def close(self):
        self.pipe.close()
        self.replies.close()


class Run:
    """A run of the program with so many sessions at once, `talks`. SYNC pulls from `remote`."""

    def __init__(self, root, remote=None, count=1, path=None):
        self.root, self.process, self.talks = root, None, []
        path = path or program()
        self.work = tempfile.mkdtemp(prefix="pbclient-")
        beside = ["--remote", remote] if remote else []
        try:
            for number in range(count):
                self.talks.append(PipedTalk(self, os.path.join(self.work, f"session-{number}")))
            words = [path, "run", root, *beside, *(it.pipes.names[0] for it in self.talks)]
            # (what it says on standard error is its status in one word)
            self.process = subprocess.Popen(
                words, stdin=subprocess.DEVNULL, stdout=subprocess.DEVNULL, stderr=subprocess.DEVNULL,
                pass_fds=[end for it in self.talks for end in it.pipes.given],
            )
            for it in self.talks:
                it.pipes.hand_over()
        except BaseException:
            self.close()
            raise

    def __enter__(self):
        return self

    def __exit__(self, *cause):
        self.close()

    def ended(self):
        """Why the program ended before it was to."""
        return Ended(self.process.wait())

    def end(self):
        """Waits for the program's end, once all sessions have ended."""
        if self.process.wait():
            raise self.ended()

    def close(self):
        seconds = END_SECONDS if all(it.pipe.closed for it in self.talks) else 0
        for it in self.talks:
            it.pipes.hand_over()
            it.close()
        if self.process and not self.ends_in(seconds):
            self.process.terminate()
            # (so that the next run finds the store free)
            self.ends_in(END_SECONDS)
        shutil.rmtree(self.work, ignore_errors=True)

    def ends_in(self, seconds):
        """Whether the program ends in so many seconds."""
        try:
            self.process.wait(seconds)
            return True
        except subprocess.TimeoutExpired:
            return False


@contextlib.contextmanager
def talk(root, remote=None):
    """`with talk(root) as store` is a run of one session."""
    with Run(root, remote) as run:
        with run.talks[0] as store:
            yield store
        run.end()

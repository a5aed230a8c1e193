"""A backup's pieces on their way to the store: hashed and sent by a thread, without waiting for each reply."""
import collections, hashlib
from concurrent.futures import ThreadPoolExecutor

from . import session as s
from .talk import Refused

# So many pieces wait for the thread at most, and so many commands for their replies.
WAITING, UNANSWERED = 4, 8
ENTRIES_AT_ONCE = 1024


class Archive:
    """An archive under way: its number in the session, its size so far, and the checksum of its index."""

    def __init__(self, name, number):
        self.name, self.number, self.fixed = name, number, name.endswith(".fidx")
        self.size, self.count, self.entries, self.checksum = 0, 0, [], hashlib.sha256()

    def add(self, digest, size):
        self.entries.append((digest, self.size))
        self.size += size
        self.count += 1
        self.checksum.update(digest if self.fixed else s.u64(self.size) + digest)


class Sends:
    """What a session is sent, in order. `known` has the digests that may be named unsent; `is_there` says whether their chunks are there."""

    def __init__(self, store, is_there=lambda digest: True, before_chunk=lambda: None):
        self.store, self.is_there, self.before_chunk = store, is_there, before_chunk
        self.known, self.done, self.sent, self.unanswered = set(), set(), 0, 0
        self.worker, self.under_way, self.failure = ThreadPoolExecutor(1), collections.deque(), None

    def __enter__(self):
        return self

    def __exit__(self, *cause):
        self.failure = self.failure or cause[1]
        self.worker.shutdown()

    def ask(self, command):
        """The reply's fields, once all that was given before is done. After a refusal here the session may go on."""
        reply = self.do(self.answer, command, wait=True)
        if isinstance(reply, Refused):
            raise reply
        return reply

    def begin(self, name, size=None, piece=None):
        """An archive that begins, of this size in pieces of one size or in any pieces."""
        command = s.new_dynamic(name) if size is None else s.new_fixed(name, size, piece)
        return Archive(name, self.ask(command)[0])

    def put(self, archive, piece):
        """A piece that comes next in an archive."""
        self.do(self.take, archive, piece)

    def again(self, archive, pieces):
        """Pieces of the backup before that come next, by digest and size."""
        self.do(self.name, archive, pieces)

    def close(self, archive):
        """Ends an archive, and gives what the manifest lists of it."""
        return self.do(self.end, archive, wait=True)

    def do(self, call, *words, wait=False):
        task = self.worker.submit(self.attempt, call, words)
        self.under_way.append(task)
        while len(self.under_way) > (0 if wait else WAITING):
            self.under_way.popleft().result()
        return task.result() if wait else None

    # (what follows is the thread's)

    def attempt(self, call, words):
        """A call, if nothing failed before."""
        if self.failure:
            raise self.failure
        try:
            return call(*words)
        except BaseException as failure:
            self.failure = failure
            raise

    def send(self, command, unanswered=UNANSWERED):
        self.store.send(command)
        self.unanswered += 1
        self.take_replies(unanswered)

    def take_replies(self, unanswered):
        while self.unanswered > unanswered:
            self.unanswered -= 1
            self.store.reply()

    def answer(self, command):
        """The reply's fields, or its refusal."""
        self.take_replies(0)
        try:
            return self.store.ask(command)
        except Refused as refused:
            return refused

    def take(self, archive, piece):
        digest = hashlib.sha256(piece).digest()
        if digest not in self.done and not (digest in self.known and self.is_there(digest)):
            self.before_chunk()
            self.send(s.chunk_as(digest, s.blob(piece)))
            self.done.add(digest)
            self.sent += len(piece)
        self.name(archive, [(digest, len(piece))])

    def name(self, archive, pieces):
        for digest, size in pieces:
            archive.add(digest, size)
            if len(archive.entries) == ENTRIES_AT_ONCE:
                self.append(archive)

    def append(self, archive):
        self.send(s.append_digests(archive.number, archive.entries))
        archive.entries = []

    def end(self, archive):
        if archive.entries:
            self.append(archive)
        checksum = archive.checksum.digest()
        self.send(s.close_index(archive.number, archive.count, archive.size, checksum), unanswered=0)
        return s.listed(archive.name, archive.size, checksum)

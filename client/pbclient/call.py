"""A call of the client: its options, what it says, and the store that it is on."""
import contextlib, functools, os

from . import damage, store
from .failures import DAMAGED, FAILED, Failure, mistyped
from .report import failure_of
from .served import dial, talks
from .talk import Ended, NoProgram, Refused, Run, program

# The status of the program for a fault of the disk, and if the processor does not know its instructions (SIGILL).
DISK_FAULT, ILLEGAL = 3, -4
ADVICE = {
    "GroupBusy": "wait for the other backup's end",
    "SnapshotBusy": "wait for the end of what uses it",
    "NotNewer": "take a later --time",
    "NoSnapshot": "pbclient snapshots lists them",
    "NoFile": "pbclient snapshots -v lists a snapshot's files",
    "Damaged": "pbclient check tells which snapshots it hurts; the next backup sends the chunk again",
    "Unreadable": "look after the disk, and forget that snapshot; gc works again then",
    "NoMemory": "run again with more memory",
    "RemoteFault": "look at the second store, and run again",
}


class Call:
    """One call: its options, where it says things, and the store that it is on."""

    def __init__(self, options, report):
        self.options, self.report = options, report
        self.root = options.root or os.environ.get("PBSTORE_ROOT")

    def need_root(self):
        if not self.root:
            raise mistyped("no store is named", "name its folder: -r ROOT, or PBSTORE_ROOT in the environment")

    def make_folder(self):
        """Makes ROOT where it is not there, in a folder that is."""
        self.need_root()
        if not self.way and not os.path.lexists(self.root):
            os.mkdir(self.root)
            self.report.detail(f"{self.root} is made")

    def look(self, writes, makes):
        """Looks at ROOT before the program is started, and tells whether it is empty. A server does so itself."""
        if self.way:
            return False
        empty = store.look(self.root, may_be_empty=makes, force=self.options.force)
        if writes:
            store.need_rights(self.root)
        return empty

    @contextlib.contextmanager
    def run(self, count=1, writes=False, makes=False, remote=None, before=None):
        """A run of the program on ROOT, with so many sessions. A command that only reads is done on a store that can only be read.
        One that makes a store leaves the book first, by which the folder is a store from then on, whatever comes. `before` is called once
        ROOT is held, before the program is started.

        If a server has the store, they are sessions of it, and `before` is called first."""
        if self.way:
            if before:
                before()
            with self.served(count, remote) as run:
                yield run
            return
        if self.look(writes, makes):
            self.make_store()
        with store.turn(self.root, self.options.wait):
            if writes:
                self.warn_of_clock()
                self.warn(store.owner_warning(self.root))
            if before:
                before()
            with self.started(count, remote) as run:
                yield run
                self.end(run, writes)

    @functools.cached_property
    def way(self):
        """How the server is reached that has the store; None for a folder that no server has."""
        self.need_root()
        try:
            return dial.way_to(self.root)
        except ValueError as error:
            raise mistyped(str(error), "one is as unix:/run/pbstore/main.sock or ssh://backup@vault/main") from None

    @property
    def folder(self):
        """The store's folder, to look into; None of a served store if it is not here, or this account may not read it."""
        is_here = not dial.is_address(self.root) and os.access(os.path.join(self.root, ".chunks"), os.R_OK | os.X_OK)
        return self.root if is_here or not self.way else None

    def damaged(self):
        """The chunks that a backup must send though the store has files of them. It is asked before a run."""
        return self.ask_damaged() if self.way else damage.set_aside(self.root)

    def note_damaged(self, digests):
        """Has damaged chunks sent again by the next backup that has their pieces."""
        if self.way:
            self.ask_damaged(digests)
        else:
            damage.add(self.root, digests)

    def ask_damaged(self, digests=()):
        """Tells the server of damaged chunks, and gives all that it knows of."""
        return talks.soon(lambda: dial.damaged(self.way, digests), self.options.wait)

    def settle_damaged(self):
        """Notes no more those chunks that are whole again. A server does so as it opens the store."""
        if not self.way:
            damage.settle(self.root)

    def served(self, count, remote):
        if remote:
            raise mistyped("a served store pulls from the folder that its server was given", "leave it out, or end the server first")
        return talks.ServedRun(self.root, self.way, count, self.tell_waiting, self.options.wait)

    def tell_waiting(self, why):
        self.report.note(f"waiting: {why}", "waiting", why=why)

    def warn_of_clock(self):
        """Tells of a store that was used under a clock that was ahead."""
        self.warn(store.clock_warning(self.root))

    def warn(self, warning):
        if warning:
            self.report.warn(*warning)

    @contextlib.contextmanager
    def session(self, **how):
        """A run of one session."""
        with self.run(**how) as run:
            with run.talks[0] as talk:
                yield talk

    def make_store(self):
        """A run of an empty session."""
        with self.started(1) as run:
            with run.talks[0]:
                pass
            run.end()

    def started(self, count, remote=None):
        return Run(self.root, remote, count, program(self.options.program))

    def end(self, run, writes):
        """Waits for the program's end. On a store that can only be read it can't save the book: all was answered then, and it is well."""
        try:
            run.end()
        except Ended as ended:
            unwritable = store.is_read_only(self.root) or not store.may_write(self.root)
            if writes or ended.status != DISK_FAULT or not (unwritable or store.room(self.root) == 0):
                raise
            self.report.detail(f"{self.root} could only be read, which is enough for this")

    def failure(self, error):
        """What happened and what to do, of an error."""
        if isinstance(error, Failure):
            return error
        if isinstance(error, NoProgram):
            return Failure(str(error), "build it by ./build-pbstore, or name it: --program FILE or PBSTORE")
        if isinstance(error, PermissionError) and self.root and str(error.filename).startswith(self.root):
            return store.closed(error.filename, self.root)
        if isinstance(error, OSError):
            return failure_of(error)
        if isinstance(error, Refused) and not error.is_disk:
            advice = ADVICE.get(error.name, "look at the words; if they are right this is a fault of pbclient")
            return Failure(str(error), advice, DAMAGED if error.is_damage else FAILED)
        if isinstance(error, Refused) and self.way:
            return Failure(f"the store's disk failed: {error}", "look at the server's log and at the store's disk, then run again")
        if isinstance(error, Refused) or error.status == DISK_FAULT:
            return store.why_ended(self.root, error)
        if error.status == ILLEGAL:
            return Failure(f"the program can't run here: {error}", "take a newer machine; give a virtual one the processor of its host")
        return Failure(f"the store ended: {error}", "run again; no finished snapshot was lost")


FAILURES = (Failure, Ended, NoProgram, Refused, OSError)

"""What is no store is refused before the program is started; what is done on a store that is in use, that can only be read, that is another
user's."""
import fcntl, os, signal, stat, subprocess, time, unittest

import stores
from pbclient import pipes, store

DAY = "2026-01-02T00:00:00Z"
NOBODY = 65534
# The commands on a store, with the words that they want.
LOOKS = [["snapshots"], ["check"], ["verify"], ["stats"]]
CHANGES = [["forget", "host/a/latest"], ["prune", "--all", "--keep-last", "1"], ["gc"]]


def put(*path):
    place = os.path.join(*path)
    os.makedirs(os.path.dirname(place), exist_ok=True)
    with open(place, "w") as out:
        out.write("x")


def tree(top):
    """Each path below a folder, with a file's bytes."""
    found = {}
    for at, folders, files in os.walk(top):
        found.update((os.path.join(at, it), None) for it in folders)
        for it in files:
            with open(os.path.join(at, it), "rb") as data:
                found[os.path.join(at, it)] = data.read()
    return found


class Waits(stores.WithStore):
    """Calls that wait for a store that is in use."""

    def setUp(self):
        super().setUp()
        self.make()

    def waiting(self):
        """A call that waits for the store, and the lock that it waits for."""
        lock = os.open(self.root, os.O_RDONLY)
        fcntl.flock(lock, fcntl.LOCK_EX)
        words = [stores.CLIENT, "-r", self.root, "--wait", "300", "-q", "snapshots"]
        client = subprocess.Popen(words, stdout=subprocess.DEVNULL, stderr=subprocess.PIPE, preexec_fn=stores.heeds_interrupts)
        while not store.is_locked(os.path.join(self.root, store.CHUNKS)):
            time.sleep(0.1)
        return client, lock

    def test_waits(self):
        client, lock = self.waiting()
        os.close(lock)
        self.assertEqual((client.communicate()[1], client.returncode), (b"", 0))

    def test_many_calls_at_once_wait_for_each_other(self):
        words = [stores.CLIENT, "-r", self.root, "--wait", "300", "stats"]
        calls = [subprocess.Popen(words, stdout=subprocess.DEVNULL, stderr=subprocess.PIPE) for _ in range(8)]
        said = [it.communicate()[1] for it in calls]
        self.assertEqual([it.returncode for it in calls], [0] * 8, said)

    def test_signals(self):
        for number, status, word in [(signal.SIGINT, 130, b"interrupted"), (signal.SIGTERM, 143, b"terminated")]:
            client, lock = self.waiting()
            client.send_signal(number)
            said = client.communicate()[1]
            self.assertEqual((client.returncode, word in said), (status, True), said)
            os.close(lock)


class NoStore(stores.WithStore):
    """Folders that are no store."""

    def folder(self, *files, folders=()):
        for it in files:
            put(self.root, it)
        for it in folders:
            os.makedirs(os.path.join(self.root, it))

    def refused(self, said, *looser):
        """Each command refuses the folder, also as the store that a copy is made from, and leaves it as it was."""
        source = os.path.join(self.work, "source")
        self.make(source)
        before = tree(self.root)
        for words in [*LOOKS, *CHANGES, ["copy", "--from", source, "--all"]]:
            if words[0] not in looser:
                self.fails(10, said, *words)
        self.fails(10, said, "copy", "--from", self.root, "--all", root=os.path.join(self.work, "absent"))
        if "copy" not in looser:
            self.fails(10, said, "init")
        self.assertEqual(tree(self.root), before)
        self.assertFalse(os.path.lexists(os.path.join(self.work, "absent")))

    def test_a_home_with_machines(self):
        self.folder("draft.tmp", f"vm/a/{DAY}/disk.fidx", "vm/disk.qcow2", "vm/work/x.tmp")
        self.refused("other things")

    def test_a_folder_of_chunks_alone(self):
        self.folder("a.tmp", f"host/me/{DAY}/a.fidx", folders=[".chunks"])
        self.refused("no .chunks/book")

    def test_a_folder_in_place_of_the_book(self):
        self.folder("a.tmp", folders=[".chunks/book"])
        self.refused("no .chunks/book")

    def test_a_proxmox_datastore(self):
        self.folder(".lock", f"vm/100/{DAY}/drive-scsi0.img.fidx", f"vm/100/{DAY}/index.json.blob.tmp", folders=[".chunks/0000"])
        self.refused("Proxmox Backup datastore")

    def test_a_proxmox_datastore_by_owners(self):
        self.folder("vm/100/owner", f"vm/100/{DAY}/client.log.blob", folders=[".chunks"])
        self.refused("Proxmox Backup datastore")

    def test_a_proxmox_datastore_that_was_opened(self):
        self.folder(".lock", ".chunks/book", "host/a/owner", "a.tmp")
        self.refused("Proxmox Backup datastore")
        self.fails(10, "Proxmox", "--force", "snapshots")

    def test_a_proxmox_datastore_by_its_chunk_folders(self):
        self.folder("a.tmp", folders=[f".chunks/{it:04x}" for it in range(1 << 16)])
        self.fails(10, "Proxmox Backup datastore", "snapshots")
        self.fails(10, "Proxmox Backup datastore", "--force", "gc")

    def test_a_restic_repository(self):
        self.folder("config", "keys/1", "data/1", "a.tmp", folders=["snapshots", "locks"])
        self.refused("restic repository")

    def test_a_borg_repository(self):
        self.folder("README", "config", "data/0/1", "a.tmp")
        self.refused("borg repository")

    def test_an_empty_folder(self):
        self.folder(folders=["lost+found"])
        self.refused("is empty", "copy")

    def test_what_is_not_there(self):
        for words in [*LOOKS, *CHANGES]:
            self.fails(10, "ROOT is not there", *words)
        self.assertEqual(os.listdir(self.work), [])

    def test_a_store_among_other_things(self):
        self.make()
        put(self.root, "notes.tmp")
        put(self.root, "vm/disk.qcow2")
        self.refused("other things beside a store, as notes.tmp")
        self.done("--force", "snapshots")

    def test_a_file(self):
        put(self.root)
        for words in [*LOOKS, *CHANGES, ["init"]]:
            self.fails(10, "ROOT is no folder", *words)

    def test_a_store_whose_book_is_gone(self):
        self.make()
        os.remove(os.path.join(self.root, ".chunks", "book"))
        self.fails(10, "no .chunks/book", "snapshots")
        self.done("--force", "snapshots")
        self.done("snapshots")


class States(stores.WithStore):
    """A store that is in use, that can only be read, or that has something wrong in it."""

    def test_init(self):
        self.done("init")
        self.assertEqual(stat.S_IMODE(os.stat(self.root).st_mode), 0o700)
        self.assertEqual(self.done("snapshots"), "")
        self.fails(10, "has a store already", "init")

    def test_what_is_made_is_the_owners(self):
        source = os.path.join(self.work, "source")
        self.make(source)
        self.done("copy", "--from", source, "--all")
        for path in [self.root, *tree(self.root)]:
            self.assertEqual(stat.S_IMODE(os.stat(path).st_mode) & 0o77, 0, path)

    def test_in_use(self):
        self.make()
        folder = os.open(self.root, os.O_RDONLY)
        fcntl.flock(folder, fcntl.LOCK_EX)
        try:
            for words in [*LOOKS, *CHANGES]:
                self.fails(11, "in use by another run", *words)
            self.fails(11, "waited 0.5 s", "--wait", "0.5", "snapshots")
            self.fails(11, "in use", "copy", "--from", self.root, "--all", root=os.path.join(self.work, "copy"))
            self.assertFalse(os.path.lexists(os.path.join(self.work, "copy")))
        finally:
            os.close(folder)
        self.done("snapshots")

    @unittest.skipIf(os.getuid(), "this needs root, to become another user")
    def test_another_users(self):
        self.make()
        os.chmod(self.work, 0o755)
        become = {"become": lambda: os.setuid(NOBODY)}
        for words in [*LOOKS, *CHANGES]:
            self.fails(1, "may not be read: it is root's", *words, **become)
        for at, _, files in os.walk(self.root):
            os.chmod(at, 0o755)
            for it in files:
                os.chmod(os.path.join(at, it), 0o644)
        for words in LOOKS:
            self.done(*words, **become)
        for words in CHANGES:
            self.fails(1, "may not be written: it is root's", *words, **become)

    @unittest.skipIf(os.getuid(), "this needs root, to become another user")
    def test_what_root_made_in_another_users_store(self):
        self.make()
        os.chmod(self.work, 0o755)
        subprocess.run(["chown", "-R", str(NOBODY), self.root], check=True)
        become = {"become": lambda: os.setuid(NOBODY)}
        self.done("gc", **become)
        found = self.call("gc")
        self.assertEqual((found[0], "ROOT is nobody's, who can't read what root makes" in found[2]), (0, True), found)
        os.chown(os.path.join(self.root, ".chunks", "book"), NOBODY, NOBODY)
        os.chown(os.path.join(self.root, "vm"), 0, 0)
        os.chmod(os.path.join(self.root, "vm"), 0o700)
        self.fails(1, "ROOT/vm may not be read or written: it is root's", "gc", **become)
        self.assertNotIn("nobody's", self.call("snapshots")[2])

    def test_a_processor_that_is_too_old(self):
        self.make()
        program = os.path.join(self.work, "program")
        with open(program, "w") as out:
            out.write("#!/bin/sh\nkill -ILL $$\n")
        os.chmod(program, 0o755)
        self.fails(1, "this processor is older than the program needs", "--program", program, "snapshots")

    @unittest.skipIf(os.getuid(), "this needs root, to become another user")
    def test_at_the_top_of_a_file_system(self):
        lost, become = os.path.join(self.root, "lost+found"), {"become": lambda: os.setuid(NOBODY)}
        os.makedirs(lost, 0o700)
        os.chmod(self.work, 0o755)
        os.chown(self.root, NOBODY, NOBODY)
        self.fails(1, "ROOT/lost+found may not be read or written: it is root's", "init", **become)
        self.assertIn("chown nobody ROOT/lost+found", self.call("init", **become)[2])
        os.chown(lost, NOBODY, NOBODY)
        self.done("init", **become)

    @unittest.skipIf(os.getuid(), "this needs root, to mount")
    def test_mounted_read_only(self):
        self.make()
        if subprocess.run(["mount", "--bind", self.root, self.root], stderr=subprocess.DEVNULL).returncode:
            self.skipTest("nothing can be mounted here")
        self.addCleanup(subprocess.run, ["umount", self.root])
        subprocess.run(["mount", "-o", "remount,bind,ro", self.root], check=True)
        for words in LOOKS:
            self.done(*words)
        for words in CHANGES:
            self.fails(1, "mounted read-only", *words)
        self.done("copy", "--from", self.root, "--all", root=os.path.join(self.work, "copy"))

    @unittest.skipIf(os.getuid(), "this needs root, to mount")
    def test_full(self):
        os.mkdir(self.root)
        if subprocess.run(["mount", "-t", "tmpfs", "-o", "size=4m,mode=700", "tmpfs", self.root], stderr=subprocess.DEVNULL).returncode:
            self.skipTest("nothing can be mounted here")
        self.addCleanup(subprocess.run, ["umount", self.root])
        self.make()
        with open(os.path.join(self.root, ".chunks", "filling"), "wb", buffering=0) as out:
            with self.assertRaises(OSError):
                while True:
                    out.write(bytes(4096))
        for words in LOOKS:
            self.done(*words)
        source = os.path.join(self.work, "source")
        self.make(source, {"host/new/2020-01-01T00:00:00Z": [bytes(100_000)]})
        self.fails(12, "disk full", "copy", "--from", source, "--all")

    def test_a_named_pipe_below_it(self):
        self.make()
        os.mkfifo(os.path.join(self.root, "host", "pipe"))
        for words in [*LOOKS, *CHANGES]:
            self.fails(1, "ROOT/host/pipe is a link, a named pipe", *words)

    def test_a_book_ahead_of_the_clock(self):
        self.make()
        path = os.path.join(self.root, ".chunks", "book")
        ahead = int(time.time()) + 8 * 86400
        with open(path, "wb") as out:
            out.write(stores.s.book_of([], ahead, 0))
        for words in (["gc"], ["check"]):
            found = self.call(*words)
            self.assertEqual(found[0], 0, found)
            self.assertIn("ahead of the clock", found[2])
            self.assertIn("remove ROOT/.chunks/book", found[2])
        os.remove(path)
        self.assertNotIn("ahead of the clock", self.call("--force", "gc")[2])

    def test_a_snapshot_of_the_future(self):
        self.make(snapshots={"host/a/2200-01-01T00:00:00Z": [b"x"]})
        self.assertIn("is of the future", self.call("check")[2])
        self.assertIn("in the future", self.done("snapshots"))

    def test_an_unfinished_snapshot_on_a_store_that_can_only_be_read(self):
        if os.getuid():
            self.skipTest("this needs root, to become another user")
        self.make()
        put(self.root, "host/a", DAY, "root.didx")
        os.chmod(self.work, 0o755)
        subprocess.run(["chmod", "-R", "go+rX", self.root], check=True)
        self.fails(1, "has unfinished work", "snapshots", become=lambda: os.setuid(NOBODY))
        self.done("snapshots")
        self.fails(1, "ROOT/.chunks/book may not be read or written", "snapshots", become=lambda: os.setuid(NOBODY))


class Ends(stores.WithStore):
    """How a call ends from outside."""

    def test_no_program(self):
        self.make()
        self.fails(1, "is no program", "--program", "/nowhere/pbstore", "snapshots")

    def test_no_proc(self):
        self.make()
        self.fails(1, "/proc is not mounted", "snapshots", become=lambda: setattr(pipes, "DESCRIPTORS", "/nowhere"))

    def test_no_standard_input(self):
        self.make()
        for words in (["snapshots"], ["forget", "host/a/latest"], ["prune", "--all", "--keep-last", "1"]):
            found = subprocess.run([stores.CLIENT, "-r", self.root, *words], preexec_fn=lambda: os.close(0), stdout=subprocess.PIPE, stderr=subprocess.PIPE)
            self.assertEqual(found.returncode, 0, found)

    def test_a_log(self):
        self.make()
        log = os.path.join(self.work, "log")
        self.done("--log", log, "-q", "prune", "--all", "--keep-last", "1")
        self.fails(1, "has no snapshot", "--log", log, "check", "host/x")
        with open(log) as it:
            lines = [line.split(" ", 1)[1].rstrip() for line in it]
        self.assertEqual((len(lines), lines[4]), (6, "pbclient: host/x has no snapshot"), lines)
        self.fails(1, "Not a directory", "--log", os.path.join(log, "x"), "check")

    def test_a_full_output(self):
        self.make()
        with open("/dev/full", "wb") as full:
            found = subprocess.run([stores.CLIENT, "-r", self.root, "snapshots"], stdout=full, stderr=subprocess.PIPE)
        self.assertEqual((found.returncode, b"standard output: No space left" in found.stderr), (1, True), found)

    def test_no_reader(self):
        self.make()
        reader, writer = os.pipe()
        os.close(reader)
        found = subprocess.run([stores.CLIENT, "-r", self.root, "snapshots"], stdout=writer, stderr=subprocess.PIPE)
        os.close(writer)
        self.assertEqual((found.returncode, b"standard output: Broken pipe" in found.stderr), (1, True), found)


if __name__ == "__main__":
    unittest.main()

"""Damage ends where it is found: it is told with what it hurts, and the next backup sends what is missing again."""
import os, random, signal, subprocess, time, unittest

import stores
from stores import FIRST, NAME, OTHER, SECOND, THIRD

MIB = 1 << 20


def write(path, data):
    os.makedirs(os.path.dirname(path), exist_ok=True)
    with open(path, "wb") as out:
        out.write(data)


def read(path):
    with open(path, "rb") as it:
        return it.read()


def change(path):
    """Changes the last byte of a file."""
    data = bytearray(read(path))
    data[-1] ^= 1
    write(path, data)


class Told(stores.WithStore):
    """What each command says of damage, over a store of four snapshots."""

    def setUp(self):
        super().setUp()
        self.make()

    def lines(self, *words, status=13):
        return self.done(*words, status=status).splitlines()

    def test_a_changed_byte(self):
        change(self.chunk(b"three"))
        name = stores.digest(b"three").hex()
        self.assertIn("nothing is damaged", self.done("check"))
        hurts = [f"chunk {name} is damaged; it hurts", f"    {SECOND}/{NAME}", f"    {THIRD}/{NAME}"]
        ends = ": 0 files and 1 chunk damaged, in 2 snapshots"
        self.assertEqual(self.lines("check", "--read-data"), [*hurts, f"4 snapshots, 5 chunks read{ends}"])
        self.assertEqual(self.lines("verify"), [*hurts, f"4 snapshots, 9 pieces, 34 bytes in them{ends}"])
        self.assertIn("nothing is damaged", self.done("verify", FIRST, OTHER))
        self.assertEqual(read(os.path.join(self.root, "damaged-chunks")).decode(), f"{name}\n")

    def test_all_chunks_of_an_archive(self):
        for piece in (b"one", b"three", b"four"):
            change(self.chunk(piece))
        found = [it["chunk"] for it in self.objects("verify", THIRD, status=13) if it["message_type"] == "damaged_chunk"]
        self.assertEqual(sorted(found), sorted(stores.digest(it).hex() for it in (b"one", b"three", b"four")))

    def test_a_missing_chunk(self):
        os.remove(self.chunk(b"one"))
        for words in (["check"], ["check", "--read-data"], ["verify"]):
            found = self.lines(*words)
            self.assertEqual(found[:5], [f"chunk {stores.digest(b'one').hex()} is missing; it hurts", *(f"    {it}/{NAME}" for it in (FIRST, SECOND, THIRD, OTHER))])

    def test_a_short_chunk(self):
        write(self.chunk(b"four"), read(self.chunk(b"four"))[:-1])
        self.assertIn("is damaged; it hurts", self.lines("check")[0])

    def test_a_missing_index(self):
        os.remove(os.path.join(self.root, SECOND, NAME))
        self.assertIn(f"{SECOND}: {SECOND}/{NAME} is missing", self.lines("check")[0])
        self.assertIn(f"{SECOND}: {SECOND}/{NAME} is missing", self.lines("verify")[0])
        self.assertEqual([it.split()[-1] for it in self.lines("snapshots")], [NAME, "damaged", NAME, NAME])
        found = self.call("gc")
        self.assertEqual((found[0], f"pbclient forget {SECOND} gives it up" in found[2]), (13, True), found)
        self.done("forget", SECOND)
        self.done("gc")
        self.assertIn("nothing is damaged", self.done("verify"))

    def test_a_damaged_index(self):
        change(os.path.join(self.root, THIRD, NAME))
        self.assertEqual(self.lines("verify")[0], f"{THIRD}/{NAME}: is missing or cannot be read")
        self.assertIn(f"{THIRD}/{NAME}: ", self.lines("check")[0])
        self.assertEqual(self.call("gc")[0], 13)

    def test_a_copy_of_what_is_damaged(self):
        os.remove(self.chunk(b"three"))
        copy = os.path.join(self.work, "copy")
        found = self.call("copy", "--from", self.root, "--all", root=copy)
        self.assertEqual((found[0], found[1].splitlines()), (13, [f"{FIRST}  copied", f"{OTHER}  copied"]), found)
        self.assertIn(f"host/a: the chunk {stores.digest(b'three').hex()} is damaged", found[2])
        self.assertIn("nothing is damaged", self.done("verify", root=copy))

    def test_a_damaged_manifest(self):
        change(os.path.join(self.root, FIRST, "index.json.blob"))
        for words in (["check"], ["verify"], ["snapshots"]):
            self.lines(*words)
        self.done("forget", FIRST)
        self.assertIn("nothing is damaged", self.done("check"))


class Mended(stores.WithStore):
    """A backup sends damaged chunks again, and all snapshots are whole."""

    def setUp(self):
        super().setUp()
        self.source = os.path.join(self.work, "source")
        self.done("init")
        write(os.path.join(self.source, "data"), random.Random(1).getrandbits(8 * 5 * MIB).to_bytes(5 * MIB, "little"))
        self.done("backup", "host/me", self.source)
        self.done("backup", "host/me", self.source)
        top = os.path.join(self.root, ".chunks")
        paths = [os.path.join(at, it) for at, _, files in os.walk(top) for it in files if len(it) == 64]
        self.largest = max(paths, key=os.path.getsize)

    def whole(self):
        self.assertIn("nothing is damaged", self.done("verify"))
        self.assertFalse(os.path.lexists(os.path.join(self.root, "damaged-chunks")))

    def test_a_missing_chunk(self):
        os.remove(self.largest)
        self.done("backup", "host/me", self.source)
        self.whole()

    def test_a_damaged_chunk(self):
        good = read(self.largest)
        for number in range(2):
            change(self.largest)
            bad = read(self.largest)
            self.done("verify", "host/me/latest", status=13)
            self.done("backup", "host/me", self.source)
            self.assertEqual((read(self.largest), read(f"{self.largest}.{number}.bad")), (good, bad))
            self.whole()

    def test_a_damaged_chunk_that_is_gone_from_the_source(self):
        change(self.largest)
        self.done("check", "--read-data", status=13)
        write(os.path.join(self.source, "data"), b"another")
        self.done("backup", "host/me", self.source)
        self.assertEqual(self.done("check", status=13).count("is missing"), 1)

    def test_a_resend(self):
        os.remove(self.largest)
        self.done("backup", "--resend", "host/other", self.source)
        self.whole()


class Killed(stores.WithStore):
    """A client or a program that is killed leaves nothing to clean up."""

    def setUp(self):
        super().setUp()
        self.make()
        self.places = os.path.join(self.work, "tmp")
        os.mkdir(self.places)

    def program_of(self, client):
        """The process of a client's program, once it is started."""
        for _ in range(300_000):
            with open(f"/proc/{client.pid}/task/{client.pid}/children") as it:
                found = it.read().split()
            if found:
                return int(found[0])
            time.sleep(0.001)
        self.fail("it does not begin")

    def started(self):
        """A backup of standard input under way, some of which is stored, and its program's process."""
        # (the program of a client that was interrupted may still end)
        words = [stores.CLIENT, "-r", self.root, "--wait", "60", "backup", "host/me", "--stdin", "data"]
        more = {"env": {**os.environ, "TMPDIR": self.places}, "stdin": subprocess.PIPE, "stdout": subprocess.PIPE, "stderr": subprocess.PIPE}
        more["preexec_fn"] = stores.heeds_interrupts
        client, before = subprocess.Popen(words, **more), self.count()
        self.addCleanup(client.stdin.close)
        client.stdin.write(random.Random(2).getrandbits(8 * 10 * MIB).to_bytes(10 * MIB, "little"))
        client.stdin.flush()
        for _ in range(3000):
            if self.count() > before:
                return client, self.program_of(client)
            time.sleep(0.1)
        self.fail("it does not begin")

    def count(self):
        """How many files the store's chunks have."""
        return sum(len(files) for _, _, files in os.walk(os.path.join(self.root, ".chunks")))

    def after(self):
        """The next call of each kind is done."""
        self.assertEqual(len(self.objects("--wait", "120", "snapshots")), 4)
        write(os.path.join(self.work, "source", "data"), bytes(MIB))
        self.done("backup", "host/me", os.path.join(self.work, "source"))
        self.assertIn("nothing is damaged", self.done("verify"))

    def ended(self, client, status):
        """A client that ends so says it in two lines, and leaves nothing outside the store."""
        said = client.communicate()[1].decode()
        self.assertEqual((client.returncode, len(said.splitlines())), (status, 2), said)
        self.assertEqual(os.listdir(self.places), [])

    def test_the_program(self):
        client, program = self.started()
        os.kill(program, signal.SIGKILL)
        self.ended(client, 1)
        self.after()

    def test_the_client(self):
        client, _ = self.started()
        client.kill()
        client.communicate()
        self.assertEqual(os.listdir(self.places), [])
        self.after()

    def test_the_client_while_the_program_opens_the_store(self):
        for seconds in (0, 0, 0.01, 0.02):
            client = subprocess.Popen([stores.CLIENT, "-r", self.root, "--wait", "120", "snapshots"], stdout=subprocess.DEVNULL, stderr=subprocess.DEVNULL)
            self.program_of(client)
            time.sleep(seconds)
            client.kill()
            client.wait()
        self.after()

    def test_an_interrupt(self):
        for number, status in [(signal.SIGINT, 130), (signal.SIGTERM, 143)]:
            client, _ = self.started()
            client.send_signal(number)
            self.ended(client, status)
        self.after()


if __name__ == "__main__":
    unittest.main()

"""Each command of the client by a server, beside the real program."""
import filecmp, json, os, signal, subprocess, sys, time, unittest

from harness import CLIENT, Server, noise, program, wait_until

PBCLIENT = os.path.join(CLIENT, "bin", "pbclient")
NO_SERVER, MISTYPED, IN_USE, DAMAGED = 1, 2, 11, 13


def write(path, data):
    os.makedirs(os.path.dirname(path), exist_ok=True)
    with open(path, "wb") as out:
        out.write(data)


class Served(unittest.TestCase):
    options = []

    def setUp(self):
        # (where clients look for the socket of a folder)
        self.server = Server(program(), "--linger", "0.5", *self.options, is_started=False)
        self.addCleanup(self.server.close)
        self.runtime, self.work = os.path.join(self.server.work, "runtime"), self.server.work
        os.makedirs(os.path.join(self.runtime, "pbstore"))
        self.server.socket = os.path.join(self.runtime, "pbstore", "main.sock")
        self.server.start()
        self.address = f"unix:{self.server.socket}"

    def run_client(self, *words, at=None):
        words = [sys.executable, "-B", PBCLIENT, "-r", at or self.address, *words]
        return subprocess.run(words, capture_output=True, text=True, env={**os.environ, "XDG_RUNTIME_DIR": self.runtime})

    def done(self, *words, status=0, at=None):
        found = self.run_client(*words, at=at)
        self.assertEqual(found.returncode, status, (words, found.stdout, found.stderr))
        return found.stdout

    def fails(self, status, said, *words, at=None):
        found = self.run_client(*words, at=at)
        self.assertEqual((found.returncode, said in found.stderr), (status, True), (words, found.stdout, found.stderr))

    def objects(self, *words, at=None):
        """What is told with --json, but for why it had to wait."""
        told = map(json.loads, self.done("--json", *words, at=at).splitlines())
        return [it for it in told if it["message_type"] != "waiting"]

    def tree(self, name, count=20):
        top = os.path.join(self.work, name)
        for number in range(count):
            write(os.path.join(top, f"{number % 3}", f"file {number}"), noise(f"{name} {number}", 30_000))
        return top

    def same(self, one, other):
        found = filecmp.dircmp(one, other)
        self.assertEqual((found.left_only, found.right_only, found.diff_files, found.funny_files), ([], [], [], []))
        for name in found.common_dirs:
            self.same(os.path.join(one, name), os.path.join(other, name))


class Commands(Served):
    def test_backups_and_restores(self):
        web, db, back = self.tree("web"), self.tree("db"), os.path.join(self.work, "back")
        self.done("backup", "host/web", web, "and", "host/db", db)
        listed = self.objects("snapshots")
        self.assertEqual(sorted(it["snapshot"].rpartition("/")[0] for it in listed), ["host/db", "host/web"])
        for name, top in (("web", web), ("db", db)):
            self.done("restore", f"host/{name}/latest", "--target", back)
            self.same(top, os.path.join(back, os.path.relpath(top, "/")))

    def test_what_is_there(self):
        web = self.tree("web")
        self.done("backup", "host/web", web)
        write(os.path.join(web, "0", "new"), b"new")
        time.sleep(1)
        self.done("backup", "host/web", web)
        first, last = sorted(it["snapshot"] for it in self.objects("snapshots"))
        self.assertIn("new", self.done("diff", first, last))
        self.assertIn("file 3", self.done("find", last, "file 3"))
        path = self.objects("find", last, "new")[0]["path"]
        self.assertEqual((self.done("dump", last, path), self.objects("ls", last, path)[0]["size"]), ("new", 3))
        self.assertEqual(self.objects("stats")[0]["snapshots"], 2)

    def test_what_keeps_it(self):
        web = self.tree("web")
        for at in ("2026-01-01T00:00:00Z", "2026-01-02T00:00:00Z", "2026-01-03T00:00:00Z"):
            self.done("backup", "host/web", web, "--time", at)
        self.done("verify")
        marks = {it["snapshot"][-20:]: it["mark"] for it in self.objects("prune", "--all", "--keep-last", "2") if it["message_type"] == "prune"}
        self.assertEqual(sorted(marks.values()), ["kept", "kept", "removed"])
        self.done("forget", "host/web/2026-01-02T00:00:00Z")
        self.assertEqual(self.objects("gc")[-1]["removed"], 0)
        self.assertEqual([it["snapshot"] for it in self.objects("snapshots")], ["host/web/2026-01-03T00:00:00Z"])

    def test_the_night(self):
        plan = os.path.join(self.work, "night.conf")
        text = f"[store]\nroot = {self.address}\n[backup host/web]\npath = {self.tree('web')}\n[prune]\nall = yes\nkeep-last = 3\n[gc]\n[verify]\n"
        write(plan, text.encode())
        words = [sys.executable, "-B", PBCLIENT, "--json", "run-config", plan]
        found = subprocess.run(words, capture_output=True, text=True)
        self.assertEqual(found.returncode, 0, (found.stdout, found.stderr))
        self.assertEqual(json.loads(found.stdout.splitlines()[-1])["commands"], 4)

    def test_what_a_server_cannot_do(self):
        self.done("backup", "host/web", self.tree("web"))
        self.fails(1, "check looks into the store's folder", "check")
        self.fails(MISTYPED, "a server copies from the store that it was given", "copy", "--from", self.work, "host/web")
        self.fails(MISTYPED, "does not tell which groups", "copy", "--all")
        self.fails(MISTYPED, "--reserve looks at the store's disk", "backup", "host/web", self.work, "--reserve", "1G")
        self.fails(1, "NoRemote", "copy", "host/web")
        self.fails(10, "has a store already", "init")


class Copies(Served):
    def setUp(self):
        self.other = Server(program(), is_started=False)
        self.addCleanup(self.other.close)
        self.options = ["--remote", self.other.root]
        super().setUp()

    def test_a_copy(self):
        self.done("backup", "host/web", self.tree("web"), at=self.other.root)
        self.assertIn("copied", self.done("copy", "host/web"))
        # (after a copy the other store is in use until the server's program ends)
        self.assertEqual(self.objects("snapshots"), self.objects("--wait", "60", "snapshots", at=self.other.root))
        self.done("verify")


class Folders(Served):
    def test_a_folder_goes_to_its_server(self):
        self.done("backup", "host/web", self.tree("web"), at=self.server.root)
        wait_until(lambda: "lane 0" in self.server.said())
        self.done("check", "--read-data", at=self.server.root)
        self.assertGreater(self.objects("gc", at=self.server.root)[-1]["size"], 0)
        self.assertEqual(self.server.stop(), 0)
        # (and without one the program is started)
        self.assertEqual(len(self.objects("snapshots", at=self.server.root)), 1)

    def test_addresses(self):
        self.fails(NO_SERVER, "it does not answer", "snapshots", at=f"{self.address}x")
        self.fails(MISTYPED, "is no address of a store", "snapshots", at="ssh://a/b/c")
        self.fails(NO_SERVER, "no server has", "status", at=self.work)
        self.assertEqual(self.objects("status")[0]["state"], "closed, no client is there")

    def test_a_server_that_comes_later(self):
        self.server.stop()
        words = [sys.executable, "-B", PBCLIENT, "-q", "-r", self.address, "--wait", "120", "backup", "host/web", self.tree("web")]
        with subprocess.Popen(words) as client:
            time.sleep(1)
            self.server.start()
            self.assertEqual(client.wait(120), 0)

    def test_a_server_that_ends_within_a_backup(self):
        self.server.stop()
        self.server.options += ["--grace", "0"]
        for sign, status in ((signal.SIGTERM, 0), (signal.SIGKILL, -signal.SIGKILL)):
            self.server.start()
            words = [sys.executable, "-B", PBCLIENT, "-r", self.address, "backup", "host/web", "--stdin", "data"]
            with self.subTest(sign), subprocess.Popen(words, stdin=subprocess.PIPE, stderr=subprocess.PIPE) as client:
                client.stdin.write(noise(1, 8 << 20))
                client.stdin.flush()
                wait_until(lambda: self.server.status()[1:-1])
                self.assertEqual(self.server.stop(sign), status)
                said = client.communicate()[1].decode()
                self.assertEqual((client.returncode, "the server ended the session" in said), (1, True), said)
        self.server.start()
        self.assertEqual(self.objects("snapshots"), [])


class Damage(Served):
    def test_a_damaged_chunk_is_sent_again(self):
        """A verify tells the server, which sets the chunk aside as it opens the store; the next backup sends it."""
        web = self.tree("web")
        self.done("backup", "host/web", web)
        wait_until(lambda: not self.server.programs())
        chunk = self.break_chunk()
        self.assertIn(os.path.basename(chunk), self.done("verify", status=DAMAGED))
        wait_until(lambda: not self.server.programs())
        time.sleep(1)
        self.done("backup", "host/web", web)
        self.done("verify", "host/web/latest")
        self.assertTrue(os.path.exists(f"{chunk}.0.bad"))
        # (the snapshot before has the chunk too)
        self.done("verify")

    def test_a_store_that_cannot_be_written(self):
        """What a verify finds is told, though it cannot be noted; and the store is served with a damaged chunk that is noted."""
        self.done("backup", "host/web", self.tree("web"))
        wait_until(lambda: not self.server.programs())
        self.break_chunk()
        note = os.path.join(self.server.root, "damaged-chunks")
        # (a folder in the file's place: nothing can be noted, nor be read of what is)
        os.mkdir(f"{note}.new")
        found = self.run_client("verify")
        self.assertEqual((found.returncode, "can't be noted" in found.stderr), (DAMAGED, True), found.stderr)
        os.rmdir(f"{note}.new")
        self.done("verify", status=DAMAGED)
        wait_until(lambda: not self.server.programs())
        os.mkdir(f"{note}.new")
        self.assertEqual(len(self.objects("snapshots")), 1)
        self.assertIn("damaged chunks stay where they are", self.server.said())

    def break_chunk(self):
        """Changes a byte of the largest chunk's file."""
        found = [os.path.join(at, name) for at, _, names in os.walk(os.path.join(self.server.root, ".chunks")) for name in names if len(name) == 64]
        largest = max(found, key=os.path.getsize)
        os.chmod(largest, 0o600)
        with open(largest, "r+b") as out:
            out.seek(100)
            byte = out.read(1)[0]
            out.seek(100)
            out.write(bytes([byte ^ 1]))
        return largest


if __name__ == "__main__":
    unittest.main()

"""A night for real on one machine: a server under an account of its own, eight users who come by ssh with a key and a forced command each.

    cd tests/served && python3 -B -m unittest night

Wants root, Debian's openssh-server, and port 2222 of the loopback; it makes two accounts and takes them away. No part of the gate. Some two
minutes.
"""
import os, pwd, shutil, signal, subprocess, sys, tempfile, threading, time, unittest

from harness import CLIENT, noise, program, s, wait_until
from pbclient.served import dial

PBCLIENT = os.path.join(CLIENT, "bin", "pbclient")
PYTHON = "/usr/bin/python3"
SERVER, KEEPER, PORT = "pbstore-trial", "backup-trial", 2222
USERS = [f"web{it}" for it in range(8)]
SIZE = 24 << 20


def make_account(name, *more):
    # (no password is its password: sshd lets nobody into an account that is locked)
    subprocess.run(["useradd", "--system", "--password", "*", "--shell", "/bin/sh", "--create-home", "--home-dir", f"/var/lib/{name}", *more, name], check=True)


def drop_account(name):
    subprocess.run(["userdel", "--remove", name], stderr=subprocess.DEVNULL)


class Place:
    """Accounts, keys, an sshd and a server, and what goes when it ends."""

    def __init__(self):
        self.work = tempfile.mkdtemp(prefix="night-")
        os.chmod(self.work, 0o755)
        self.socket, self.root = os.path.join(self.work, "run", "main.sock"), os.path.join(self.work, "store")
        self.sshd = self.server = None

    def path(self, *names):
        return os.path.join(self.work, *names)

    def begin(self):
        make_account(SERVER)
        make_account(KEEPER)
        subprocess.run(["usermod", "--append", "--groups", KEEPER, SERVER], check=True)
        for name in ("run", "store"):
            os.mkdir(self.path(name), 0o755 if name == "run" else 0o700)
            shutil.chown(self.path(name), SERVER, SERVER)
        self.start_server()
        self.start_sshd()

    def start_server(self):
        self.log = open(self.path("log"), "a")
        run = ["setpriv", f"--reuid={SERVER}", f"--regid={SERVER}", "--init-groups", PYTHON, "-B", PBCLIENT, "--program", program()]
        subprocess.run([*run, "-r", self.root, "init"], check=True, stdout=subprocess.DEVNULL)
        serve = ["serve", self.root, "--name", "main", "--socket", self.socket, "--group", KEEPER, "--trust", KEEPER, "--idle", "15"]
        self.server = subprocess.Popen([*run, *serve], stderr=self.log)
        wait_until(lambda: os.path.exists(self.socket))

    def start_sshd(self):
        lines = []
        for name in ["host", *USERS]:
            subprocess.run(["ssh-keygen", "-q", "-t", "ed25519", "-N", "", "-f", self.path(name)], check=True)
        for name in USERS:
            with open(self.path(f"{name}.pub")) as key:
                lines.append(f'command="{PYTHON} -B {PBCLIENT} connect {self.socket} --user {name}",restrict {key.read()}')
        with open(self.path("keys"), "w") as out:
            out.writelines(lines)
        os.makedirs("/run/sshd", exist_ok=True)
        options = {
            "Port": PORT, "ListenAddress": "127.0.0.1", "HostKey": self.path("host"), "AuthorizedKeysFile": self.path("keys"), "StrictModes": "no",
            "UsePAM": "no", "PidFile": "none", "MaxStartups": "100", "Subsystem": "sftp internal-sftp",
        }
        self.sshd = subprocess.Popen(["/usr/sbin/sshd", "-D", "-e", "-f", "/dev/null", *(f"-o{name}={it}" for name, it in options.items())], stderr=self.log)
        wait_until(lambda: subprocess.run(["ssh-keyscan", "-p", str(PORT), "127.0.0.1"], capture_output=True).stdout)

    def ssh(self, user):
        """The words of ssh for a user's key."""
        known = ["-o", f"UserKnownHostsFile={self.path('known')}", "-o", "StrictHostKeyChecking=accept-new"]
        return ["ssh", "-T", "-p", str(PORT), "-i", self.path(user), "-o", "IdentitiesOnly=yes", "-o", "BatchMode=yes", "-o", "LogLevel=ERROR", *known]

    def client(self, user, *words):
        """A call of the client for a user, by ssh, under way."""
        call = [PYTHON, "-B", PBCLIENT, "-r", f"ssh://{KEEPER}@127.0.0.1/main", *words]
        env = {**os.environ, "PBSTORE_SSH": " ".join(self.ssh(user))}
        return subprocess.Popen(call, env=env, stdout=subprocess.PIPE, stderr=subprocess.PIPE, stdin=subprocess.PIPE, text=True)

    def here(self, *words):
        """A call of the client of this machine."""
        return subprocess.run([PYTHON, "-B", PBCLIENT, "-r", f"unix:{self.socket}", *words], capture_output=True, text=True)

    def end(self):
        for it in (self.server, self.sshd):
            if it:
                it.send_signal(signal.SIGTERM)
                it.wait(60)
        self.log.close()
        for name in (SERVER, KEEPER):
            drop_account(name)
        shutil.rmtree(self.work, ignore_errors=True)


@unittest.skipUnless(os.geteuid() == 0 and os.path.exists("/usr/sbin/sshd"), "it wants root and an sshd")
class Night(unittest.TestCase):
    @classmethod
    def setUpClass(cls):
        cls.place = Place()
        cls.addClassCleanup(cls.place.end)
        cls.place.begin()

    def setUp(self):
        self.addCleanup(lambda: wait_until(lambda: len(self.place.here("status").stdout.splitlines()) == 2, 60))

    def done(self, client, status=0):
        out, said = client.communicate(timeout=120)
        self.assertEqual(client.returncode, status, said)
        return out

    def tree(self, user):
        top = self.place.path("trees", user)
        os.makedirs(top, exist_ok=True)
        for number in range(12):
            with open(os.path.join(top, f"file {number}"), "wb") as out:
                out.write(noise(f"{user} {number}", SIZE // 12))
        return top

    def test_a_night(self):
        trees, over = {it: self.tree(it) for it in USERS}, threading.Event()
        beside = []

        def keep():
            while not over.is_set():
                beside.append([self.place.here(it).returncode for it in ("gc", "verify", "snapshots")])

        keeper = threading.Thread(target=keep)
        keeper.start()
        began = time.monotonic()
        backups = [self.place.client(it, "backup", f"host/{it}", top) for it, top in trees.items()]
        cut, hung = self.begin("web0", "host/cut"), self.begin("web1", "host/hung")
        cut.program.kill()
        hung.program.send_signal(signal.SIGSTOP)
        for it in backups:
            self.done(it)
        seconds = time.monotonic() - began
        over.set()
        keeper.join()
        print(f"  eight backups of {SIZE >> 20} MiB at once in {seconds:.1f} s, {len(beside)} rounds beside them", file=sys.stderr)
        self.assertEqual({status for round in beside for status in round}, {0})
        self.look_restored(trees)
        hung.program.send_signal(signal.SIGCONT)
        self.assertIn(b"nothing was sent for 15 s", hung.read(100))
        hung.close()
        groups = {it.split("/")[1] for it in self.place.here("snapshots").stdout.splitlines() if it.startswith("host/")}
        self.assertEqual(groups, set(USERS))

    def begin(self, user, group):
        """A backup that is left open, as soon as its writer is."""
        os.environ["PBSTORE_SSH"] = " ".join(self.place.ssh(user))
        way = dial.way_to(f"ssh://{KEEPER}@127.0.0.1/main")
        stream, _ = dial.begin(way)
        stream.write(s.frame(s.open_writer(f"{group}/2026-01-01T00:00:00Z")) + s.frame(s.chunk(b"abc")))
        self.assertEqual(stream.read(11), s.frames(s.base(), s.done()))
        return stream

    def look_restored(self, trees):
        restores = [self.place.client(it, "restore", f"host/{it}/latest", "--target", self.place.path("back", it)) for it in USERS]
        for it in restores:
            self.done(it)
        for user, top in trees.items():
            found = subprocess.run(["diff", "-r", top, self.place.path("back", user) + top], capture_output=True)
            self.assertEqual((found.returncode, found.stdout), (0, b""))

    def told(self, user, *words, sent=b"", ssh=()):
        """What a command by ssh is told."""
        found = subprocess.run([*self.place.ssh(user), *ssh, f"{KEEPER}@127.0.0.1", *words], input=sent, capture_output=True, timeout=60)
        return found.stdout

    def test_one_speaks_for_nobody_else(self):
        bye, before = s.frame(s.bye()), self.said()
        self.assertTrue(self.told("web2", sent=b"user web3\npbstore 1 main\n" + bye).startswith(b"no line"))
        self.assertIn(b"ready", self.told("web2", sent=b"pbstore 1 main\n" + bye))
        wait_until(lambda: self.said().count("web2: lane") == before.count("web2: lane") + 1)
        self.assertEqual(self.said().count("web3: lane"), before.count("web3: lane"))

    def said(self):
        with open(self.place.path("log")) as log:
            return log.read()

    def test_no_shell_no_file_no_other_store(self):
        for words in (["id"], ["sh", "-c", "id"], [f"{PYTHON} -B {PBCLIENT} connect {self.place.socket} --user root"], ["cat", "/etc/passwd"]):
            self.assertEqual(self.told("web2", *words, sent=b"pbstore 1 other\n"), b"no store this is the store main\n")
        sftp = subprocess.run(["sftp", *self.place.ssh("web2")[4:], "-P", str(PORT), f"{KEEPER}@127.0.0.1"], input=b"ls /\n", capture_output=True, timeout=60)
        self.assertNotEqual(sftp.returncode, 0)
        self.assertNotIn(b"etc", sftp.stdout)
        forward = subprocess.run([*self.place.ssh("web2"), "-o", "ExitOnForwardFailure=yes", "-W", "127.0.0.1:22", f"{KEEPER}@127.0.0.1"], capture_output=True, timeout=60)
        self.assertNotEqual(forward.returncode, 0)

    def test_who_has_no_key_or_no_group(self):
        subprocess.run(["ssh-keygen", "-q", "-t", "ed25519", "-N", "", "-f", self.place.path("other")], check=True)
        self.assertEqual(self.told("other", sent=b"pbstore 1 main\n"), b"")
        nobody = pwd.getpwnam("nobody").pw_uid
        found = subprocess.run(
            ["setpriv", f"--reuid={nobody}", "--clear-groups", PYTHON, "-B", PBCLIENT, "-r", f"unix:{self.place.socket}", "snapshots"],
            capture_output=True, text=True)
        self.assertEqual((found.returncode, "may not use its socket" in found.stderr), (1, True), found.stderr)

    def test_the_server_stops_and_comes_again(self):
        client = self.place.client("web3", "backup", "host/late", "--stdin", "data")
        client.stdin.write("x" * (1 << 20))
        client.stdin.flush()
        self.place.server.send_signal(signal.SIGHUP)
        client.stdin.close()
        client.stdin = None
        self.done(client)
        self.assertIn("host/late", self.place.here("snapshots").stdout)


if __name__ == "__main__":
    unittest.main()

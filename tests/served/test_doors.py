"""Who comes in: the first lines, accounts, addresses, and the command `connect`, beside a program that stands in."""
import os, subprocess, sys, time, unittest
from unittest import mock

from harness import CLIENT, HELLO, STAND_IN, Server, s, wait_until
from pbclient.served import dial, sockets

BYE = s.frame(s.bye())
PBCLIENT = os.path.join(CLIENT, "bin", "pbclient")


class Served(unittest.TestCase):
    options, patch = [], ""

    def setUp(self):
        self.server = Server(STAND_IN, "--linger", "1000", *self.options, patch=self.patch)
        self.addCleanup(self.server.close)


class FirstLines(Served):
    patch = "limits.HELLO = 3"

    def test_each(self):
        for sent, told in (
            (HELLO + BYE, "ready 0"),
            (b"pbstore 1 main\n" + BYE, "ready"),
            (b"pbstore 2 -\n", "no version this server speaks version 1"),
            (b"pbstore 1 other\n", "no store this is the store main"),
            (b"GET / HTTP/1.1\n", "no line"),
            (b"user web1\nuser web2\n", "no line"),
            (b"user ../x\n" + HELLO, "no user that is no user's name"),
            (b"x" * 600, "no line a line of more than 512 bytes"),
            (b"pbstore", "no line the first lines did not come in 3 s"),
        ):
            with self.subTest(sent=sent):
                self.assertEqual(self.server.first(sent)[: len(told)], told)

    def test_slow_lines(self):
        """A byte now and then does not hold a connection for long."""
        began = time.monotonic()
        with self.server.connect() as peer:
            peer.setblocking(False)
            while time.monotonic() < began + 60:
                try:
                    peer.send(b"x")
                    time.sleep(0.1)
                except OSError:
                    break
        self.assertLess(time.monotonic() - began, 50)

    def test_frames_right_after_the_lines(self):
        with self.server.connect() as peer:
            peer.sendall(HELLO + s.frame(s.list_after()) + BYE)
            found = peer.makefile("rb").read()
        self.assertTrue(found.endswith(b"ready 0\n" + s.frames(s.rows(), s.done())), found)


class Connect(Served):
    options = ["--grace", "1"]

    def setUp(self):
        super().setUp()
        # (so that nobody waits, and the first lane is free)
        self.server.client().stream.close()
        self.server.await_free()

    def pbclient(self, *words, sent=b""):
        done = subprocess.run([sys.executable, "-B", PBCLIENT, *words], input=sent, capture_output=True)
        first, _, rest = done.stdout.partition(b"\n")
        return first.decode(), rest, done.returncode

    def test_a_session(self):
        sent = HELLO + s.frame(s.list_after()) + BYE
        self.assertEqual(self.pbclient("connect", self.server.socket, "--user", "web1", sent=sent), ("ready 0", s.frames(s.rows(), s.done()), 0))
        wait_until(lambda: "web1: lane 0" in self.server.said())

    def test_who_is_named_cannot_be_another(self):
        told, _, _ = self.pbclient("connect", self.server.socket, "--user", "web1", sent=b"user root\n" + HELLO)
        self.assertEqual(told[:7], "no line")
        told, _, _ = self.pbclient("connect", self.server.socket, sent=b"user root\n" + HELLO)
        self.assertEqual(told[:7], "no line")

    def test_no_server(self):
        found = self.pbclient("connect", self.server.socket + "x", sent=HELLO)
        self.assertEqual((found[0], found[2]), ("no server it does not answer: No such file or directory", 1))

    def test_the_server_ends(self):
        words = [sys.executable, "-B", PBCLIENT, "connect", self.server.socket]
        # (the client keeps its side open)
        with subprocess.Popen(words, stdin=subprocess.PIPE, stdout=subprocess.PIPE) as it:
            it.stdin.write(HELLO)
            it.stdin.flush()
            it.stdout.readline()
            self.server.stop()
            it.wait(120)


class Addresses(Served):
    def test_a_folder_leads_to_its_server(self):
        link = os.path.join(self.server.work, "another-name")
        os.symlink(self.server.root, link)
        with mock.patch.object(sockets, "folders", lambda: [self.server.work]):
            stream, lane = dial.begin(dial.way_to(link))
            stream.write(s.frame(s.list_after()))
            self.assertEqual((lane, stream.read(7)), (0, s.frame(s.rows())))
            stream.close()
            self.assertIsNone(dial.way_to(self.server.work))

    def test_the_words_of_ssh(self):
        for address, words, name in (
            ("ssh://backup@vault/main", "backup@vault pbclient connect main", "main"),
            ("ssh://vault", "vault pbclient connect -", "-"),
            ("ssh://backup@vault:2222/a.b", "-p 2222 backup@vault pbclient connect a.b", "a.b"),
        ):
            with mock.patch.object(dial, "over_program", lambda found: found):
                way = dial.way_to(address)
                self.assertEqual((" ".join(it for it in way.open()[len(dial.SSH) :] if it != "--"), way.name), (words, name))

    def test_addresses_that_are_none(self):
        for address in ("ssh://-oProxyCommand=x/main", "ssh://vault/a b", "ssh://vault/../x", "ssh://vault:x/main", "ssh:///main"):
            with self.subTest(address), self.assertRaises(ValueError):
                dial.way_to(address)

    def test_a_second_server(self):
        for root, at in ((self.server.root, self.server.socket + "2"), (None, self.server.socket)):
            other = Server(STAND_IN, root=root, socket=at)
            self.addCleanup(other.close)
            self.assertEqual(other.process.wait(), 11)
        self.assertEqual(self.server.first(HELLO + BYE), "ready 0")

    def test_what_is_no_socket(self):
        other = Server(STAND_IN, is_started=False)
        self.addCleanup(other.close)
        with open(other.socket, "w"):
            pass
        other.start()
        self.assertEqual((other.process.wait(), os.path.isfile(other.socket)), (11, True))

    def test_what_is_no_store(self):
        other = Server(STAND_IN, is_started=False)
        self.addCleanup(other.close)
        os.unlink(os.path.join(other.root, ".chunks", "book"))
        other.start()
        self.assertEqual((other.process.wait(), os.path.exists(other.socket)), (10, False))


@unittest.skipIf(os.geteuid(), "only root can be another account")
class Accounts(Served):
    options = ["--mode", "666", "--trust", "2"]

    def first(self, uid, *lines):
        """What an account is told first."""
        os.chmod(self.server.work, 0o755)
        talk = f"import os, socket; os.setuid({uid}); s = socket.socket(socket.AF_UNIX); s.connect({self.server.socket!r}); s.sendall({b''.join(lines)!r})\n"
        talk += "print(*[it for it in s.makefile() if not it.startswith('wait')][:1])"
        return subprocess.run([sys.executable, "-c", talk], capture_output=True, text=True).stdout.strip()

    def test_who_may_name_a_user(self):
        self.assertEqual(self.first(65534, HELLO, BYE), "ready 0")
        self.assertEqual(self.first(65534, b"user nobody\n", HELLO, BYE)[:5], "ready")
        self.assertEqual(self.first(65534, b"user web1\n", HELLO, BYE)[:7], "no user")
        self.assertEqual(self.first(65534, b"status 1 -\n")[:7], "no user")
        self.assertEqual(self.first(2, b"user web1\n", HELLO, BYE)[:5], "ready")
        wait_until(lambda: "web1: lane" in self.server.said())
        self.assertIn("nobody: lane", self.server.said())

    def test_who_may_connect(self):
        server = Server(STAND_IN, "--group", "2")
        self.addCleanup(server.close)
        found = os.stat(server.socket)
        self.assertEqual((found.st_mode & 0o777, found.st_gid), (0o660, 2))


if __name__ == "__main__":
    unittest.main()

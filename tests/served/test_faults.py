"""Kills under load, and the disk's faults, beside the real program. The disk's want root, for mount. KILLS is how often a kill comes."""
import os, random, signal, socket, subprocess, sys, time, unittest

from harness import HELLO, Server, await_ended, is_running, make_store, noise, program, s, snapshot, wait_until
from inputs import reader, writer
from load import Load
from pbclient.served.hello import Refused

KILLS = int(os.environ.get("KILLS", "4"))
LIST = s.list_after()
# So many backups at least are finished before a look.
FINISHED = 10


class Loaded(unittest.TestCase):
    def setUp(self):
        self.server = Server(program(), "--linger", "1000")
        self.addCleanup(self.server.close)
        self.load = Load(self.server)
        self.addCleanup(self.load.stop)

    def pause(self, number):
        time.sleep(0.5 + random.Random(number).random())

    def look(self):
        # (a busy machine is slow)
        wait_until(lambda: len(self.load.done) > FINISHED, 120)
        self.load.stop()
        if KILLS > 4:
            print(f"{self.id()}: {len(self.load.done)} finished, {len(self.load.unsure)} unanswered, {self.load.endings}", file=sys.stderr)
        self.load.look_at_all(self)
        self.assertEqual(self.server.stop(), 0)


class Kills(Loaded):
    def test_the_program_is_killed(self):
        self.load.start()
        for number in range(KILLS):
            self.pause(number)
            wait_until(self.server.programs)
            self.server.kill_programs()
        self.pause(KILLS)
        self.assertIsNone(self.server.process.poll())
        self.look()

    def test_the_server_is_killed(self):
        self.load.start()
        for number in range(KILLS):
            self.pause(number)
            programs = self.server.programs()
            self.server.stop(signal.SIGKILL)
            # (at once: the new server waits for the old one's program)
            self.server.start()
            await_ended(programs)
        self.pause(KILLS)
        self.look()

    def test_it_is_renewed_and_stopped(self):
        self.load.start()
        for number in range(KILLS // 2):
            self.pause(number)
            self.server.process.send_signal(signal.SIGHUP)
        self.pause(KILLS)
        programs = self.server.programs()
        self.assertEqual(self.server.stop(), 0)
        self.assertFalse(any(map(is_running, programs)))
        self.load.stop()
        self.server.start()
        self.look()


@unittest.skipIf(os.geteuid(), "only root can mount")
class Disks(unittest.TestCase):
    def setUp(self):
        self.server = Server(program(), "--linger", "1000", is_started=False)
        self.root = self.server.root
        self.addCleanup(self.server.close)
        try:
            subprocess.run(["mount", "-t", "tmpfs", "-o", "size=16m", "none", self.root], check=True, stderr=subprocess.DEVNULL)
        except subprocess.CalledProcessError:
            self.skipTest("mount is not allowed here")
        self.addCleanup(subprocess.run, ["umount", self.root], check=True)
        self.addCleanup(self.server.end)
        make_store(self.root)
        self.server.start()

    def mount(self, option):
        subprocess.run(["mount", "-o", f"remount,{option}", self.root], check=True)

    def finish(self, name, *pieces):
        with self.server.client() as it:
            for body in writer(name, *pieces):
                self.assertEqual(it.ask(body)[0], 0)

    def fill(self, it, group):
        """A backup that the disk has no room for; what it ended with."""
        it.ask(s.open_writer(snapshot(group, 1)))
        for number in range(40):
            reply = it.ask(s.chunk(noise(f"{group} {number}", 1 << 20)))
            if reply[0]:
                return reply

    def test_it_is_full(self):
        self.finish(snapshot("host/kept", 1), b"abc")
        with self.server.client() as one, self.server.client() as two:
            two.ask(s.open_writer(snapshot("host/b", 1)))
            self.assertEqual(self.fill(one, "host/a"), s.disk_fault())
            self.assertEqual((two.ask(s.chunk(b"x"))[0], two.ask(LIST)[0]), (27, 27))
            self.look_not_lent()
            for it in (one, two):
                self.assertEqual(it.ask(s.bye()), s.done())
        # The folder is opened again, full as it is; what was there is there, and what needs no room goes on.
        with self.server.client() as it:
            self.assertEqual(it.ask(LIST), s.rows((snapshot("host/kept", 1), 2)))
            self.assertEqual([it.ask(body)[0] for body in reader(snapshot("host/kept", 1), 2)], [0] * 5)
        for number in range(2):
            with self.server.client() as it:
                self.assertEqual(self.fill(it, f"host/c{number}"), s.disk_fault())
        self.mount("size=64m")
        self.finish(snapshot("host/a", 2), noise(1, 1 << 20))
        with self.server.client() as it:
            self.assertEqual(it.ask(s.verify(snapshot("host/kept", 1)))[-1:], b"\0")
            self.assertEqual(it.ask(s.gc())[0], 0)

    def look_not_lent(self):
        """A new client gets no lane of the run whose disk failed."""
        with self.server.connect() as peer:
            peer.settimeout(1)
            peer.sendall(HELLO)
            with self.assertRaises(socket.timeout):
                while True:
                    self.assertNotIn(b"ready", peer.recv(200))

    def test_it_is_full_under_load(self):
        load = Load(self.server)
        load.start()
        try:
            wait_until(lambda: load.endings.get("reply 26", 0) >= 2, 120)
        finally:
            load.stop()
        self.mount("size=200m")
        load.look_at_all(self)

    def test_it_is_read_only(self):
        name = snapshot("host/a", 1)
        self.finish(name, b"abc", b"de")
        # (the run has to end: the system makes a mount read-only if nothing is open for writing)
        self.assertEqual(self.server.stop(), 0)
        self.mount("ro")
        self.server.start()
        for number in range(2):
            with self.server.client() as it:
                self.assertEqual(it.ask(LIST), s.rows((name, 2)))
                self.assertEqual([it.ask(body)[0] for body in reader(name, 3)], [0] * 5)
                self.assertEqual(it.ask(s.close_reader()), s.done())
                self.assertEqual(it.ask(s.verify(name))[-1:], b"\0")
                self.assertEqual(it.ask(s.open_writer(snapshot("host/a", 2)))[0], 0)
                self.assertEqual(it.ask(s.chunk(noise(number, 100))), s.disk_fault())
                self.assertEqual(it.ask(LIST)[0], 27)
        self.assertEqual(self.server.stop(), 0)
        self.assertIn("its disk failed", self.server.said())
        self.mount("rw")
        self.server.start()
        self.finish(snapshot("host/a", 2), b"abc", b"de")

    def test_it_is_read_only_with_unfinished_work(self):
        path = os.path.join(self.root, ".chunks", "x.tmp")
        with open(path, "w"):
            pass
        self.mount("ro")
        self.assertFalse(self.is_open())
        self.assertIn("the store could not be opened", self.server.said())
        self.mount("rw")
        wait_until(self.is_open)
        self.assertFalse(os.path.exists(path))

    def test_a_link_in_it(self):
        link = os.path.join(self.root, "link")
        os.symlink("/", link)
        self.assertFalse(self.is_open())
        os.unlink(link)
        wait_until(self.is_open)

    def is_open(self):
        try:
            with self.server.client() as it:
                return it.ask(LIST) == s.rows()
        except Refused as refused:
            self.assertEqual(refused.cause, "opening")
            return False


if __name__ == "__main__":
    unittest.main()

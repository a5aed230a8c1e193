"""The server beside the real program: what is finished, held, stopped and owed."""
import os, resource, signal, struct, threading, time, unittest

from harness import Server, at_once, await_ended, noise, program, s, snapshot, wait_until
from inputs import writer

LIST = s.list_after()
# A backup's commands up to its FINISH.
BEGUN = writer(snapshot("host/a", 1), b"abc")[:-1]
# What has a server killed so long after it started its program, whose process it tells first.
KILLED = """
import os, time
from pbclient.served import runs

def killed(run):
    with open({told!r}, "w") as out:
        out.write(str(run.program.pid))
    time.sleep({seconds})
    os.kill(os.getpid(), 9)

runs.Run.open = killed
"""


class Served(unittest.TestCase):
    def serve(self, *options, **more):
        server = Server(program(), *options, **more)
        self.addCleanup(server.close)
        return server

    def ask(self, server, *bodies):
        with server.client() as it:
            return [it.ask(body) for body in bodies][-1]

    def begin(self, client):
        for body in BEGUN:
            self.assertEqual(client.ask(body)[0], 0)

    def saved(self, server):
        """How many chunks the book of touches has."""
        with open(os.path.join(server.root, ".chunks", "book"), "rb") as book:
            return struct.unpack("<Q", book.read()[16:24])[0]


class Ends(Served):
    def test_a_client_that_is_gone_leaves_no_snapshot(self):
        server = self.serve("--linger", "1000")
        with server.client() as it:
            self.begin(it)
        wait_until(lambda: self.ask(server, s.open_writer(snapshot("host/a", 1)))[0] == 0)
        self.assertEqual(self.ask(server, LIST), s.rows())

    def test_a_killed_server_finishes_nothing(self):
        server = self.serve("--linger", "1000")
        with server.client() as it:
            self.begin(it)
            programs = server.programs()
            server.stop(signal.SIGKILL)
        await_ended(programs)
        self.assertEqual(self.saved(server), 1)
        server.start()
        self.assertEqual(self.ask(server, LIST), s.rows())

    def test_it_is_killed_while_replies_are_owed(self):
        server = self.serve("--linger", "1000")
        with server.client() as it, server.client() as other:
            self.begin(other)
            programs = server.programs()
            it.send(*[LIST] * 20_000, s.gc())
            server.stop(signal.SIGKILL)
        await_ended(programs)
        # (it ended by itself, and not by SIGPIPE)
        self.assertEqual(self.saved(server), 1)
        server.start()
        self.assertEqual(self.ask(server, LIST), s.rows())

    def test_it_is_killed_while_the_program_opens_the_store(self):
        """The program ends, however far it came, and does not keep the next one out."""
        for seconds in (0, 0.02, 0.1, 1):
            server = self.serve(is_started=False)
            told = os.path.join(server.work, "program")
            server.patch = KILLED.format(told=told, seconds=seconds)
            server.start()
            with self.subTest(seconds), self.assertRaises(Exception):
                server.client()
            self.assertEqual(server.process.wait(), -9)
            server.patch = ""
            server.start()
            self.assertEqual(self.ask(server, LIST), s.rows())
            with open(told) as it:
                await_ended([int(it.read())])

    def test_a_stop_saves_the_book(self):
        server = self.serve("--linger", "1000", "--grace", "1")
        with server.client() as it:
            self.begin(it)
            server.process.send_signal(signal.SIGTERM)
            self.assertEqual(it.body(), b"\xffthe server was stopped")
        self.assertEqual(server.process.wait(), 0)
        self.assertEqual(self.saved(server), 1)
        self.assertFalse(os.path.exists(os.path.join(server.root, snapshot("host/a", 1), "a.didx")))

    def test_a_run_is_renewed_at_its_age(self):
        server = self.serve("--linger", "1000", patch="limits.RUN_COMMANDS = 100")
        with server.client() as it:
            for _ in range(101):
                self.assertEqual(it.ask(LIST), s.rows())
            before = server.programs()
        wait_until(lambda: server.programs() != before)
        self.assertEqual(self.ask(server, LIST), s.rows())
        self.assertNotEqual(server.programs(), before)


class Together(Served):
    def test_sixty_four_backups(self):
        server, found = self.serve("--linger", "1000"), [None] * 64

        def serve(number):
            with server.client() as it:
                found[number] = [it.ask(body)[0] for body in writer(snapshot(f"host/{number}", 1), b"abc", noise(number, 200_000))]

        at_once(64, serve)
        self.assertEqual(found, [[0] * 8] * 64)
        self.assertEqual(self.ask(server, LIST), s.rows(*sorted((snapshot(f"host/{it}", 1), 2) for it in range(64))))

    def test_a_collection_beside_a_backup(self):
        server = self.serve()
        with server.client() as one, server.client() as two:
            one.send(*writer(snapshot("host/a", 1), b"abc", b"de"))
            self.assertEqual(two.ask(s.gc())[0], 0)
            self.assertEqual([one.body()[0] for _ in range(8)], [0] * 8)

    def test_a_slow_client_holds_no_other(self):
        server, piece = self.serve(), noise(1, 4 << 20)
        with server.client() as slow, server.client() as fast:
            for body in writer(snapshot("host/a", 1), piece):
                fast.ask(body)
            self.assertEqual(slow.ask(s.open_reader(snapshot("host/a", 1))), s.done())
            slow.send(s.download("a.didx"), *[s.range_of("a.didx", 0, 4 << 20)] * 8)
            time.sleep(0.5)
            self.assertEqual([fast.ask(LIST)[0] for _ in range(100)], [0] * 100)
            slow.body()
            for _ in range(8):
                self.assertEqual(slow.body(), s.rest(piece))

    def test_a_sync_from_a_store_that_has_a_server_too(self):
        """Each keeps the other out while it has that store, and comes again."""
        other, row = self.serve("--linger", "0.5"), (snapshot("host/a", 1), 2)
        self.ask(other, *writer(row[0], b"abc", b"de"))
        server, told, came = self.serve("--remote", other.root, "--linger", "0.5"), [], []
        wait_until(lambda: not other.programs())
        with server.client() as it:
            self.assertEqual(it.ask(s.sync("host/a")), s.keys(row[0]))
            self.assertEqual(it.ask(s.verify(row[0])), s.verified(2, 2, 5))
            coming = threading.Thread(target=lambda: came.append(other.client(told.append)))
            coming.start()
            wait_until(lambda: "another program has the store" in told)
        coming.join()
        with came[0] as it:
            self.assertEqual(it.ask(LIST), s.rows(row))
            self.assertEqual(self.ask(server, s.sync("host/a")), s.refused(30))


class Memory(Served):
    """The running program may have no more memory than it has, and a little."""

    def limit(self, of, size):
        resource.prlimit(of, resource.RLIMIT_DATA, (size, resource.RLIM_INFINITY))

    def data_of(self, of):
        with open(f"/proc/{of}/status") as file:
            return next(int(it.split()[1]) * 1024 for it in file if it.startswith("VmData"))

    def test_memory_is_wanting(self):
        server = self.serve("--linger", "1000", patch="limits.ALIVE = 2")
        with server.client() as one, server.client() as two, server.client() as small:
            for number, it in enumerate((one, two, small)):
                self.assertEqual(it.ask(s.open_writer(snapshot(f"host/{number}", 1)))[0], 0)
            running = server.programs()[0]
            self.limit(running, self.data_of(running) + (4 << 20))
            # By its length the frame is answered, and its lane has ended. The others go on.
            one.send(s.chunk(noise(1, 16 << 20)))
            self.assertEqual(one.body(), s.no_memory())
            self.assertEqual(two.ask(s.chunk(b"abc")), s.done())
            self.assertEqual(((one.body() or b"")[:1], one.body()), (b"\xff", None))
            self.assertEqual(small.ask(s.chunk(b"de")), s.done())
            self.limit(running, resource.RLIM_INFINITY)
            self.assertEqual(two.ask(s.chunk(noise(1, 16 << 20))), s.done())
        wait_until(lambda: server.status() == ["open, 1 lanes used up", "0 wait"])
        # (its writer went with its lane)
        self.assertEqual(self.ask(server, s.open_writer(snapshot("host/0", 1))), s.base())


if __name__ == "__main__":
    unittest.main()

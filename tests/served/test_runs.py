"""How a run of the program begins and ends, and how the server stops, beside a program that stands in."""
import fcntl, os, signal, threading, unittest

from harness import HELLO, STAND_IN, Server, at_once, s, wait_until
from pbclient.served import hello

LIST, OPENED, NOTHING = s.list_after(), s.base(), s.rows()


def opened(group):
    return s.open_writer(f"host/{group}/2026-01-01T00:00:00Z")


class Served(unittest.TestCase):
    options = []

    def setUp(self):
        self.server = self.serve(*self.options)

    def serve(self, *options):
        server = Server(STAND_IN, *options)
        self.addCleanup(server.close)
        return server

    def look_stopped(self):
        """The server has ended, and the program by itself before it."""
        self.assertEqual(self.server.process.wait(), 0)
        self.assertTrue(os.path.exists(os.path.join(self.server.root, ".chunks", "ended")))
        self.assertEqual([it for it in os.listdir(self.server.work) if it not in ("root", "log")], [])


class Stops(Served):
    options = ["--lanes", "2", "--linger", "1000", "--grace", "5"]

    def term(self):
        self.server.process.send_signal(signal.SIGTERM)

    def test_without_a_client(self):
        self.term()
        self.assertEqual(self.server.process.wait(), 0)

    def test_at_rest(self):
        with self.server.client() as it:
            it.ask(LIST)
            it.ask(s.bye())
        self.term()
        self.look_stopped()

    def test_sessions_have_their_grace(self):
        with self.server.client() as one, self.server.client() as two:
            one.ask(opened("a"))
            two.ask(opened("b"))
            self.term()
            wait_until(lambda: not self.server.answers())
            self.assertEqual(one.ask(s.finish()), s.done())
            self.assertEqual(two.body(), b"\xffthe server was stopped")
        self.look_stopped()

    def test_a_job_is_waited_for_beyond_the_grace(self):
        self.server = self.serve("--linger", "1000", "--grace", "0")
        self.server.hold()
        with self.server.client() as it:
            it.send(s.gc())
            self.server.await_commands(1)
            self.term()
            threading.Timer(1, self.server.let_go).start()
            self.assertEqual(it.body(), bytes(41))
        self.look_stopped()

    def test_a_program_that_does_not_end_is_killed(self):
        server = self.serve("--linger", "1000", "--grace", "0", "--stop-limit", "1")
        server.hold()
        with server.client() as it:
            it.send(s.gc())
            server.await_commands(1)
            self.assertEqual(server.stop(), 0)
            self.assertEqual(it.body()[0], 255)
        self.assertIn("its book is not saved", server.said())

    def test_who_waits_is_refused(self):
        with self.server.client() as one, self.server.client():
            refused = []

            def wait():
                try:
                    self.server.client()
                except hello.Refused as cause:
                    refused.append(cause.cause)

            late = threading.Thread(target=wait)
            late.start()
            wait_until(lambda: self.server.status()[-1] == "1 wait")
            self.term()
            late.join()
            self.assertEqual(refused, ["stopping"])
            self.assertEqual(one.ask(s.bye()), s.done())

    def test_a_killed_server_ends_the_program(self):
        with self.server.client() as it:
            it.ask(opened("a"))
            self.server.stop(signal.SIGKILL)
            wait_until(lambda: os.path.exists(os.path.join(self.server.root, ".chunks", "ended")))
            self.assertEqual(it.rest(), b"")
        self.server.start()
        with self.server.client() as it:
            self.assertEqual(it.ask(opened("a")), OPENED)


class Renewals(Served):
    options = ["--lanes", "2", "--linger", "1000"]

    def test_a_hangup_opens_the_store_anew_when_no_session_is_open(self):
        told, first = [], self.server.client()
        first.ask(opened("a"))
        program = self.server.programs()
        self.server.process.send_signal(signal.SIGHUP)
        wait_until(lambda: self.server.first(b"status 1 -\n"))
        other = threading.Thread(target=self.look_other, args=(program, told))
        other.start()
        wait_until(lambda: "the store is opened anew once 1 sessions have ended" in told)
        first.ask(s.bye())
        first.stream.close()
        other.join()
        self.assertIn("served", told)

    def look_other(self, program, told):
        with self.server.client(told.append) as other:
            self.assertNotEqual(self.server.programs(), program)
            self.assertEqual(other.ask(LIST), NOTHING)
            told.append("served")

    def test_who_uses_lanes_up_is_refused(self):
        server = self.serve("--linger", "1000")
        with server.client() as other:
            for _ in range(3):
                with server.client() as it:
                    it.stream.write(s.frame(b""))
                    self.assertEqual(it.rest(), s.frame(s.bad_frame(0)))
            with self.assertRaises(hello.Refused) as refused:
                server.client()
            self.assertEqual(refused.exception.cause, "broken")
            self.assertEqual(other.ask(s.bye()), s.done())
        server.await_free()
        with server.client() as it:
            self.assertEqual(it.ask(LIST), NOTHING)


class Openings(Served):
    options = ["--linger", "0.5"]

    def test_the_program_runs_only_while_it_is_needed(self):
        with self.server.client() as it:
            it.ask(LIST)
            self.assertEqual(len(self.server.programs()), 1)
        wait_until(lambda: not self.server.programs())
        with self.server.client() as it:
            self.assertEqual(it.ask(LIST), NOTHING)

    def test_another_program_has_the_store(self):
        folder, told = os.open(self.server.root, os.O_RDONLY), []
        fcntl.flock(folder, fcntl.LOCK_EX)

        def come():
            with self.server.client(told.append) as it:
                told.append(it.ask(LIST))

        client = threading.Thread(target=come)
        client.start()
        wait_until(lambda: "another program has the store" in told)
        os.close(folder)
        client.join()
        self.assertEqual(told[-1], NOTHING)

    def test_a_store_that_is_not_there_any_more(self):
        book = os.path.join(self.server.root, ".chunks", "book")
        os.rename(book, book + ".kept")
        with self.assertRaises(hello.Refused) as refused:
            self.server.client()
        self.assertEqual(refused.exception.cause, "opening")
        self.assertFalse(os.path.exists(os.path.join(self.server.root, ".chunks", "ended")))
        os.rename(book + ".kept", book)
        wait_until(self.is_served)

    def is_served(self):
        try:
            with self.server.client() as it:
                return it.ask(LIST) == NOTHING
        except hello.Refused:
            return False

    def test_a_program_that_is_none(self):
        server = Server("/bin/false")
        self.addCleanup(server.close)
        with self.assertRaises(hello.Refused) as refused:
            server.client()
        self.assertEqual((refused.exception.cause, str(refused.exception)), ("opening", "the store could not be opened: the program ended with status 1"))


class Many(Served):
    options = ["--linger", "1000"]

    def test_sixty_four_at_once_and_more_wait(self):
        clients = [self.server.client() for _ in range(64)]
        self.assertEqual({it.lane for it in clients}, set(range(64)))
        told = []
        late = threading.Thread(target=lambda: self.server.client(told.append).stream.close())
        late.start()
        wait_until(lambda: told == ["all lanes are in use"])
        for it in clients:
            self.assertEqual(it.ask(LIST), NOTHING)
        clients[5].stream.close()
        late.join()
        for it in clients:
            it.stream.close()

    def test_a_thousand_one_after_another(self):
        for _ in range(1000):
            with self.server.client() as it:
                it.ask(opened("a"))
        self.server.await_free()
        self.assertEqual(len(self.server.programs()), 1)
        # (two pipes a lane, and some)
        wait_until(lambda: len(os.listdir(f"/proc/{self.server.process.pid}/fd")) < 160)

    def test_a_thousand_by_twenty(self):
        wrong = []

        def serve(number):
            for _ in range(50):
                with self.server.client() as it:
                    if (it.ask(opened(number)), it.ask(s.bye())) != (OPENED, s.done()):
                        wrong.append(number)

        at_once(20, serve)
        self.assertEqual(wrong, [])
        self.assertEqual(len(self.server.programs()), 1)


class Order(Served):
    options = ["--lanes", "1", "--linger", "1000"]

    def test_who_waits_comes_in_order(self):
        order, first, threads = [], self.server.client(), []

        def wait(number):
            with self.server.client() as it:
                order.append(number)
                it.ask(s.bye())

        for number in range(3):
            threads.append(threading.Thread(target=wait, args=(number,)))
            threads[-1].start()
            wait_until(lambda: self.server.status()[-1] == f"{number + 1} wait")
        first.stream.close()
        for it in threads:
            it.join()
        self.assertEqual(order, [0, 1, 2])

    def test_who_goes_while_waiting_is_forgotten(self):
        with self.server.client(), self.server.connect() as peer:
            peer.sendall(HELLO)
            wait_until(lambda: self.server.status()[-1] == "1 wait")
            peer.close()
            wait_until(lambda: self.server.status()[-1] == "0 wait")


if __name__ == "__main__":
    unittest.main()

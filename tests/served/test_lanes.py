"""A client on a lane, beside a program that stands in: each end of a session, faults, and limits."""
import contextlib, socket, threading, time, unittest

from harness import HELLO, STAND_IN, Server, s, wait_until

OPENED, NOTHING, PART = s.base(), s.rows(), 1 << 18
LIST = s.list_after()


def opened(group):
    return s.open_writer(f"host/{group}/2026-01-01T00:00:00Z")


def piece(size):
    """A CHUNK of so many bytes with its code."""
    return bytes([s.CHUNK]) + bytes(size - 1)


class Served(unittest.TestCase):
    options, patch = [], ""

    def setUp(self):
        self.server = self.serve(*self.options)

    def serve(self, *options, patch=None):
        server = Server(STAND_IN, "--linger", "1000", *options, patch=self.patch if patch is None else patch)
        self.addCleanup(server.close)
        return server


class Ends(Served):
    """One lane serves one after another."""

    options = ["--lanes", "1"]

    def tearDown(self):
        self.server.await_free()
        self.assertEqual(len(self.server.programs()), 1)

    def test_a_writer_is_aborted(self):
        for number in range(20):
            with self.server.client() as it:
                self.assertEqual((it.lane, it.ask(opened("a"))), (0, OPENED), number)
                if number % 3 == 0:
                    self.assertEqual((it.ask(s.bye()), it.rest()), (s.done(), b""))
                elif number % 3 == 1:
                    it.stream.write(s.frame(piece(500))[:300])

    def test_a_reader_is_closed(self):
        with self.server.client() as it:
            self.assertEqual(it.ask(s.open_reader("a")), s.done())
        with self.server.client() as it:
            self.assertEqual(it.ask(s.abort()), s.wrong_state(0))

    def test_a_cut_frame_is_told_at_its_offset(self):
        for cut in (s.frame(s.finish())[:4], s.frame(s.finish())[:3], s.frame(piece(500))[:300]):
            with self.server.client() as it:
                told = it.exchange(s.frames(LIST, opened("a")) + cut)
                self.assertEqual(told, s.frames(NOTHING, OPENED, s.bad_frame(len(s.frames(LIST, opened("a"))))))

    def test_too_long_is_told_by_its_four_bytes(self):
        with self.server.client() as it:
            it.stream.write(s.frame(LIST) + s.u32(0xFFFFFFFF))
            self.assertEqual(it.rest(), s.frames(NOTHING, s.too_long(0xFFFFFFFF)))

    def test_nothing_after_bye_is_read(self):
        with self.server.client() as it:
            it.send(opened("a"), s.bye(), LIST)
            self.assertEqual(it.rest(), s.frames(OPENED, s.done()))

    def test_replies_that_nobody_takes_bring_the_lane_to_rest(self):
        with self.server.client() as it:
            it.send(opened("a"), *[LIST] * 10_000)
        with self.server.client() as it:
            self.assertEqual(it.ask(opened("a")), OPENED)

    def test_a_client_that_takes_no_replies(self):
        hung = self.server.connect()

        def send():
            with contextlib.suppress(OSError):
                hung.sendall(HELLO + s.frame(LIST) * 200_000)

        thread = threading.Thread(target=send)
        thread.start()
        time.sleep(0.5)
        self.assertTrue(thread.is_alive())
        hung.shutdown(socket.SHUT_RDWR)
        thread.join()
        hung.close()


class UsedUp(Served):
    options = ["--lanes", "1"]

    def test_a_frame_without_a_command_is_the_programs_to_tell(self):
        program = None
        for broken in (s.frame(b"\x63"), s.frame(b"")):
            with self.server.client() as it:
                it.stream.write(s.frame(LIST) + broken + s.frame(LIST))
                self.assertEqual(it.rest(), s.frames(NOTHING, s.bad_frame(len(s.frame(LIST)))))
            # (the lane is used up, and was the only one: the program is started anew)
            wait_until(lambda: self.server.programs() != program)
            with self.server.client() as it:
                self.assertEqual(it.ask(LIST), NOTHING)
            program = self.server.programs()

    def test_the_program_ends_with_its_last_lane(self):
        """What the client is told may be on its way as the program ends, or be told already."""
        slow = "import time; from pbclient.served import sessions; "
        for patch in (
            "rest = sessions.Session.rest; sessions.Session.rest = lambda it: (time.sleep(0.5), rest(it))",
            "reply = lanes.Lane.reply; lanes.Lane.reply = lambda *words, **more: (time.sleep(0.5), reply(*words, **more))",
        ):
            server = self.serve("--lanes", "1", patch=slow + patch)
            with self.subTest(patch), server.client() as it:
                it.stream.write(s.frame(b""))
                self.assertEqual(it.rest(), s.frame(s.bad_frame(0)))

    def test_a_session_that_is_too_long(self):
        server = self.serve("--lanes", "1", patch="limits.LANE_BYTES, limits.LANE_FULL = 5000, 100")
        with server.client() as it:
            self.assertEqual(it.ask(opened("a")), OPENED)
            self.assertEqual(it.ask(piece(4901)), s.done())
            self.assertEqual(it.ask(piece(201)), b"\xffthe session is too long")
        with server.client() as it:
            self.assertEqual(it.ask(opened("a")), OPENED)


class Faults(Served):
    options = ["--lanes", "2"]

    def test_the_program_is_killed(self):
        with self.server.client() as one, self.server.client() as two:
            one.ask(opened("a"))
            self.assertEqual(two.ask(opened("kill"))[0], 255)
            self.assertIsNone(two.body())
            self.assertEqual(one.body()[0], 255)
        with self.server.client() as it:
            self.assertEqual(it.ask(LIST), NOTHING)

    def test_it_is_killed_within_a_reply(self):
        with self.server.client() as it:
            it.send(opened("cut"))
            self.assertEqual(len(it.rest()), PART)

    def test_the_disk_fails(self):
        with self.server.client() as one, self.server.client() as two:
            self.assertEqual(two.ask(opened("disk")), s.disk_fault())
            self.assertEqual(one.ask(LIST)[0], 27)
            self.assertEqual(one.ask(s.bye()), s.done())
        with self.server.client() as it:
            self.assertEqual(it.ask(LIST), NOTHING)
        self.assertIn("its disk failed", self.server.said())

    def test_a_job_whose_client_went_holds_its_lane(self):
        self.server.hold()
        with self.server.client() as it:
            it.send(s.gc())
            self.server.await_commands(1)
        with self.server.client() as it:
            self.assertEqual(it.ask(LIST), NOTHING)
            self.assertEqual(len(self.server.status()), 4)
        self.server.let_go()
        self.server.await_free()


class Silence(Served):
    options = ["--lanes", "1", "--idle", "1"]
    left = s.frame(b"\xffnothing was sent for 1 s")

    def test_who_is_silent_is_left_and_told(self):
        for _ in range(2):
            self.assertEqual(self.server.told(s.frame(opened("a"))), s.frame(OPENED) + self.left)

    def test_a_long_job_is_no_silence(self):
        self.server.hold()
        threading.Timer(2, self.server.let_go).start()
        self.assertEqual(self.server.told(s.frame(s.gc())), s.frame(bytes(41)) + self.left)


class Memory(Served):
    """Memory is wanting, and the lane ends."""

    options, patch = ["--lanes", "2"], "limits.ALIVE = 1"

    def await_used_up(self, server, count):
        server.await_free()
        self.assertEqual(server.status()[0], f"open, {count} lanes used up")

    def test_it_ended_the_lane(self):
        for after in (piece(1 << 20), s.gc(), LIST):
            server = self.serve("--lanes", "2")
            with self.subTest(code=after[0]), server.client() as it:
                self.assertEqual(it.ask(opened("memory")), s.no_memory())
                it.send(after)
                self.assertEqual((it.body()[:1], it.body()), (b"\xff", None))
            self.await_used_up(server, 1)

    def test_it_ended_the_lane_before_a_job_that_was_sent_already(self):
        with self.server.client() as it:
            it.send(opened("memory"), s.gc())
            self.assertEqual(it.body(), s.no_memory())
            self.assertEqual((it.body()[:1], it.body()), (b"\xff", None))
        self.await_used_up(self.server, 1)

    def test_it_ended_the_lane_within_a_frame(self):
        """The program answers by the frame's length, and does not take the rest. Whether the pipe has room for it makes no difference."""
        for size in (1 << 17, PART - 1, PART, PART + 3, 4 << 20):
            server = self.serve("--lanes", "3")
            with self.subTest(size=size), server.client() as it:
                self.assertEqual(it.ask(opened("room")), OPENED)
                self.assertEqual(it.ask(piece(1 + size)), s.no_memory())
                # (it may be told before it sends)
                with contextlib.suppress(BrokenPipeError):
                    it.send(LIST)
                self.assertEqual((it.body()[:1], it.body()), (b"\xff", None))
            with self.subTest(size=size), server.client() as it:
                # (whose client went without another command)
                self.assertEqual(it.ask(opened("room")), OPENED)
                self.assertEqual(it.ask(piece(1 + size)), s.no_memory())
            self.await_used_up(server, 2)


class MemoryComesBack(Served):
    """Memory is wanting for one command, and the lane goes on."""

    def test_each_command(self):
        job = s.frames(opened("short"), s.gc())
        with self.server.client() as it:
            self.assertEqual((it.ask(opened("short")), it.ask(LIST)), (s.no_memory(), NOTHING))
            self.assertEqual(it.ask(s.gc()), bytes(41))
            # (a job at once: the server asks the lane before it, the client has no reply more, and BadFrame's offset is no other)
            it.stream.write(job)
            self.assertEqual((it.body(), it.body()), (s.no_memory(), bytes(41)))
            self.assertEqual(it.ask(LIST), NOTHING)
            it.stream.write(s.frame(b""))
            self.assertEqual(it.rest(), s.frame(s.bad_frame(2 * len(job + s.frame(LIST)))))


if __name__ == "__main__":
    unittest.main()

"""Who gets which lane, and when a run ends: the decisions alone, without a program or a client."""
import time, types, unittest

import harness
from pbclient.served import limits
from pbclient.served.hello import Refused
from pbclient.served.lending import ALL_LENT, Lending, Wait


def lane(number, taken=0, is_lent=False, is_used_up=False):
    found = types.SimpleNamespace(number=number, taken=taken, began=0, is_lent=is_lent, is_used_up=is_used_up)
    found.is_free = lambda: not found.is_lent and not found.is_used_up and found.taken < limits.LANE_FULL
    found.lend = lambda: setattr(found, "is_lent", True)
    return found


def run(*lanes, is_alive=True, is_halted=False, age=0):
    began = time.monotonic() - age
    return types.SimpleNamespace(lanes=list(lanes), is_alive=lambda: is_alive, is_halted=is_halted, used_up_by={}, began=began)


def session(of, lane, user="web1", is_at_rest=True, is_dead=False, count=5):
    return types.SimpleNamespace(run=of, lane=lane, user=user, is_at_rest=is_at_rest, is_dead=is_dead, count=count, began=time.monotonic(), offset=9)


class Lanes(unittest.TestCase):
    def setUp(self):
        self.lending = Lending()
        self.wait = Wait("web1")
        self.lending.waits.append(self.wait)

    def given(self, *lanes, **more):
        with self.lending.changed:
            self.lending.open(run(*lanes, **more))
            return self.lending.lane_for(self.wait)

    def test_the_free_lane_that_took_least(self):
        few = lane(1, taken=10)
        self.assertIs(self.given(lane(0, taken=20), few, lane(2, taken=5, is_lent=True), lane(3, is_used_up=True)), few)

    def test_none_of_these(self):
        for name, lanes, more in (
            ("all are lent", [lane(0, is_lent=True)], {}),
            ("all are used up", [lane(0, is_used_up=True)], {}),
            ("half of its bytes were taken", [lane(0, taken=limits.LANE_FULL)], {}),
            ("the disk failed", [lane(0)], {"is_halted": True}),
            ("the program ended", [lane(0)], {"is_alive": False}),
        ):
            with self.subTest(name):
                self.assertIsNone(self.given(*lanes, **more))

    def test_while_there_is_no_run(self):
        self.assertIsNone(self.lending.lane_for(self.wait))

    def test_who_came_before_comes_before(self):
        later, first, second = Wait("web2"), lane(0, taken=1), lane(1, taken=2)
        self.lending.waits.append(later)
        self.assertIs(self.given(first, second), first)
        self.assertIs(self.lending.lane_for(later), second)
        self.assertIs(self.given(first), first)
        self.assertIsNone(self.lending.lane_for(later))

    def test_who_is_refused(self):
        self.given(lane(0))
        self.wait.failure = "it is full"
        with self.assertRaisesRegex(Refused, "it is full"):
            self.lending.lane_for(self.wait)
        with self.lending.changed:
            self.lending.stop()
        with self.assertRaisesRegex(Refused, "stopping"):
            self.lending.lane_for(self.wait)

    def test_a_failure_is_for_those_who_wait_then(self):
        later = Wait("web2")
        with self.lending.changed:
            self.lending.fail("it is full")
        self.assertEqual((self.wait.failure, later.failure), ("it is full", None))

    def test_who_used_lanes_up_waits_for_the_next_run_or_is_refused(self):
        first, other = lane(0), lane(1)
        self.assertIs(self.given(first, other), first)
        self.lending.run.used_up_by["web1"] = limits.USED_UP
        self.assertIsNone(self.lending.lane_for(self.wait))
        self.lending.sessions.append(session(self.lending.run, other, "web2"))
        with self.assertRaisesRegex(Refused, "web1 sent 3 sessions"):
            self.lending.lane_for(self.wait)
        self.assertIs(self.given(first), first)

    def test_new_clients_wait_while_a_run_is_to_end(self):
        first = lane(0)
        self.assertIs(self.given(first), first)
        with self.lending.changed:
            self.lending.renew()
        self.assertIsNone(self.lending.lane_for(self.wait))
        self.assertIn("opened anew once 0 sessions", self.lending.why_wait())
        self.lending.renewing_until = time.monotonic() - 1
        self.assertIs(self.lending.lane_for(self.wait), first)


class Ends(unittest.TestCase):
    """What is left of a lane once its session has ended."""

    def end(self, **more):
        lending, used = Lending(), lane(0)
        with lending.changed:
            lending.open(run(used))
            lending.waits.append(wait := Wait("web1"))
            ended = session(lending.run, used, **more)
            lending.begin(ended, wait)
            self.assertEqual((used.is_lent, lending.waits, lending.sessions), (True, [], [ended]))
            lending.end(ended)
        self.assertEqual((used.is_lent, lending.sessions, lending.commands), (False, [], 5))
        return used, lending.run.used_up_by

    def test_at_rest(self):
        used, by = self.end()
        self.assertEqual((used.is_free(), by), (True, {}))

    def test_not_at_rest(self):
        used, by = self.end(is_at_rest=False)
        self.assertEqual((used.is_free(), by), (False, {"web1": 1}))

    def test_what_the_program_ended_is_not_the_users(self):
        used, by = self.end(is_at_rest=False, is_dead=True)
        self.assertEqual((used.is_free(), by), (False, {}))


class Runs(unittest.TestCase):
    def is_over(self, idle=0, waits=0, sessions=0, is_renewing=False, is_stopped=False, lanes=(lane(0), lane(1)), used_up=0, **more):
        lending = Lending()
        with lending.changed:
            lending.open(run(*lanes, **more))
            lending.run.used_up_by["web1"] = used_up
            lending.waits += [Wait("web1")] * waits
            lending.sessions += [session(lending.run, lanes[0])] * sessions
            if is_renewing:
                lending.renew()
            if is_stopped:
                lending.stop()
            return lending.is_over(idle, linger=60)

    def test_each_row(self):
        used_up = (lane(0), lane(1, is_used_up=True))
        for expected, name, state in (
            (False, "at rest", {"idle": 59}),
            (True, "nobody came for long", {"idle": 60}),
            (False, "somebody waits who gets a lane", {"waits": 1, "idle": 100, "lanes": used_up}),
            (True, "somebody waits, and all lanes are used up", {"waits": 1, "lanes": used_up[1:]}),
            (True, "somebody waits who used too many up", {"waits": 1, "used_up": limits.USED_UP}),
            (False, "nobody waits, and all lanes are used up", {"lanes": used_up[1:]}),
            (True, "it is to be opened anew", {"is_renewing": True}),
            (True, "the disk failed", {"is_halted": True}),
            (True, "the program ended", {"is_alive": False}),
            (True, "the server stops", {"is_stopped": True}),
        ):
            with self.subTest(name):
                self.assertEqual(self.is_over(**state), expected)
                self.assertFalse(self.is_over(**{**state, "sessions": 1}))

    def test_a_run_that_is_worn(self):
        for expected, age, commands in ((False, 0, 0), (True, limits.RUN_AGE + 1, 0), (True, 0, limits.RUN_COMMANDS + 1)):
            lending = Lending()
            with lending.changed:
                lending.open(run(lane(0), age=age))
                lending.commands = commands
                self.assertEqual(lending.is_worn(), expected)
                lending.renew()
                self.assertFalse(lending.is_worn())

    def test_a_new_run_begins_anew(self):
        lending = Lending()
        with lending.changed:
            lending.open(run(lane(0)))
            lending.commands = 7
            lending.renew()
            lending.open(run(lane(0)))
            self.assertEqual((lending.commands, lending.is_renewing(), lending.why_wait()), (0, False, ALL_LENT))


class Status(unittest.TestCase):
    def test_a_line_a_session(self):
        lending, lent = Lending(), lane(3, is_lent=True)
        with lending.changed:
            self.assertEqual(lending.status(), ["closed, no client is there", "0 wait"])
            lending.waits.append(Wait("web1"))
            self.assertEqual(lending.status(), ["the store is being opened", "1 wait"])
            lending.waits.clear()
            lending.open(run(lent, lane(4, is_used_up=True)))
            lending.sessions.append(session(lending.run, lent))
            self.assertEqual(lending.status(), ["open, 1 lanes used up", "3 web1 0 s 5 commands 9 bytes", "0 wait"])


if __name__ == "__main__":
    unittest.main()

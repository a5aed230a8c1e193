"""Drawn sessions by a server, beside the same as files; and of many sessions at once what `pbstore check` says of the whole run."""
import os, random, shlex, shutil, subprocess, tempfile, unittest

from compared import PATIENT, Compared
from harness import Server, at_once, program, s
from inputs import drawn, masked, of_scenarios, tree, whole_tree

FIRST, SEEDS = int(os.environ.get("FIRST", "0")), int(os.environ.get("SEEDS", "1"))
FAKETIME = "/usr/lib/x86_64-linux-gnu/faketime/libfaketime.so.1"


class Drawn(Compared):
    """Of each third seed frames without a command use the only lane up, so that the store is opened anew; in the others one run serves all."""

    def compare(self, of, seed, see, look):
        alone, server = self.sides(of, "--lanes", "1")
        runs, is_marred = set(), seed % 3 == 2
        for data in drawn(seed, marred=0.4 if is_marred else 0):
            self.same(alone, server, data, see)
            runs.update(server.programs())
        self.same_folders(alone, server, look)
        self.assertTrue(len(runs) == 1 or is_marred, runs)

    def test_a_lane_that_is_used_again_answers_as_a_new_one(self):
        for seed in range(FIRST, FIRST + 3 * SEEDS):
            self.compare(program(), seed, masked, tree)

    @unittest.skipUnless(os.path.exists(FAKETIME), "faketime is not there")
    def test_under_one_fixed_clock_each_byte_is_the_same(self):
        with tempfile.TemporaryDirectory() as work:
            fixed = os.path.join(work, "pbstore")
            with open(fixed, "w") as out:
                out.write(f"#!/bin/sh\nLD_PRELOAD={FAKETIME} FAKETIME='2026-06-01 00:00:00' FAKETIME_DONT_FAKE_MONOTONIC=1 exec {shlex.quote(program())} \"$@\"\n")
            os.chmod(fixed, 0o755)
            for seed in range(FIRST, FIRST + 3 * SEEDS):
                self.compare(fixed, 1000 + seed, lambda data, replies: replies, whole_tree)


class AtOnce(unittest.TestCase):
    def check(self, inputs, is_used_up):
        """Six clients at once, each with inputs of its own: `pbstore check` says that the run is the model's."""
        work = tempfile.mkdtemp(prefix="record-")
        self.addCleanup(shutil.rmtree, work)
        before = os.path.join(work, "before")
        server = Server(program(), "--linger", "1000", env={"RECORD": work}, patch=f"import record; {PATIENT}")
        self.addCleanup(server.close)
        shutil.copytree(server.root, before)
        # (a session that stays, so that it is one run)
        with server.client() as stays:
            stays.ask(s.list_after())

            def serve(number):
                for it in inputs[number]:
                    with server.client() as client:
                        client.exchange(it)

            at_once(len(inputs), serve)
            runs, state = server.programs(), server.status()[0]
        self.assertEqual((server.stop(), len(runs)), (0, 1))
        self.assertEqual(state == "open, 0 lanes used up", not is_used_up)
        self.look(before, work)

    def look(self, before, work):
        lanes = [os.path.join(work, str(it)) for it in range(64)]
        check = [program(), "check", before, os.path.join(work, "order"), *lanes]
        found = subprocess.run(check, capture_output=True, text=True)
        self.assertEqual((found.stdout, found.returncode), ("equal\n", 0))
        self.assertGreater(sum(map(os.path.getsize, lanes)), 50_000)
        # (one byte of a reply is changed: what is compared is not nothing)
        longest = max(lanes, key=lambda it: os.path.getsize(f"{it}.out"))
        with open(f"{longest}.out", "r+b") as out:
            byte = out.read(5)[4]
            out.seek(4)
            out.write(bytes([byte ^ 1]))
        found = subprocess.run(check, capture_output=True, text=True)
        self.assertEqual((found.stdout[:5], found.returncode), ("lane ", 8))

    def test_drawn_sessions(self):
        for seed in range(FIRST, FIRST + SEEDS):
            self.check([drawn(100 * seed + it, f"host/{it % 3}", marred=0.1) for it in range(6)], True)

    def test_those_of_the_scenarios(self):
        # (frames without a command would use all lanes up)
        inputs = [it.data for it in sum(of_scenarios(), []) if it.status != "BadFrame"]
        random.Random(FIRST).shuffle(inputs)
        self.check([inputs[at::6] for at in range(6)], False)


if __name__ == "__main__":
    unittest.main()

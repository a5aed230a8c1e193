"""The scenarios' sessions by a server, beside the same as files, each in a run of its own on another folder: each byte of a reply is the program's."""
import glob, os, random, unittest

from compared import Compared
from harness import s
from inputs import of_scenarios

SEED = int(os.environ.get("FIRST", "0"))


class Scenarios(Compared):
    def forget_all(self, alone, server):
        """The next scenario's backups are later than none."""
        names = [os.path.dirname(os.path.relpath(it, server.root)) for it in glob.glob(f"{server.root}/*/*/*/{s.MANIFEST}")]
        if names:
            self.same(alone, server, s.frames(*map(s.forget, sorted(names))))

    def serve(self, alone, server, scenarios):
        count = 0
        for inputs in scenarios:
            for it in inputs:
                self.same(alone, server, it.data)
                count += 1
            self.forget_all(alone, server)
        self.assertGreater(count, 900)
        self.same_folders(alone, server)

    def test_one_after_another_on_one_lane(self):
        self.serve(*self.sides(None, "--lanes", "1"), list(of_scenarios()))

    def test_shuffled_over_many(self):
        scenarios = list(of_scenarios())
        random.Random(SEED).shuffle(scenarios)
        self.serve(*self.sides(), scenarios)


if __name__ == "__main__":
    unittest.main()

"""A server beside the program itself: what both tell of the same inputs."""
import os, shutil, subprocess, tempfile, unittest

from harness import Server, make_store, program
from inputs import masked, tree

# A server that lets a user use up any number of lanes.
PATIENT = "limits.USED_UP = 1000"


class Alone:
    """The program itself, which serves each input as a file, on a folder of its own."""

    def __init__(self, program):
        self.program, self.work = program, tempfile.mkdtemp(prefix="alone-")
        self.root, self.path = os.path.join(self.work, "root"), os.path.join(self.work, "session")
        make_store(self.root)

    def exchange(self, data):
        with open(self.path, "wb") as out:
            out.write(data)
        subprocess.run([self.program, "run", self.root, self.path], stderr=subprocess.DEVNULL)
        with open(f"{self.path}.out", "rb") as out:
            return out.read()

    def close(self):
        shutil.rmtree(self.work)


class Compared(unittest.TestCase):
    def sides(self, of=None, *options):
        alone, server = Alone(of or program()), Server(of or program(), "--linger", "1000", *options, patch=PATIENT)
        self.addCleanup(alone.close)
        self.addCleanup(server.close)
        return alone, server

    def same(self, alone, server, data, see=masked):
        with server.client() as it:
            served = see(data, it.exchange(data))
        self.assertEqual(served, see(data, alone.exchange(data)), (data[:200], server.said()[-500:]))

    def same_folders(self, alone, server, look=tree):
        self.assertEqual(server.stop(), 0)
        self.assertEqual(look(server.root), look(alone.root))

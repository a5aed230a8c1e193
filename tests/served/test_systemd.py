"""What the server tells systemd."""
import os, socket, tempfile, unittest

from harness import STAND_IN, Server


class Ready(unittest.TestCase):
    def setUp(self):
        work = tempfile.TemporaryDirectory()
        self.addCleanup(work.cleanup)
        self.path = os.path.join(work.name, "notify")

    def told(self, path):
        """What is told at a socket, with a server that was started by it."""
        peer = socket.socket(socket.AF_UNIX, socket.SOCK_DGRAM)
        self.addCleanup(peer.close)
        peer.bind(path)
        peer.settimeout(60)
        server = Server(STAND_IN, env={"NOTIFY_SOCKET": path.replace("\0", "@")}, is_started=False)
        self.addCleanup(server.close)
        server.start()
        return peer.recv(100), server

    def test_clients_may_come_once_it_is_ready(self):
        said, server = self.told(self.path)
        self.assertEqual((said, server.answers()), (b"READY=1", True))

    def test_a_socket_without_a_file(self):
        self.assertEqual(self.told(f"\0{self.path}")[0], b"READY=1")


if __name__ == "__main__":
    unittest.main()

"""What the tests share: a server on a folder, and clients of it."""
import os, random, shutil, signal, socket, struct, subprocess, sys, tempfile, threading, time

HERE = os.path.dirname(os.path.abspath(__file__))
CLIENT = os.path.join(os.path.dirname(os.path.dirname(HERE)), "client")
sys.path.insert(0, CLIENT)
from pbclient import session as s
from pbclient import talk
from pbclient.served import dial

STAND_IN = os.path.join(HERE, "stand_in.py")
HELLO = b"pbstore 1 -\n"
# What a server says once it has started.
SERVED = " is served at "
# The server under test looks ten times a second where it looks once.
START = """
import sys
sys.path[:0] = [{client!r}, {here!r}]
from pbclient.served import limits, lanes, server
limits.TICK = 0.1
{patch}
from pbclient.main import main
sys.exit(main(sys.argv[1:]))
"""


def program():
    """The path of the built program."""
    try:
        return talk.program()
    except talk.NoProgram as none:
        sys.exit(f"tests/served: {none}")


def noise(seed, size):
    """Bytes that no other seed gives."""
    return random.Random(seed).getrandbits(8 * size).to_bytes(size, "little")


def wait_until(holds, seconds=120):
    end = time.monotonic() + seconds
    while not holds():
        if time.monotonic() > end:
            raise AssertionError("it did not come")
        time.sleep(0.01)


def is_running(process):
    """Whether it has not ended. One that nobody waited for stays in the system's list."""
    try:
        with open(f"/proc/{process}/stat") as it:
            return it.read().rpartition(")")[2].split()[0] != "Z"
    except (FileNotFoundError, ProcessLookupError):
        return False


def await_ended(processes):
    wait_until(lambda: not any(map(is_running, processes)))


def at_once(count, act):
    threads = [threading.Thread(target=act, args=(it,)) for it in range(count)]
    for it in threads:
        it.start()
    for it in threads:
        it.join()


def snapshot(group, number):
    return f"{group}/2026-01-01T00:{number // 60:02}:{number % 60:02}Z"


def make_store(root):
    """An empty store: what the first run leaves."""
    os.makedirs(os.path.join(root, ".chunks"))
    with open(os.path.join(root, ".chunks", "book"), "wb") as out:
        out.write(s.book(0))


class Server:
    """`patch` is what the server's own process runs before it starts."""

    def __init__(self, program, *options, root=None, env=None, patch="", socket=None, is_started=True):
        self.work = tempfile.mkdtemp(prefix="served-")
        self.root, self.socket = root or os.path.join(self.work, "root"), socket or os.path.join(self.work, "store.sock")
        if not os.path.exists(self.root):
            make_store(self.root)
        self.options, self.env, self.patch = ["--program", program, *options], env or {}, patch
        self.process = self.log = None
        if is_started:
            self.start()

    def start(self):
        start = START.format(client=CLIENT, here=HERE, patch=self.patch)
        words = [sys.executable, "-B", "-c", start, "serve", self.root, "--name", "main", "--socket", self.socket, *self.options]
        self.close_log()
        self.log = open(os.path.join(self.work, "log"), "a")
        before = self.said().count(SERVED)
        self.process = subprocess.Popen(words, stderr=self.log, env={**os.environ, **self.env})
        # (it says so once its folder leads to its socket and it heeds signals)
        wait_until(lambda: self.said().count(SERVED) > before or self.process.poll() is not None)

    def connect(self):
        peer = socket.socket(socket.AF_UNIX)
        try:
            peer.connect(self.socket)
        except OSError:
            peer.close()
            raise
        return peer

    def answers(self):
        try:
            self.connect().close()
            return True
        except OSError:
            return False

    def first(self, *lines):
        """The first line that is no `wait`, for a client that sends these."""
        with self.connect() as peer:
            peer.sendall(b"".join(lines))
            return [it for it in peer.makefile() if not it.startswith("wait")][0].strip()

    def told(self, data):
        """What a client is told after `ready` that sends all at once, and no more: so that a slow machine makes no pause."""
        with self.connect() as peer:
            peer.sendall(HELLO + data)
            return peer.makefile("rb").read().partition(b"ready ")[2].partition(b"\n")[2]

    def status(self):
        with self.connect() as peer:
            peer.sendall(b"status 1 -\n")
            return peer.makefile().read().splitlines()

    def await_free(self):
        """Each lane is at rest again."""
        wait_until(lambda: self.status()[1:] == ["0 wait"])

    def await_commands(self, count):
        """A session has passed so many commands, and goes on."""
        wait_until(lambda: any(f" {count} commands" in it for it in self.status()))

    def hold(self):
        """The stand-in's collections last from now on, until they are let go."""
        with open(os.path.join(self.root, ".chunks", "hold"), "w"):
            pass

    def let_go(self):
        os.unlink(os.path.join(self.root, ".chunks", "hold"))

    def said(self):
        with open(os.path.join(self.work, "log")) as log:
            return log.read()

    def client(self, told=lambda text: None):
        return Client(self.socket, told)

    def programs(self):
        """The programs that run below this server."""
        found = set()
        tasks = f"/proc/{self.process.pid}/task"
        for task in os.listdir(tasks) if os.path.isdir(tasks) else []:
            try:
                with open(os.path.join(tasks, task, "children")) as file:
                    found.update(map(int, file.read().split()))
            except OSError:
                pass
        return sorted(found)

    def kill_programs(self):
        for it in self.programs():
            os.kill(it, signal.SIGKILL)

    def stop(self, sign=signal.SIGTERM):
        self.process.send_signal(sign)
        status = self.process.wait()
        self.close_log()
        return status

    def end(self):
        if self.process and self.process.poll() is None:
            self.stop()
        self.close_log()

    def close_log(self):
        if self.log:
            self.log.close()

    def close(self):
        self.end()
        shutil.rmtree(self.work, ignore_errors=True)


class Client:
    def __init__(self, path, told=lambda text: None):
        self.stream, self.lane = dial.begin(dial.way_to(f"unix:{path}"), told)

    def __enter__(self):
        return self

    def __exit__(self, *cause):
        self.stream.close()

    def send(self, *bodies):
        self.stream.write(s.frames(*bodies))

    def body(self):
        """The next reply's body; None at the end, and if it is cut."""
        head = self.stream.read(4)
        size = struct.unpack("<I", head)[0] if len(head) == 4 else 0
        body = self.stream.read(size)
        return body if size and len(body) == size else None

    def ask(self, body):
        self.send(body)
        return self.body()

    def rest(self):
        """All that comes until the end."""
        found = bytearray()
        while some := self.stream.read(65536):
            found += some
        return bytes(found)

    def exchange(self, data):
        """The replies to an input that is sent at once, and its end."""
        sender = threading.Thread(target=lambda: (self.stream.write(data), self.stream.shut()))
        sender.start()
        found = self.rest()
        sender.join()
        return found

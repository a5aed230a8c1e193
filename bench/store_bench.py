"""What the benches share: frames of sessions, pieces to back up, and the store as it is run on them.

A session goes to the store through a named pipe, part by part. A part has ended when all its commands are answered.
"""
import fcntl, hashlib, os, random, struct, subprocess, sys, time
from datetime import datetime, timedelta, timezone

TOP = os.path.dirname(os.path.dirname(os.path.abspath(__file__)))
sys.path.insert(0, os.path.join(TOP, "client"))
from pbclient.session import APPEND_LIMIT, MANIFEST, append_digests, blob, bye, chunk_as, close_index, close_reader, download, dynamic_csum
from pbclient.session import dynamic_index, entries_of, finish, frame, listed, manifest, new_dynamic, open_reader, open_writer, previous
from pbclient.session import put_manifest, sha256

MIB = 1 << 20
INDEX = "root.didx"
# (snapshots that follow one another)
SNAPSHOTS = ["host/bench/2020-01-15T06:30:03Z", "host/bench/2020-01-15T06:30:04Z"]
# (a folder of many small snapshots has so many chunks of each, and the first is of this second)
CHUNKS_OF_ONE, FIRST = 100, datetime(2020, 1, 15, 6, 30, 3, tzinfo=timezone.utc)


class Part:
    """Commands in a file, with their number."""

    def __init__(self, path):
        self.path, self.commands = path, 0

    def add(self, out, body):
        out.write(frame(body))
        self.commands += 1


def make_piece(folder, number, source):
    """Writes a piece of 1 MiB as a file, and gives its path and its digest."""
    piece = source.randbytes(MIB)
    path = os.path.join(folder, f"piece-{number:06}")
    with open(path, "wb") as out:
        out.write(piece)
    return path, hashlib.sha256(piece).digest()


def make_pieces(folder, first, count):
    """So many pieces, with numbers from the first on."""
    source = random.Random(first)
    return [make_piece(folder, first + number, source) for number in range(count)]


def make_backup(path, snapshot, pieces, sent, over_base):
    """A backup of the pieces in order, of which these are sent; where it has a base, behind PREVIOUS of its index."""
    part = Part(path)
    with open(path, "wb") as out:
        part.add(out, open_writer(snapshot))
        if over_base:
            part.add(out, previous(INDEX))
        part.add(out, new_dynamic(INDEX))
        for piece, digest in sent:
            with open(piece, "rb") as it:
                part.add(out, chunk_as(digest, blob(it.read())))
        begins = [(digest, place * MIB) for place, (_, digest) in enumerate(pieces)]
        for first in range(0, len(begins), APPEND_LIMIT):
            part.add(out, append_digests(0, begins[first : first + APPEND_LIMIT]))
        csum = sha256(entries_of([(begin + MIB, digest) for digest, begin in begins]))
        size = len(pieces) * MIB
        part.add(out, close_index(0, len(pieces), size, csum))
        part.add(out, put_manifest(snapshot, listed(INDEX, size, csum)))
        part.add(out, finish())
    return part


def make_restore(path, snapshot, asks):
    """A reader that downloads the index and sends these commands."""
    part = Part(path)
    with open(path, "wb") as out:
        part.add(out, open_reader(snapshot))
        part.add(out, download(INDEX))
        for body in asks:
            part.add(out, body)
        part.add(out, close_reader())
    return part


def digest_of_replies(path, first, commands, header):
    """The SHA-256 of what came back: the replies' bytes from the first reply's place on, each without so long a header."""
    found = hashlib.sha256()
    with open(path, "rb") as it:
        it.seek(first)
        for number in range(commands):
            body = it.read(struct.unpack("<I", it.read(4))[0])
            # (behind OPEN_READER and DOWNLOAD, and before CLOSE_READER)
            if 2 <= number < commands - 1:
                found.update(body[1 + header :])
    return found.digest()


def digest_of_files(paths):
    found = hashlib.sha256()
    for path in paths:
        with open(path, "rb") as it:
            found.update(it.read())
    return found.digest()


def write(path, data):
    os.makedirs(os.path.dirname(path), exist_ok=True)
    with open(path, "wb") as out:
        out.write(data)


def make_snapshot(root, number):
    """A snapshot of one archive, with its chunks, of 8 bytes each."""
    snapshot = f"host/bench{number // 1000}/{(FIRST + timedelta(seconds=number)).strftime('%Y-%m-%dT%H:%M:%SZ')}"
    pieces = [(number * CHUNKS_OF_ONE + place).to_bytes(8, "little") for place in range(CHUNKS_OF_ONE)]
    for piece in pieces:
        digest = sha256(piece).hex()
        write(f"{root}/.chunks/{digest[:4]}/{digest}", blob(piece))
    write(f"{root}/{snapshot}/{INDEX}", dynamic_index(snapshot, INDEX, 0, pieces))
    write(f"{root}/{snapshot}/{MANIFEST}", blob(manifest(snapshot, listed(INDEX, 8 * CHUNKS_OF_ONE, dynamic_csum(pieces)))))


def run_on(root, session):
    """Runs the session on the folder, and gives the greatest resident memory of the run, in bytes."""
    run = subprocess.Popen([f"{TOP}/pbstore", "run", root, session])
    _, status, usage = os.wait4(run.pid, 0)
    if status:
        sys.exit(f"{os.path.basename(sys.argv[0])}: the store ended with the status {os.waitstatus_to_exitcode(status)}")
    return usage.ru_maxrss * 1024


def beyond_empty(root, session):
    """Seconds that a run of the session on the folder takes, less those of an empty one, which opens the folder and saves the book as
    well."""
    empty = f"{session}-empty"
    write(empty, b"")
    without = least(lambda: run_on(root, empty))
    return least(lambda: run_on(root, session)) - without


def hash_all(paths, processes=1):
    """`sha256sum` over the files, by so many processes at once, each over an equal part."""
    parts = [paths[first::processes] for first in range(min(processes, len(paths)))]
    runs = [subprocess.Popen(["sha256sum", *part], stdout=subprocess.DEVNULL) for part in parts]
    if any([run.wait() for run in runs]):
        sys.exit(f"{os.path.basename(sys.argv[0])}: sha256sum failed")


def copy_all(paths, folder):
    """A copy of the files in a folder, each synced as it is written."""
    for number, path in enumerate(paths):
        with open(path, "rb") as it, open(os.path.join(folder, f"{number:06}"), "wb") as out:
            out.write(it.read())
            out.flush()
            os.fsync(out.fileno())


def least(call, times=3):
    """Seconds that the fastest of some calls takes, after one that is not counted."""
    call()
    found = []
    for _ in range(times):
        before = time.monotonic()
        call()
        found.append(time.monotonic() - before)
    return min(found)


def timed(call):
    """Seconds that the call takes. What was written before is on the disk when it begins."""
    os.sync()
    before = time.monotonic()
    call()
    return time.monotonic() - before


class Lane:
    """A session of a run, which is sent part by part."""

    def __init__(self, run, session):
        self.run = run
        self.input = open(self.opened(session), "wb", buffering=0)
        fcntl.fcntl(self.input, fcntl.F_SETPIPE_SZ, MIB)
        self.replies = open(self.waited_for(f"{session}.out"), "rb")

    def fail(self, why):
        sys.exit(f"{os.path.basename(sys.argv[0])}: {why}")

    def wait(self):
        if self.run.poll() is not None:
            self.fail(f"pbstore ended with status {self.run.returncode}")
        time.sleep(0.0005)

    def opened(self, session):
        """The pipe, once the store reads it."""
        while True:
            try:
                pipe = os.open(session, os.O_WRONLY | os.O_NONBLOCK)
                os.set_blocking(pipe, True)
                return pipe
            except OSError:
                self.wait()

    def waited_for(self, path):
        while not os.path.exists(path):
            self.wait()
        return path

    def read(self, size):
        """So many bytes of the replies, once they are there."""
        got = b""
        while len(got) < size:
            more = self.replies.read(size - len(got))
            got += more
            if not more:
                self.wait()
        return got

    def place(self):
        """Where the next reply will stand in the file of the replies."""
        return self.replies.tell()

    def ask(self, part):
        """Sends the commands."""
        with open(part.path, "rb") as it:
            while some := it.read(MIB):
                self.input.write(some)

    def hear(self, part, answer=0):
        """Waits for the commands' replies, each of which is to have this number."""
        at = self.place()
        for _ in range(part.commands):
            length, number = struct.unpack("<IB", self.read(5))
            if number != answer:
                self.fail(f"a command was answered with number {number}")
            at += 4 + length
            while os.fstat(self.replies.fileno()).st_size < at:
                self.wait()
            self.replies.seek(at)

    def send(self, part, answer=0):
        self.ask(part)
        self.hear(part, answer)

    def close(self):
        self.input.write(frame(bye()))
        self.input.close()


class Store(Lane):
    """`./pbstore` on a fresh datastore folder, with one session."""

    def __init__(self, work):
        # (the program is built where it isn't yet, and not in the time that is measured)
        subprocess.run([f"{TOP}/pbstore"], stderr=subprocess.DEVNULL)
        root, session = f"{work}/datastore", f"{work}/session"
        os.mkdir(root)
        os.mkfifo(session)
        super().__init__(subprocess.Popen([f"{TOP}/pbstore", "run", root, session]), session)

    def end(self):
        """Ends the session, and gives the store's greatest resident memory in bytes."""
        self.close()
        _, status, used = os.wait4(self.run.pid, 0)
        self.run.returncode = status
        if status:
            self.fail(f"pbstore ended with status {os.waitstatus_to_exitcode(status)}")
        return used.ru_maxrss * 1024


def processor():
    with open("/proc/cpuinfo") as it:
        name = next((line.split(":")[1].strip() for line in it if line.startswith("model name")), "unknown")
    return f"{name}, {os.cpu_count()} processors"

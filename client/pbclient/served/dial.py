"""The client's end: a stream to a store that is served, by its address.

    unix:/run/pbstore/main.sock       a socket of this machine
    ssh://USER@HOST[:PORT]/NAME       the store NAME of another machine, by ssh
    /srv/store                        a folder of this machine; None if no server has it
"""
import contextlib, os, re, shlex, socket, subprocess
from typing import Callable, NamedTuple

from . import hello, sockets

UNIX_FORM, SSH_FORM = "unix:", "ssh://"
SSH = ["ssh", "-T", "-o", "BatchMode=yes", "-o", "ServerAliveInterval=60", "-o", "ServerAliveCountMax=3"]
SSH_ADDRESS = re.compile(r"ssh://(?P<to>[A-Za-z0-9_][^/:]*)(:(?P<port>[0-9]+))?(/(?P<name>[A-Za-z0-9_][A-Za-z0-9_.-]{0,63}))?/?")
# (a line for each of 64 sessions, and two more)
STATUS_LIMIT = 1 << 16


class Stream:
    """Both directions, by two descriptors. `shut` ends what is sent, and leaves the replies to be read."""

    def __init__(self, sending, reading, shut, close):
        self.sending, self.reading, self.shut, self.close = sending, reading, shut, close

    def write(self, data):
        view = memoryview(data)
        while view:
            view = view[os.write(self.sending, view) :]

    def read(self, size):
        """So many bytes; fewer at the end."""
        found, at = bytearray(size), 0
        while at < size:
            count = os.readv(self.reading, [memoryview(found)[at:]])
            if not count:
                break
            at += count
        return found if at == size else found[:at]


def over_socket(path):
    peer = socket.socket(socket.AF_UNIX)
    try:
        peer.connect(path)
    except BaseException:
        peer.close()
        raise
    return Stream(peer.fileno(), peer.fileno(), lambda: peer.shutdown(socket.SHUT_WR), peer.close)


def over_program(words):
    """A program that joins its standard input and output to the server: ssh, as a rule."""
    program = subprocess.Popen(words, stdin=subprocess.PIPE, stdout=subprocess.PIPE, bufsize=0)

    def shut():
        with contextlib.suppress(OSError):
            program.stdin.close()

    def close():
        shut()
        program.stdout.close()
        program.wait()

    stream = Stream(program.stdin.fileno(), program.stdout.fileno(), shut, close)
    stream.program = program
    return stream


def ssh():
    """The words of ssh; PBSTORE_SSH stands in their place."""
    given = os.environ.get("PBSTORE_SSH")
    return shlex.split(given) if given else SSH


class Way(NamedTuple):
    """How a server is reached: a call that gives a stream, and the store's name there."""

    open: Callable
    name: str = "-"


def way_to(address):
    """The way to a store's server; None for a folder that no server has."""
    if address.startswith(SSH_FORM):
        return over_ssh(address)
    path = address[len(UNIX_FORM) :] if address.startswith(UNIX_FORM) else sockets.socket_of(address)
    return Way(lambda: over_socket(path)) if path else None


def over_ssh(address):
    read = SSH_ADDRESS.fullmatch(address)
    if not read:
        raise ValueError(f"{address} is no address of a store")
    port, name = ["-p", read["port"]] if read["port"] else [], read["name"] or "-"
    words = [*ssh(), *port, "--", read["to"], f"pbclient connect {name}"]
    return Way(lambda: over_program(words), name)


def is_address(text):
    """Whether it is the address of a server, and no folder of this machine."""
    return text.startswith((UNIX_FORM, SSH_FORM))


@contextlib.contextmanager
def heard():
    """What the system refuses is the server's silence."""
    try:
        yield
    except PermissionError:
        raise hello.Refused("user", "this account may not use its socket") from None
    except OSError as error:
        raise hello.Refused("server", f"it does not answer: {error.strerror}") from None


def status(way):
    """The lines of a server's status."""
    with heard(), contextlib.closing(way.open()) as stream:
        stream.write(hello.line("status", hello.VERSION, way.name))
        found = stream.read(STATUS_LIMIT).decode("ascii", "replace").splitlines()
    hello.look_refused(*(found[0] if found else "").partition(" ")[::2])
    return found


def damaged(way, digests=()):
    """Tells a server of damaged chunks, and gives all that it knows of."""
    with heard(), contextlib.closing(way.open()) as stream:
        stream.write(hello.line("damaged", hello.VERSION, way.name) + hello.lines_of_digests(digests))
        stream.shut()
        count = hello.await_ready(stream.read, lambda text: None)
        return hello.digests_of(stream.read(count * hello.DIGEST_LINE))


def begin(way, told=lambda text: None):
    """A stream that is ready for frames, and the lane's number. `told` takes why it has to wait."""
    with heard():
        stream = way.open()
        try:
            stream.write(hello.line("pbstore", hello.VERSION, way.name))
            return stream, hello.await_ready(stream.read, told)
        except BaseException:
            stream.close()
            raise

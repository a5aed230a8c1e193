"""The lines before the frames. After `ready` both directions carry the frames of docs/PROTOCOL.md and nothing else.

    client    user NAME            for whom it speaks, if the server trusts it
    client    pbstore 1 STORE      the version of these lines, and the store's name or `-`
    server    wait TEXT            any number of these
    server    ready LANE           or `no CAUSE TEXT`, and the end

In place of `pbstore` a client may say `status`, and is told lines of text; or `damaged`, with a line of 64 hexadecimal digits for each damaged
chunk that it knows of, up to the end of what it sends. The server answers `ready COUNT`, and a line for each that it knows of then.
"""
import re

VERSION = "1"
# A reply with this number is none of the program: it is the server's last word, a text, when no reply will come.
CLOSED = 255
LINE_LIMIT = 512
DIGEST, DIGEST_LINE = re.compile(rb"[0-9a-f]{64}"), 65
NAME = re.compile(r"[A-Za-z0-9_][A-Za-z0-9_.-]{0,63}")


class Refused(Exception):
    """What the client is told by `no`: a cause in one word, and a text."""

    def __init__(self, cause, text):
        self.cause = cause
        super().__init__(text)


def is_name(text):
    return NAME.fullmatch(text) is not None


def line_of(read):
    """A line, byte by byte, since what comes after it is the frames'. An empty text at the stream's end."""
    found = bytearray()
    while not found.endswith(b"\n"):
        byte = read(1)
        if not byte:
            return ""
        found += byte
        if len(found) > LINE_LIMIT:
            raise Refused("line", f"a line of more than {LINE_LIMIT} bytes")
    return found[:-1].decode("ascii", "replace")


def line(*words):
    return " ".join(map(str, words)).encode("ascii", "replace").replace(b"\n", b" ") + b"\n"


def read_hello(read):
    """What a client asks: its word, the user that it names or None, and the store or `-`."""
    words, user = line_of(read).split(" "), None
    if words[0] == "user" and len(words) == 2:
        user = words[1]
        words = line_of(read).split(" ")
    if words[0] not in ("pbstore", "status", "damaged") or len(words) != 3:
        raise Refused("line", "the first line is `pbstore 1 STORE`")
    if words[1] != VERSION:
        raise Refused("version", f"this server speaks version {VERSION}")
    return words[0], user, words[2]


def await_ready(read, told):
    """The client's side: hands the texts of `wait` to `told`, and gives the lane's number."""
    while True:
        word, _, text = line_of(read).partition(" ")
        look_refused(word, text)
        if word == "ready":
            return int(text)
        if word != "wait":
            raise Refused("line", "that is no server of a store")
        told(text)


def look_refused(word, text):
    """Raises what a line `no` tells, or that nothing came."""
    if word == "no":
        raise Refused(*text.partition(" ")[::2])
    if not word:
        raise Refused("server", "the server closed the connection")


def row_of(text):
    """What a line of the status tells of a session: lane, user, seconds, commands, bytes."""
    lane, user, seconds, _, commands, _, size, _ = text.split(" ")
    return int(lane), user, int(seconds), int(commands), int(size)


def lines_of_digests(digests):
    return b"".join(line(it.hex()) for it in sorted(digests))


def digests_of(data):
    """The digests that lines tell. Other lines are passed over."""
    return {bytes.fromhex(it.decode()) for it in data.split(b"\n") if DIGEST.fullmatch(it)}

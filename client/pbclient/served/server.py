"""Serves a store to clients that come and go, up to 64 at once, over a Unix socket. The program runs as long as clients are there.

SIGTERM ends the server once its sessions have ended, or were ended after --grace; SIGHUP has the store opened anew at the next moment without a
session.
"""
import contextlib, os, select, signal, socket, threading, time, traceback

from .. import damage
from . import hello, limits
from .hello import Refused, line
from .keeper import Keeper
from .lanes import wait_for
from .lending import Lending, Wait
from .sessions import Session
from .sockets import account_of, bind, peer_of, put_link

# The exit status of a server whose keeper failed, by a mistake of its own.
BROKEN = 70


class Server:
    def __init__(self, options, say):
        """`say` takes each line of the log."""
        self.options, self.lending, self.say = options, Lending(), say
        self.changed = self.lending.changed
        self.keeper = Keeper(options, self.lending, say)
        self.thread = threading.Thread(target=self.keep)
        self.connections = 0
        self.stop_asked = self.renew_asked = False

    def take_signals(self):
        for sign in (signal.SIGTERM, signal.SIGINT):
            signal.signal(sign, lambda *_: setattr(self, "stop_asked", True))
        signal.signal(signal.SIGHUP, lambda *_: setattr(self, "renew_asked", True))

    # Clients

    def accept(self, listener):
        """Takes connections until the server is to stop."""
        listener.settimeout(limits.TICK)
        while not self.stop_asked:
            if self.renew_asked:
                self.renew_asked = False
                with self.changed:
                    self.lending.renew()
            self.take(listener)

    def take(self, listener):
        """Takes a connection, if one comes in time."""
        try:
            client = listener.accept()[0]
            threading.Thread(target=self.welcome, args=(client,), daemon=True).start()
        except socket.timeout:
            pass
        except (OSError, RuntimeError) as error:
            # (no descriptor or thread is left: others may end meanwhile)
            self.say(f"a connection could not be taken: {error}")
            time.sleep(limits.TICK)

    def welcome(self, client):
        with self.changed:
            self.connections += 1
        with client:
            try:
                self.greet(client)
            except Refused as refused:
                with contextlib.suppress(OSError):
                    client.sendall(line("no", refused.cause, refused))
            except OSError:
                pass
            finally:
                part_from(client)
                with self.changed:
                    self.connections -= 1
                    self.changed.notify_all()

    def greet(self, client):
        if self.connections > limits.LANES + limits.QUEUE:
            raise Refused("busy", "too many clients wait; come again later")
        word, user, name = hello.read_hello(in_time(client, limits.HELLO))
        client.settimeout(limits.HELLO)
        uid = peer_of(client)
        user = self.user_of(uid, user)
        if name not in ("-", self.options.name):
            raise Refused("store", f"this is the store {self.options.name}")
        if word == "status":
            self.want_trust(uid)
            client.sendall(self.status())
        elif word == "damaged":
            client.sendall(self.damaged(client))
        else:
            self.serve(client, self.lend(client, user))

    def want_trust(self, uid):
        if uid not in (0, os.geteuid(), *self.options.trust):
            raise Refused("user", f"{account_of(uid)} may not ask that")

    def user_of(self, uid, named):
        """The user who speaks: the peer's account, or whom a trusted peer names."""
        own = account_of(uid)
        if named in (None, own):
            return own
        self.want_trust(uid)
        if not hello.is_name(named):
            raise Refused("user", "that is no user's name")
        return named

    def lend(self, client, user):
        """A session on a lane for the user, once there is one."""
        wait, told = Wait(user), None
        with self.changed:
            self.lending.waits.append(wait)
            self.changed.notify_all()
        try:
            while True:
                with self.changed:
                    if lane := self.lane_soon(wait):
                        session = Session(client, self.lending.run, lane, user, self.options.idle)
                        self.lending.begin(session, wait)
                        return session
                    why = self.lending.why_wait()
                told = tell(client, why, told)
        finally:
            with self.changed:
                if wait in self.lending.waits:
                    self.lending.waits.remove(wait)

    def lane_soon(self, wait):
        """The lane for who waits; None if there is none in the next second."""
        lane = self.lending.lane_for(wait)
        if not lane:
            self.changed.wait(limits.TICK)
            lane = self.lending.lane_for(wait)
        return lane

    def serve(self, client, session):
        try:
            client.sendall(line("ready", session.lane.number))
            session.serve()
        finally:
            with self.changed:
                self.lending.end(session)
            self.say(session.told())

    def status(self):
        with self.changed:
            return "".join(f"{it}\n" for it in self.lending.status()).encode()

    def damaged(self, client):
        """Notes the damaged chunks that a client tells, and tells all that are noted. They are put aside as the store is opened, so that is done
        soon."""
        told = bytearray()
        while len(told) < limits.DAMAGED and (some := client.recv(1 << 16)):
            told += some
        with self.changed:
            before = damage.noted(self.options.root)
            try:
                damage.add(self.options.root, hello.digests_of(told))
            except OSError as error:
                raise Refused("opening", f"the store's folder can't be written: {error.strerror}") from None
            found = damage.noted(self.options.root)
            if found != before:
                self.lending.renew()
        return line("ready", len(found)) + hello.lines_of_digests(found)

    # Its own start and end

    def start(self):
        self.thread.start()

    def end(self):
        """Ends the run, and waits until each client was told why it is left."""
        with self.changed:
            self.lending.stop()
        self.thread.join()
        with self.changed:
            self.changed.wait_for(lambda: not self.connections, limits.PARTING)

    def keep(self):
        """Without its keeper a server can only end: the program then ends too."""
        try:
            self.keeper.keep()
        except BaseException:
            traceback.print_exc()
            os._exit(BROKEN)


def in_time(client, seconds):
    """Reads of a client, which have so much time together."""
    end = time.monotonic() + seconds

    def read(size):
        client.settimeout(max(0.001, end - time.monotonic()))
        try:
            return client.recv(size)
        except socket.timeout:
            raise Refused("line", f"the first lines did not come in {seconds} s") from None

    return read


def tell(client, why, told):
    """Tells a client that waits why it does, once a reason. Fails if the client has gone."""
    if why != told:
        client.sendall(line("wait", why))
    if wait_for(client, select.POLLIN, 0) and not client.recv(1, socket.MSG_PEEK):
        raise ConnectionError
    return why


def part_from(client):
    """Ends what is sent, and reads what the client sent too much: else it could miss what it has not read yet."""
    end = time.monotonic() + limits.PARTING
    with contextlib.suppress(OSError):
        client.shutdown(socket.SHUT_WR)
        client.settimeout(limits.TICK)
        while time.monotonic() < end and client.recv(1 << 16):
            pass


def tell_ready():
    """Tells systemd, if it waits for that, that clients may come."""
    path = os.environ.pop("NOTIFY_SOCKET", None)
    if path:
        with socket.socket(socket.AF_UNIX, socket.SOCK_DGRAM) as peer:
            # (`@` stands for a socket that has no file)
            peer.sendto(b"READY=1", "\0" + path[1:] if path.startswith("@") else path)


def serve(options, say):
    """Serves until a signal ends it. `options` are those of the command `serve`."""
    server = Server(options, say)
    with contextlib.ExitStack() as at_end:
        at_end.callback(server.end)
        server.start()
        listener = at_end.enter_context(bind(options.socket, options.mode, options.group))
        at_end.callback(os.unlink, options.socket)
        at_end.callback(os.unlink, put_link(options.root, options.socket))
        server.take_signals()
        say(f"{options.root} is served at {options.socket}")
        tell_ready()
        server.accept(listener)
    return 0

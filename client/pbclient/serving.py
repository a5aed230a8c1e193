"""The commands of a store that is served: the server, its status, and the far end of ssh."""
import os

from . import store
from .failures import IN_USE, Failure, mistyped
from .served import connect as connecting
from .served import dial, hello, server, sockets, talks
from .talk import program


def serve(call):
    """Serves ROOT until a signal ends it."""
    options = call.options
    store.look(options.store, force=options.force)
    options.root, options.program = os.path.abspath(options.store), program(options.program)
    options.name = options.name or name_of(options.root)
    options.socket = os.path.abspath(options.socket or default_socket(options.name))
    try:
        return server.serve(options, call.report.note)
    except sockets.Taken as taken:
        raise Failure(str(taken), "look which servers run: pbclient -r unix:SOCKET status", IN_USE) from None


def name_of(root):
    """The name of a store that has none given: its folder's."""
    name = os.path.basename(root)
    if not hello.is_name(name):
        raise mistyped(f"{name} is no name for a store", "give it one: --name NAME, of letters, digits, _ . -")
    return name


def default_socket(name):
    """Where clients look for the socket of this name."""
    for folder in sockets.folders():
        parent = os.path.dirname(folder)
        if not os.path.isdir(folder) and os.path.isdir(parent) and os.access(parent, os.W_OK):
            os.mkdir(folder, 0o755)
        if os.access(folder, os.W_OK):
            return os.path.join(folder, f"{name}.sock")
    raise mistyped("no folder for the socket may be written", "name the socket: --socket PATH, in a folder that its clients may enter")


def connect(call):
    """Joins standard input and output to a server's socket, for a user."""
    user = call.options.user or sockets.account_of(os.geteuid())
    return connecting.connect(sockets.path_of(call.options.store), user)


def status(call):
    """Tells who has a lane of the server, and who waits."""
    call.need_root()
    if not call.way:
        raise Failure(f"no server has {call.root}", "start one: pbclient serve STORE")
    state, *rows, waiting = talks.soon(lambda: dial.status(call.way), call.options.wait)
    call.report.result("server", state, state=state, waiting=int(waiting.split()[0]))
    for row in rows:
        lane, user, seconds, commands, size = hello.row_of(row)
        call.report.result("session", row, lane=lane, user=user, seconds=seconds, commands=commands, bytes=size)
    if not call.options.json:
        call.report.result("waiting", waiting)

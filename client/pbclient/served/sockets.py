"""The server's socket, its name by the folder, and who is at the other end."""
import contextlib, os, pwd, socket, stat, struct


class Taken(Exception):
    """Something else stands in the socket's place."""


def folders():
    """Where servers' sockets are looked for: the machine's, and this user's own."""
    own = os.environ.get("XDG_RUNTIME_DIR")
    return ["/run/pbstore", *([os.path.join(own, "pbstore")] if own else [])]


def path_of(name):
    """The socket of a store's name; a path is itself."""
    if "/" in name:
        return name
    paths = [os.path.join(it, f"{name}.sock") for it in folders()]
    return next(filter(os.path.exists, paths), paths[0])


def answers(path):
    """Whether a server listens at the path, be it for others alone."""
    with socket.socket(socket.AF_UNIX) as peer:
        try:
            peer.connect(path)
        except PermissionError:
            pass
        except OSError:
            return False
    return True


def link_name(root):
    """The name by which a client finds the socket of a folder: by its device and inode, so that a link to it is the same."""
    found = os.stat(root)
    return f"{found.st_dev}-{found.st_ino}"


def socket_of(root):
    """The socket of the server that has a folder; None if none answers."""
    try:
        links = [os.path.join(it, link_name(root)) for it in folders()]
    except OSError:
        return None
    return next(filter(answers, links), None)


def link_of(root, path):
    """The link to a socket, beside it."""
    return os.path.join(os.path.dirname(os.path.abspath(path)), link_name(root))


def bind(path, mode, group):
    """A listening socket at the path. One that a killed server left is taken away; one that answers is not."""
    if answers(path):
        raise Taken(f"another server answers at {path}; end it first, or give another --socket")
    with contextlib.suppress(FileNotFoundError):
        if not stat.S_ISSOCK(os.lstat(path).st_mode):
            raise Taken(f"{path} is there, and is no socket; give another --socket")
        os.unlink(path)
    listener = socket.socket(socket.AF_UNIX)
    listener.bind(path)
    if group is not None:
        os.chown(path, -1, group)
    os.chmod(path, mode)
    listener.listen(128)
    return listener


def put_link(root, path):
    """Lets clients find the socket by the folder."""
    link, other = link_of(root, path), os.path.realpath(link_of(root, path))
    # (a killed server leaves the link, which may lead to the socket of this one now)
    if other != os.path.realpath(path) and answers(other):
        raise Taken(f"{root} is served already, at {other}")
    with contextlib.suppress(FileNotFoundError):
        os.unlink(link)
    os.symlink(os.path.basename(path), link)
    return link


def peer_of(client):
    """The account at the other end, as the system tells it."""
    return struct.unpack("3i", client.getsockopt(socket.SOL_SOCKET, socket.SO_PEERCRED, 12))[1]


def account_of(uid):
    try:
        return pwd.getpwuid(uid).pw_name
    except KeyError:
        return str(uid)

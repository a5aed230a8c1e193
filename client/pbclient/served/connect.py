"""Joins standard input and output to a server's socket, for a user whom whoever starts this vouches for: the forced command of ssh.

    command="/usr/bin/pbclient connect main --user web1",restrict ssh-ed25519 AAAA.. root@web1

What ssh was asked to run (SSH_ORIGINAL_COMMAND) is not looked at.
"""
import os, threading

from ..failures import FAILED
from . import dial, hello

PART = 1 << 17


def pump(read, write):
    """Copies until the end. Whether it came to the end: the other side may take no more."""
    buffer = bytearray(PART)
    try:
        while count := os.readv(read, [buffer]):
            view = memoryview(buffer)[:count]
            while view:
                view = view[os.write(write, view) :]
    except OSError:
        return False
    return True


def send_all(stream):
    """Standard input to the server. Its end ends what is sent, and no more: replies come still."""
    pump(0, stream.sending)
    try:
        stream.shut()
    except OSError:
        pass


def connect(path, user):
    try:
        with dial.heard():
            stream = dial.over_socket(path)
            # (always: else the other end's first line could name a user)
            stream.write(hello.line("user", user))
    except hello.Refused as refused:
        os.write(1, hello.line("no", refused.cause, refused))
        return FAILED
    threading.Thread(target=send_all, args=(stream,), daemon=True).start()
    # (the client may keep its side open: when the server ends, this ends)
    os._exit(0 if pump(stream.reading, 1) else 1)

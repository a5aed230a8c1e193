#!/usr/bin/env python3
"""Stands in for `pbstore run ROOT SESSION..` where a test needs a fault: `stand_in.py run ROOT SESSION..`. It keeps no snapshots.

OPEN_WRITER of a snapshot whose group is `host/disk`, `host/memory`, `host/kill` or `host/cut` makes the disk fail, lets want of memory end the
lane (its pipes stay open, as the program's do), kills the program, or kills it within the reply. After one of `host/room` a frame above 128 KiB
is answered NoMemory by its length, and ends the lane; after one of `host/short` the lane goes on. GC lasts as long as the file ROOT/.chunks/hold
is there. As it ends it leaves a file ROOT/.chunks/ended.
"""
import fcntl, os, signal, struct, sys, threading, time

LIMIT = 16_778_240
NONE, WRITER, READER = range(3)
faults = []


def frame(body):
    return struct.pack("<I", len(body)) + body


def read(pipe, size):
    found = b""
    while len(found) < size and (some := os.read(pipe, size - len(found))):
        found += some
    return found


class Lane:
    def __init__(self, root, path, out):
        self.root, self.path, self.out, self.state, self.offset, self.room = root, path, out, NONE, 0, LIMIT

    def say(self, body):
        view = frame(body)
        while view:
            view = view[os.write(self.out, view) :]

    def serve(self):
        pipe = os.open(self.path, os.O_RDONLY)
        while self.command(pipe):
            pass
        self.state = NONE

    def command(self, pipe):
        head = read(pipe, 4)
        size = struct.unpack("<I", head)[0] if len(head) == 4 else 0
        if not head:
            return False
        if size > LIMIT:
            return self.say(b"\2" + head)
        if size > self.room:
            return self.say(b"\x1c")
        body = read(pipe, size)
        if len(head) < 4 or not size or len(body) < size:
            return self.say(b"\1" + struct.pack("<Q", self.offset))
        reply = self.answer(body[0], body[1:])
        if reply is None:
            return self.say(b"\1" + struct.pack("<Q", self.offset))
        self.offset += 4 + size
        self.say(reply)
        return body[0] != 63 and not (reply == b"\x1c" and b"host/memory" in body)

    def answer(self, code, fields):
        if code == 63:
            self.state = NONE
            return b"\0"
        if faults:
            return b"\x1b" + struct.pack("<Q", 0)
        if code == 30:
            return b"\0\0\0"
        if code == 36:
            while os.path.exists(os.path.join(self.root, ".chunks", "hold")):
                time.sleep(0.01)
            return b"\0" + bytes(40)
        moves = {10: (NONE, WRITER), 18: (WRITER, NONE), 19: (WRITER, NONE), 14: (WRITER, WRITER), 20: (NONE, READER), 24: (READER, NONE)}
        if code not in moves:
            return None
        if self.state != moves[code][0]:
            return bytes([3, self.state])
        if code == 10 and (fault := self.fault(fields)):
            return fault
        if b"host/room" in fields[:10]:
            self.room = 1 << 17
        self.state = moves[code][1]
        return b"\0\0" if code == 10 else b"\0"

    def fault(self, fields):
        if b"host/disk" in fields:
            faults.append(1)
            return b"\x1a"
        if b"host/memory" in fields or b"host/short" in fields:
            return b"\x1c"
        if b"host/cut" in fields:
            os.write(self.out, struct.pack("<I", 1 << 20) + bytes(300_000))
        if b"host/kill" in fields or b"host/cut" in fields:
            os.kill(os.getpid(), signal.SIGKILL)
        return None


def main(words):
    root, paths = words[1], words[2:]
    folder = os.open(root, os.O_RDONLY)
    try:
        fcntl.flock(folder, fcntl.LOCK_EX | fcntl.LOCK_NB)
    except OSError:
        return 3
    lanes = [Lane(root, path, os.open(path + ".out", os.O_WRONLY)) for path in paths]
    threads = [threading.Thread(target=it.serve) for it in lanes]
    for it in threads:
        it.start()
    for it in threads:
        it.join()
    with open(os.path.join(root, ".chunks", "ended"), "w"):
        pass
    return 3 if faults else 0


if __name__ == "__main__":
    sys.exit(main(sys.argv[1:]))

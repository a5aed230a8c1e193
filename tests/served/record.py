"""Imported by a server under test, this writes down what each lane took and gave, and the run's order, in the folder RECORD: so `pbstore check`
can ask the reference model what the run should have answered."""
import os

from pbclient.served import lanes, runs

FOLDER = os.environ["RECORD"]
send, fill, start = lanes.Lane.send, lanes.Lane.fill, runs.Run.__init__


def keep(name, data):
    with open(os.path.join(FOLDER, str(name)), "ab") as file:
        file.write(data)


def kept_send(self, data, goes_on):
    keep(self.number, data)
    return send(self, data, goes_on)


def kept_fill(self, view, limit=None):
    fill(self, view, limit)
    keep(f"{self.number}.out", view)


def kept_start(self, words, count, work):
    for number in range(count):
        keep(number, b"")
        keep(f"{number}.out", b"")
    start(self, [*words, "--order", os.path.join(FOLDER, "order")], count, work)


lanes.Lane.send, lanes.Lane.fill, runs.Run.__init__ = kept_send, kept_fill, kept_start

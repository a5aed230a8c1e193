"""What each command prints, as text and as JSON, over a store of four snapshots: compared with the file `golden`, a command after another.

    WRITE_GOLDEN=1 python3 -m unittest tests/client/test_golden.py       writes the file anew, to be read before it is committed

Ages, free space and moments of today are shown by a word.
"""
import os, re, unittest

import stores

GOLDEN = os.path.join(stores.HERE, "golden")
COMMANDS = [
    "snapshots", "--json snapshots", "-v snapshots host/a", "-q snapshots", "check", "--json check", "check --read-data host/a", "verify",
    "--json verify vm/b", "-v verify host/a/latest", "stats", "--json stats", "forget --dry-run host/a/latest vm/b/latest", "forget host/a/latest",
    "--json forget host/a/latest", "prune --all --keep-last 1 --dry-run", "prune host/a --keep-daily 1 --keep-yearly 2",
    "--json prune host/a --keep-last 1 --gc", "gc", "--json gc", "-v copy --from OTHER --all", "--json copy --from OTHER vm/b",
    "--json init", "init", "run-config NIGHT", "--json run-config NIGHT", "help prune", "prune --help",
]
NIGHT = "[prune]\nall = yes\nkeep-last = 2\n\n[gc]\n\n[check]\nread-data = yes\n"
SHOWN = [
    (r"\d+ d \d+ h", "AGE"), (r'"age": \d+', '"age": AGE'), (r"[\d.,]+ [KMGT]iB free", "FREE free"), (r'"free": \d+', '"free": FREE'),
    (r"20(2[6-9]|[3-9]\d)-\d\d-\d\dT\d\d:\d\d:\d\dZ", "LATER"), (r"in (\d+ min )?\d+ s", "in TIME"),
]


def shown(text):
    for form, word in SHOWN:
        text = re.sub(form, word, text)
    return re.sub(" {2,}(?=\\S)", "  ", text)


class Golden(stores.WithStore):
    maxDiff = None

    def play(self, line, place):
        """What a command prints, on a store of its own."""
        other, root, night = (os.path.join(self.work, f"{it}-{place}") for it in ("other", "store", "night"))
        self.make(other)
        few = {stores.FIRST: stores.PIECES[stores.FIRST]} if "copy" in line else stores.PIECES
        self.make(root, {} if "init" in line else few)
        if line == "init":
            os.rename(root, f"{root}.empty")
        with open(night, "w") as out:
            out.write(NIGHT)
        words = [{"OTHER": other, "NIGHT": night}.get(it, it) for it in line.split()]
        status, out, said = self.call(*words, root=root)
        return shown(f"$ pbclient {line}\n{out}{''.join(f'! {it}{chr(10)}' for it in said.splitlines())}= {status}\n\n")

    def test_all(self):
        found = "".join(self.play(line, place) for place, line in enumerate(COMMANDS))
        if os.environ.get("WRITE_GOLDEN"):
            with open(GOLDEN, "w") as out:
                out.write(found)
        with open(GOLDEN) as it:
            self.assertEqual(it.read(), found)


if __name__ == "__main__":
    unittest.main()

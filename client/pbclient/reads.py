"""What a snapshot has, read from the store."""
import bisect, collections, itertools, json
from concurrent.futures import ThreadPoolExecutor

from . import session as s
from .catalog import ARCHIVE, CATALOG
from .queries import files_of, whole
from .talk import Refused

# So many ranges are asked for before the first one's reply is taken.
AHEAD = 3


def ranges(start, end, ends):
    """The parts of an archive that are asked for one by one. They end where pieces do, so that no piece is read twice, if pieces are short."""
    while start < end:
        limit = min(start + s.RANGE_LIMIT, end)
        place = bisect.bisect_right(ends, limit)
        stop = ends[place - 1] if place and ends[place - 1] > start and limit < end else limit
        yield start, stop - start
        start = stop


def stream(store, name, parts):
    """The bytes of these parts of an archive, whose index was asked for before. A thread takes the replies."""
    asked, parts = collections.deque(), iter(parts)
    with ThreadPoolExecutor(1) as worker:
        try:
            while True:
                for start, size in itertools.islice(parts, AHEAD - len(asked)):
                    store.send(s.range_of(name, start, size))
                    asked.append(worker.submit(store.reply))
                if not asked:
                    return
                yield asked.popleft().result()
        finally:
            # (each reply is taken, so that the next command gets its own)
            for it in asked:
                it.exception()


class Snapshot:
    """A snapshot that the session reads: `with Snapshot(store, name) as it`."""

    def __init__(self, store, name):
        self.store, self.name, self.ends, self.texts = store, name, {}, {}

    def __enter__(self):
        self.sizes = {it.name: it.size for it in files_of(self.store, self.name)}
        self.store.ask(s.open_reader(self.name))
        return self

    def __exit__(self, kind, *cause):
        if kind is None or issubclass(kind, Refused):
            self.store.ask(s.close_reader())

    def manifest(self):
        return json.loads(s.data_of(whole(self.store, s.download, s.MANIFEST)))

    def stream(self, name, start=0, end=None):
        """The bytes of an archive, in blocks."""
        if name not in self.ends:
            index = whole(self.store, s.download, name)
            self.ends[name] = [end for end, _ in s.read_ends(name, index)]
        return stream(self.store, name, ranges(start, self.sizes[name] if end is None else end, self.ends[name]))

    def catalogs(self):
        """The archives that have a catalog beside them, by their names without an ending."""
        found = [name[: -len(CATALOG)] for name in self.sizes if name.endswith(CATALOG)]
        return [it for it in sorted(found) if it + ARCHIVE in self.sizes]

    def catalog(self, archive):
        """The text of an archive's catalog. It is read once."""
        if archive not in self.texts:
            self.texts[archive] = b"".join(self.stream(archive + CATALOG))
        return self.texts[archive]

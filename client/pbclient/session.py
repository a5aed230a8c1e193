"""What a client of the store spells: frames, commands, replies, blobs, indexes and manifests, as docs/PROTOCOL.md and
docs/DATASTORE.md say. The one place of it in Python: the examples, the benches and the makers of test tables use it.

A command and a reply are bodies: bytes that begin with the command's code, or with 0 or a refusal's number. `frame` puts a
body's length before it, and a session is frames, one behind another.
"""
import hashlib, json, struct, uuid, zlib
from datetime import datetime, timezone

HEADER_SIZE, INDEX_HEADER = 12, 4096
PART_LIMIT = RANGE_LIMIT = 4 << 20
PIECE_LIMIT = 16 << 20
APPEND_LIMIT = 4096
MANIFEST = "index.json.blob"

BLOB_MAGIC = bytes([66, 171, 56, 7, 190, 131, 112, 161])
COMPRESSED_MAGIC = bytes([49, 185, 88, 66, 111, 182, 163, 127])
ENCRYPTED_MAGIC = bytes([123, 103, 133, 190, 34, 45, 76, 240])
BOTH_MAGIC = bytes([230, 89, 27, 191, 11, 191, 216, 11])
FIXED_MAGIC = bytes([47, 127, 65, 237, 145, 253, 15, 205])
DYNAMIC_MAGIC = bytes([28, 145, 78, 165, 25, 186, 179, 205])
BOOK_MAGIC = b"PBSBOOK1"

OPEN_WRITER, PREVIOUS, NEW_FIXED, NEW_DYNAMIC, CHUNK, APPEND, CLOSE_INDEX, BLOB, FINISH, ABORT = range(10, 20)
OPEN_READER, DOWNLOAD, GET_CHUNK, RANGE, CLOSE_READER = range(20, 25)
LIST, FILES, FORGET, PRUNE, VERIFY, SYNC, GC = range(30, 37)
GROUP, BYE = 40, 63

# The refusals by their numbers.
REFUSALS = {
    1: "BadFrame", 2: "TooLong", 3: "WrongState", 4: "BadName", 5: "GroupBusy", 6: "SnapshotBusy", 7: "NotNewer", 8: "NoSnapshot",
    9: "NoFile", 10: "Exists", 11: "BadBlob", 12: "WrongDigest", 13: "WrongSize", 14: "UnknownChunk", 15: "BadOffset",
    16: "BadClose", 17: "OpenIndexes", 18: "BadManifest", 19: "ManifestMismatch", 20: "NotAllowed", 21: "TooMany",
    22: "BadRange", 23: "Damaged", 24: "Unreadable", 25: "CollectorBusy", 26: "DiskFault", 27: "Halted", 28: "NoMemory",
    29: "NoRemote", 30: "RemoteFault",
}


def u16(value):
    return struct.pack("<H", value)


def u32(value):
    return struct.pack("<I", value)


def u64(value):
    return struct.pack("<Q", value)


def text(value):
    """One byte of length, and so many bytes."""
    value = value if isinstance(value, bytes) else value.encode()
    return bytes([len(value)]) + value


def sha256(data):
    return hashlib.sha256(data).digest()


# Frames


def frame(body):
    return u32(len(body)) + body


def frames(*bodies):
    return b"".join(map(frame, bodies))


def bodies_of(stream):
    """The bodies of the frames in a stream that can be read from, up to its end."""
    while len(head := stream.read(4)) == 4:
        size = struct.unpack("<I", head)[0]
        body = stream.read(size)
        if len(body) < size:
            return
        yield body


# Files


def blob(data, magic=BLOB_MAGIC, crc=None):
    """A magic number, the CRC-32 of the data, and the data."""
    return magic + u32(zlib.crc32(data) if crc is None else crc) + data


def data_of(text):
    """What a blob has behind its header."""
    return text[HEADER_SIZE:]


def uuid_of(snapshot, name):
    """The identifier of an archive: the version 5 one of its file's path, in the namespace of 16 zero bytes."""
    return uuid.uuid5(uuid.UUID(int=0), f"{snapshot}/{name}").bytes


def ends_of(pieces):
    """The pieces' digests, each with the offset at which the piece ends."""
    end, ends = 0, []
    for piece in pieces:
        end += len(piece)
        ends.append((end, sha256(piece)))
    return ends


def entries_of(ends):
    """The entries of a dynamic index: end offsets and digests."""
    return b"".join(u64(end) + digest for end, digest in ends)


def dynamic_csum(pieces):
    return sha256(entries_of(ends_of(pieces)))


def fixed_csum(pieces):
    return sha256(b"".join(map(sha256, pieces)))


def fixed_header(identifier, ctime, csum, size, chunk_size):
    """A fixed index up to its reserved bytes."""
    return FIXED_MAGIC + identifier + struct.pack("<q", ctime) + csum + u64(size) + u64(chunk_size)


def dynamic_header(identifier, ctime, csum):
    """A dynamic index up to its reserved bytes."""
    return DYNAMIC_MAGIC + identifier + struct.pack("<q", ctime) + csum


def fixed_index(snapshot, name, ctime, pieces, chunk_size=4096):
    header = fixed_header(uuid_of(snapshot, name), ctime, fixed_csum(pieces), sum(map(len, pieces)), chunk_size)
    return header.ljust(INDEX_HEADER, b"\0") + b"".join(map(sha256, pieces))


def dynamic_index(snapshot, name, ctime, pieces):
    header = dynamic_header(uuid_of(snapshot, name), ctime, dynamic_csum(pieces))
    return header.ljust(INDEX_HEADER, b"\0") + entries_of(ends_of(pieces))


def read_ends(name, index):
    """The digests of an index, each with the offset at which its piece ends; by its header and entries."""
    entries = index[INDEX_HEADER:]
    if name.endswith(".fidx"):
        size, chunk_size = struct.unpack("<QQ", index[64:80])
        digests = [entries[at : at + 32] for at in range(0, len(entries), 32)]
        return [(min(size, (i + 1) * chunk_size), digest) for i, digest in enumerate(digests)]
    return [(struct.unpack("<Q", entries[at : at + 8])[0], entries[at + 8 : at + 40]) for at in range(0, len(entries), 40)]


def time_of(snapshot):
    """The time of a snapshot's text, in seconds since 1970."""
    at = datetime.strptime(snapshot.split("/")[2], "%Y-%m-%dT%H:%M:%SZ")
    return int(at.replace(tzinfo=timezone.utc).timestamp())


def listed(name, size, csum):
    """A file as a manifest lists it: of an index the archive's size and the index's checksum, of a blob those of its file."""
    return {"crypt-mode": "none", "csum": csum.hex(), "filename": name, "size": size}


def listed_blob(name, file):
    return listed(name, len(file), sha256(file))


def manifest(snapshot, *files, **more):
    """A manifest of these files, with other keys, which the store keeps and does not look at."""
    kind, identifier, _ = snapshot.split("/")
    whole = {"backup-id": identifier, "backup-time": time_of(snapshot), "backup-type": kind, "files": list(files), **more}
    return json.dumps(whole, separators=(",", ":")).encode()


def signed(front):
    """What ends in the SHA-256 of all before it."""
    return front + sha256(front)


def book_of(touches, moment, count, magic=BOOK_MAGIC):
    """The book of last touches: digests with moments, which should rise by digests."""
    return signed(magic + u64(moment) + u64(count) + b"".join(digest + u64(at) for digest, at in touches))


def book(moment, *touches):
    """The book of these pieces' last touches, by their digests."""
    rows = sorted((sha256(piece), at) for piece, at in touches)
    return book_of(rows, moment, len(rows))


# Commands


def open_writer(snapshot):
    return bytes([OPEN_WRITER]) + text(snapshot)


def previous(name, offset=0):
    return bytes([PREVIOUS]) + text(name) + u64(offset)


def new_fixed(name, size, chunk_size):
    return bytes([NEW_FIXED]) + text(name) + u64(size) + u64(chunk_size)


def new_dynamic(name):
    return bytes([NEW_DYNAMIC]) + text(name)


def chunk(piece):
    return chunk_as(sha256(piece), blob(piece))


def chunk_as(digest, file):
    return bytes([CHUNK]) + digest + file


def append(number, *pieces):
    """Pieces with the offsets at which they begin."""
    return append_digests(number, [(sha256(piece), offset) for piece, offset in pieces])


def append_digests(number, entries):
    return bytes([APPEND, number]) + u16(len(entries)) + b"".join(digest + u64(offset) for digest, offset in entries)


def close_index(number, count, size, csum):
    return bytes([CLOSE_INDEX, number]) + u64(count) + u64(size) + csum


def put(name, data):
    """BLOB of these data."""
    return put_file(name, blob(data))


def put_file(name, file):
    """BLOB of this file."""
    return bytes([BLOB]) + text(name) + file


def put_manifest(snapshot, *files):
    return put(MANIFEST, manifest(snapshot, *files))


def finish():
    return bytes([FINISH])


def abort():
    return bytes([ABORT])


def open_reader(snapshot):
    return bytes([OPEN_READER]) + text(snapshot)


def download(name, offset=0):
    return bytes([DOWNLOAD]) + text(name) + u64(offset)


def get_chunk(digest):
    return bytes([GET_CHUNK]) + digest


def range_of(name, offset, length):
    return bytes([RANGE]) + text(name) + u64(offset) + u32(length)


def close_reader():
    return bytes([CLOSE_READER])


def list_after(snapshot=""):
    return bytes([LIST]) + text(snapshot)


def files(snapshot):
    return bytes([FILES]) + text(snapshot)


def forget(snapshot):
    return bytes([FORGET]) + text(snapshot)


def prune(group, last=0, hourly=0, daily=0, weekly=0, monthly=0, yearly=0, dry=0):
    counts = (last, hourly, daily, weekly, monthly, yearly)
    return bytes([PRUNE]) + text(group) + b"".join(map(u16, counts)) + bytes([dry])


def verify(snapshot):
    return bytes([VERIFY]) + text(snapshot)


def sync(group):
    return bytes([SYNC]) + text(group)


def gc():
    return bytes([GC])


def group(name):
    return bytes([GROUP]) + text(name)


def bye():
    return bytes([BYE])


# Replies


def done():
    return b"\0"


def number(value):
    """The number of a new index."""
    return bytes([0, value])


def base(snapshot=""):
    """The base that a writer has, if any."""
    return b"\0" + text(snapshot)


def part(whole, offset=0):
    """Of a file: its size, and what is left from the offset, 4 MiB at most."""
    return b"\0" + u64(len(whole)) + whole[offset : offset + PART_LIMIT]


def rest(data):
    """A chunk's blob, or the bytes of a range."""
    return b"\0" + data


def rows(*snapshots):
    """Snapshots as LIST tells them, with their number of files, or None for a damaged one."""
    return b"\0" + u16(len(snapshots)) + b"".join(text(it) + bytes([count is None, count or 0]) for it, count in snapshots)


def keys(*snapshots):
    """Snapshots as GROUP and SYNC tell them."""
    return b"\0" + u16(len(snapshots)) + b"".join(map(text, snapshots))


def file_rows(*files):
    """Files as FILES tells them: name, size, checksum."""
    return b"\0" + bytes([len(files)]) + b"".join(text(name) + u64(size) + csum for name, size, csum in files)


def marks(*snapshots):
    """Snapshots as PRUNE tells them: 0 removed, 1 kept, 2 held, 3 gone."""
    return b"\0" + u16(len(snapshots)) + b"".join(text(it) + bytes([mark]) for it, mark in snapshots)


def file_fault(name, code, digest=bytes(32)):
    """A file's first fault: 19 it differs, 23 the chunk of this digest is damaged, 24 it is missing or doesn't decode."""
    return text(name) + bytes([code]) + digest


def verified(files, entries, size, *faults):
    """How many files a VERIFY read, how many entries of indexes, and how many bytes these are; and the faults."""
    return b"\0" + bytes([files]) + u64(entries) + u64(size) + bytes([len(faults)]) + b"".join(faults)


def collected(start, cutoff, used, pending, removed):
    """A collection's start and cutoff, and how many chunks are used, pending and removed."""
    return b"\0" + b"".join(map(u64, (start, cutoff, used, pending, removed)))


def refused(number, *fields):
    return bytes([number]) + b"".join(fields)


def bad_frame(offset):
    return refused(1, u64(offset))


def too_long(length):
    return refused(2, u32(length))


def wrong_state(state):
    """0 no session, 1 a writer, 2 a reader."""
    return refused(3, bytes([state]))


def bad_name():
    return refused(4)


def group_busy(lane):
    return refused(5, u32(lane))


def snapshot_busy(lane):
    return refused(6, u32(lane))


def not_newer(snapshot):
    """The latest of the group."""
    return refused(7, u64(time_of(snapshot)))


def no_snapshot():
    return refused(8)


def no_file():
    return refused(9)


def exists():
    return refused(10)


def bad_blob(cause):
    return refused(11, bytes([cause]))


def wrong_crc(kept, found):
    return refused(11, bytes([7]), u32(kept), u32(found))


def wrong_digest(found):
    return refused(12, found)


def wrong_size(place, size):
    return refused(13, u32(place), u64(size))


def unknown_chunk(place):
    return refused(14, u32(place))


def bad_offset(place, expected):
    return refused(15, u32(place), u64(expected))


def bad_close(field, expected):
    """1 count, 2 size, 3 csum, 4 rest; the expected checksum or number."""
    return refused(16, bytes([field]), expected if isinstance(expected, bytes) else u64(expected).ljust(32, b"\0"))


def open_indexes(count):
    return refused(17, bytes([count]))


def bad_manifest(cause):
    return refused(18, bytes([cause]))


def mismatch(field, file=""):
    return refused(19, text(file), bytes([field]))


def not_allowed():
    return refused(20)


def too_many(limit):
    return refused(21, u32(limit))


def bad_range(size):
    return refused(22, u64(size))


def damaged(digest, found, other=bytes(32)):
    """0 nothing is there, 1 no blob, 2 the blob of another digest, which is told."""
    return refused(23, digest, bytes([found]), other)


def unreadable(path):
    return refused(24, text(path))


def collector_busy(lane):
    return refused(25, u32(lane))


def disk_fault():
    return refused(26)


def halted(entry):
    return refused(27, u64(entry))


def no_memory():
    return refused(28)


def no_remote():
    return refused(29)

"""Tar members: their headers, in the PAX form, and the reader of them.

A header keeps what a file system has of a file: nanoseconds, extended attributes (with them POSIX ACLs and capabilities, which Linux keeps
as such), holes. GNU tar and Python's `tarfile` read it. It is spelled here since `tarfile` writes records of bytes, such as a capability or a
name that is not UTF-8, under a keyword that GNU tar does not know.
"""
import errno, functools, os, re, stat, struct, zlib
from typing import NamedTuple

from .failures import DAMAGED, Failure

BLOCK = 512
END = bytes(2 * BLOCK)
# What has room in a header: names, small numbers, sizes and times.
NAME_LIMIT, OWNER_LIMIT, NUMBER_LIMIT, SIZE_LIMIT = 100, 32, 8**7, 8**11
# A record of a header has this many bytes at most when it is read. Linux keeps 64 KiB of an attribute, and 64 KiB of their names.
RECORDS_LIMIT = 64 << 20
XATTR = b"SCHILY.xattr."

FILE, HARD_LINK, LINK, CHARACTER, DEVICE, FOLDER, PIPE = b"0", b"1", b"2", b"3", b"4", b"5", b"6"
RECORDS, RECORDS_OF_ALL = b"x", b"g"
KINDS = {stat.S_IFREG: FILE, stat.S_IFLNK: LINK, stat.S_IFCHR: CHARACTER, stat.S_IFBLK: DEVICE, stat.S_IFDIR: FOLDER, stat.S_IFIFO: PIPE}


# The fields of a header: name, mode, uid, gid, size, mtime, checksum, kind, target, user, group, device, and what stands before the name.
FIELDS = struct.Struct("100s8s8s8s12s12s8sc100s8x32s32s8s8s155s12x")
SIZE, CHECKSUM, KIND = 4, 6, 7
ZEROS_OF_CHECKSUM = bytes(8)
RECORD, TIME = re.compile(b"([0-9]+) "), re.compile(rb"(-?)([0-9]+)(?:\.([0-9]*))?")


class Damaged(Failure):
    """What is read is no tar stream, or no catalog, of this client."""

    def __init__(self, what):
        super().__init__(what, "pbclient check and verify tell what is damaged; `pbclient dump` gives the archive as it is", DAMAGED)


class Member(NamedTuple):
    """What a header says. Names are bytes, `mtime` is in nanoseconds since 1970; `size` is the file's, `stored` what the stream has of it.

    `segments` are the parts of a file with holes that are stored, by offset and length, or None when it is stored whole.
    """

    name: bytes
    kind: bytes
    mode: int = 0
    uid: int = 0
    gid: int = 0
    user: bytes = b""
    group: bytes = b""
    size: int = 0
    stored: int = 0
    mtime: int = 0
    target: bytes = b""
    device: tuple = (0, 0)
    xattrs: tuple = ()
    segments: tuple = None


def padding(size):
    """The zeros behind so many bytes, up to a whole block."""
    return bytes(-size % BLOCK)


# Writing


def fitting(value, limit):
    """A number as a header has it, or 0 when it has no room there: a record tells it then."""
    return value if 0 <= value < limit else 0


def record(keyword, value):
    """A PAX record, which begins with its own length."""
    rest = b" %s=%s\n" % (keyword, value)
    size = len(rest) + len(b"%d" % len(rest))
    if len(b"%d" % size) + len(rest) > size:
        size += 1
    return b"%d%s" % (size, rest)


def time_text(nanoseconds):
    """Nanoseconds since 1970 as seconds with a fraction."""
    seconds, rest = divmod(abs(nanoseconds), 10**9)
    return b"%s%d.%09d" % (b"-" if nanoseconds < 0 else b"", seconds, rest)


def sum_of(data):
    """The sum of some hundred bytes, as the low half of an Adler-32 has it."""
    return (zlib.adler32(data) & 0xFFFF) - 1


def block(member, stored):
    """The 512 bytes of a header; what has no room is cut."""
    name, target, user, group = member.name, member.target, member.user, member.group
    front = b"%s%07o\0%07o\0%07o\0%011o\0%011o\0" % (
        (name + b"/" if member.kind == FOLDER else name)[:NAME_LIMIT].ljust(NAME_LIMIT, b"\0"), member.mode,
        fitting(member.uid, NUMBER_LIMIT), fitting(member.gid, NUMBER_LIMIT), fitting(stored, SIZE_LIMIT),
        fitting(member.mtime // 10**9, SIZE_LIMIT))
    back = b"%s%sustar\x0000%s%s%07o\0%07o\0" % (
        member.kind, target[:NAME_LIMIT].ljust(NAME_LIMIT, b"\0"), user[:OWNER_LIMIT].ljust(OWNER_LIMIT, b"\0"),
        group[:OWNER_LIMIT].ljust(OWNER_LIMIT, b"\0"), *member.device)
    return (b"%s%06o\0 %s" % (front, sum_of(front) + sum_of(back) + 8 * ord(" "), back)).ljust(BLOCK, b"\0")


@functools.lru_cache(maxsize=None)
def block_of_records(size):
    return block(Member(b"././@PaxHeader", RECORDS), size)


def xattr_record(name, value):
    """An extended attribute; `%` and `=` in its name as GNU tar spells them."""
    return record(XATTR + os.fsencode(name).replace(b"%", b"%25").replace(b"=", b"%3D"), value)


def sparse_records(name, size):
    return b"".join([
        record(b"GNU.sparse.major", b"1"), record(b"GNU.sparse.minor", b"0"), record(b"GNU.sparse.name", name),
        record(b"GNU.sparse.realsize", b"%d" % size)])


def sparse_map(segments):
    """What stands before the stored parts of a file with holes: how many there are, and of each the offset and the length."""
    numbers = [len(segments), *(number for segment in segments for number in segment)]
    text = b"".join(b"%d\n" % number for number in numbers)
    return text + padding(len(text))


def records_of(member, stored):
    """The PAX records of what has no room in a header, or no exact place."""
    found = b"".join([xattr_record(name, value) for name, value in member.xattrs])
    if member.mtime % 10**9 or not 0 <= member.mtime < SIZE_LIMIT * 10**9:
        found += record(b"mtime", time_text(member.mtime))
    if member.segments is not None:
        found += sparse_records(member.name, member.size)
    elif len(member.name) >= NAME_LIMIT:
        found += record(b"path", member.name)
    if len(member.target) > NAME_LIMIT:
        found += record(b"linkpath", member.target)
    if stored >= SIZE_LIMIT or member.uid >= NUMBER_LIMIT or member.gid >= NUMBER_LIMIT:
        numbers = ((b"size", stored, SIZE_LIMIT), (b"uid", member.uid, NUMBER_LIMIT), (b"gid", member.gid, NUMBER_LIMIT))
        found += b"".join([record(keyword, b"%d" % value) for keyword, value, limit in numbers if value >= limit])
    if len(member.user) > OWNER_LIMIT:
        found += record(b"uname", member.user)
    if len(member.group) > OWNER_LIMIT:
        found += record(b"gname", member.group)
    return found


def header(member):
    """A member's header, and behind it the map of a file with holes. What the stream has of the file is to follow."""
    before = b"" if member.segments is None else sparse_map(member.segments)
    stored = member.stored + len(before)
    records = records_of(member, stored)
    if records:
        records = block_of_records(len(records)) + records + padding(len(records))
    return records + block(member, stored) + before


def segments_of(file, status):
    """The parts of an open file that are no holes, or None when it has none or the system does not tell."""
    if status.st_blocks * 512 >= status.st_size:
        return None
    found, at, size = [], 0, status.st_size
    try:
        while at < size:
            start = os.lseek(file, at, os.SEEK_DATA)
            at = min(size, os.lseek(file, start, os.SEEK_HOLE))
            found.append((start, at - start))
    except OSError as error:
        if error.errno != errno.ENXIO:
            return None
    if found == [(0, size)]:
        return None
    # (a hole at the end is told by an empty part there)
    return tuple(found if found and sum(found[-1]) == size else [*found, (size, 0)])


def xattrs_of(file):
    """The extended attributes of a path, not of what it links to, or of an open file; none where the file system has none."""
    try:
        follow = {} if isinstance(file, int) else {"follow_symlinks": False}
        names = os.listxattr(file, **follow)
        return tuple([(name, os.getxattr(file, name, **follow)) for name in sorted(names)]) if names else ()
    except OSError as error:
        if error.errno in (errno.ENOTSUP, errno.ENODATA, errno.EPERM, errno.EACCES):
            return ()
        raise


# Reading


def text_of(field):
    return field.partition(b"\0")[0]


def number_of(field):
    """A number of a header: octal digits, or bytes behind a sign in the first as GNU tar writes large ones."""
    if field[0] in (0o200, 0o377):
        return int.from_bytes(field[1:], "big") - (256 ** (len(field) - 1) if field[0] == 0o377 else 0)
    return whole_number(field.strip(b" \0") or b"0", 8)


def whole_number(digits, base=10):
    try:
        if digits.isdigit():
            return int(digits, base)
    except ValueError:
        pass
    raise Damaged("a header has no number where one should be")


def read_records(data):
    """The records of a PAX header, by their keywords."""
    found, at = {}, 0
    while at < len(data):
        length = RECORD.match(data, at)
        end = at + int(length[1]) if length else 0
        keyword, sign, value = data[length.end() : end - 1].partition(b"=") if length else (b"", b"", b"")
        if not sign or end > len(data):
            raise Damaged("a header's records are not whole")
        found[keyword] = value
        at = end
    return found


def time_of(text):
    """Nanoseconds of seconds with a fraction."""
    parts = TIME.fullmatch(text)
    if not parts:
        raise Damaged("a header has no time where one should be")
    value = int(parts[2]) * 10**9 + int((parts[3] or b"")[:9].ljust(9, b"0"))
    return -value if parts[1] else value


def read_map(read, stored):
    """The parts of a file with holes, and how many bytes their map has."""

    def whole(lines):
        nonlocal text
        while text.count(b"\n") < lines:
            if len(text) >= stored:
                raise Damaged("the map of a file with holes is not whole")
            text += read(BLOCK)
        return text.split(b"\n")

    text = b""
    count = whole_number(whole(1)[0])
    numbers = [whole_number(it) for it in whole(1 + 2 * count)[1 : 1 + 2 * count]]
    return tuple(zip(numbers[::2], numbers[1::2])), len(text)


def read_block(read):
    """The fields of the next header; None where the stream has zeros in its place."""
    head = read(BLOCK)
    fields = FIELDS.unpack(head)
    if fields[CHECKSUM] == ZEROS_OF_CHECKSUM and not any(head):
        return None
    # (of so few bytes a sum is the low half of their Adler-32)
    found = sum_of(head[: BLOCK // 2]) + sum_of(head[BLOCK // 2 :]) - sum(fields[CHECKSUM]) + 8 * ord(" ")
    if number_of(fields[CHECKSUM]) != found:
        raise Damaged("a header has a wrong checksum")
    return fields


def read_member(read):
    """The next member of a stream, by a call that gives so many bytes of it; None at its end. Its file's bytes come next in the stream."""
    extra = {}
    while True:
        fields = read_block(read)
        if fields is None:
            return None
        kind, size = fields[KIND], number_of(fields[SIZE])
        if kind not in (RECORDS, RECORDS_OF_ALL):
            return with_records(fields, FILE if kind == b"\0" else kind, extra, read)
        if size > RECORDS_LIMIT:
            raise Damaged("a header's records are too long")
        data = read(size + -size % BLOCK)[:size]
        if kind == RECORDS:
            extra = read_records(data)


def numbered(extra, keyword, field):
    """A number of the records, or else of the header."""
    return whole_number(extra[keyword]) if keyword in extra else number_of(field)


def with_records(fields, kind, extra, read):
    """A member of its header and its records."""
    name, mode, uid, gid, stored, mtime, _, _, target, user, group, major, minor, prefix = fields
    stored = numbered(extra, b"size", stored) if kind == FILE else 0
    name = extra.get(b"path") or (text_of(prefix) + b"/" if prefix[0] else b"") + text_of(name)
    size, segments = stored, None
    if extra.get(b"GNU.sparse.major") == b"1":
        name, size = extra.get(b"GNU.sparse.name", name), whole_number(extra.get(b"GNU.sparse.realsize", b""))
        segments, before = read_map(read, stored)
        stored -= before
    xattrs = tuple([
        (os.fsdecode(key[len(XATTR) :].replace(b"%3D", b"=").replace(b"%25", b"%")), value)
        for key, value in extra.items() if key.startswith(XATTR)])
    return Member(
        name.rstrip(b"/") if kind == FOLDER else name, kind, number_of(mode) & 0o7777, numbered(extra, b"uid", uid),
        numbered(extra, b"gid", gid), extra.get(b"uname") or text_of(user), extra.get(b"gname") or text_of(group), size, stored,
        time_of(extra[b"mtime"]) if b"mtime" in extra else number_of(mtime) * 10**9, extra.get(b"linkpath") or text_of(target),
        (number_of(major), number_of(minor)) if kind in (CHARACTER, DEVICE) else (0, 0), xattrs, segments)

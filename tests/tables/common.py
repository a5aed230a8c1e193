"""Snapshots, pieces and files that several tables have."""
from pbclient.session import *

A = "host/a/2020-01-15T06:30:03Z"
A_LATER = "host/a/2020-01-15T06:30:04Z"
B = "host/b/2020-01-15T06:30:03Z"
# Snapshots of one day, by the hour.
TEN, ELEVEN, NOON = (f"host/a/2020-01-15T{hour}:00:00Z" for hour in (10, 11, 12))
# Pieces of 4,096 bytes.
X, ZEROS = b"x" * 4096, bytes(4096)
# What the clock of the tests tells: an index keeps it as the time when it was begun.
NOW = 1_600_000_000
ROOT = dynamic_index(A, "root.didx", NOW, [b"abc", b"de"])
# A manifest without crypt-mode, which lists `a.conf.blob`, the blob of `123456789`.
CONF_LISTED = (
    b'{"backup-id":"a","backup-time":1579069803,"backup-type":"host","files":[{"filename":"a.conf.blob","size":21,'
    b'"csum":"69dcb4830c28203c26a1dade2d893d7f1d13cdba5eb39e348b008f3a5a0fb688"}]}'
)
# What a manifest lists of a blob and an archive.
BOTH_LISTED = [listed_blob("a.conf.blob", blob(b"123456789")), listed("root.didx", 5, dynamic_csum([b"abc", b"de"]))]

# A datastore of two snapshots, whose manifests have no crypt-mode: of an archive of `abc` and `de`, one of pieces of 4,096 bytes, and a blob,
# whose manifest lists itself too; and of nothing. The indexes have identifiers and times of their own.
A_B = "host/a-b/2020-01-15T06:30:03Z"
NO_CSUM = b"0" * 64
A_LISTED = b",".join(
    b'{"filename":"%s","size":%d,"csum":"%s"}' % (name, size, NO_CSUM)
    for name, size in ((b"set.blob", 15), (b"root.fidx", 4097), (b"index.json.blob", 1), (b"root.didx", 5))
)
OTHER_BLOB = blob(b'{"backup-type":"host","backup-id":"a-b","backup-time":1579069803,"files":[]}')
TWO_SNAPSHOTS = {
    **{f".chunks/{sha256(it).hex()[:4]}/{sha256(it).hex()}": blob(it) for it in (ZEROS, b"x", b"abc", b"de")},
    f"{A}/root.fidx": fixed_header(bytes([1]) * 16, 1579069803, fixed_csum([ZEROS, b"x"]), 4097, 4096).ljust(INDEX_HEADER, b"\0")
    + sha256(ZEROS)
    + sha256(b"x"),
    f"{A}/root.didx": dynamic_header(bytes([2]) * 16, -1, dynamic_csum([b"abc", b"de"])).ljust(INDEX_HEADER, b"\0")
    + entries_of(ends_of([b"abc", b"de"])),
    f"{A}/set.blob": blob(b"set"),
    f"{A}/{MANIFEST}": blob(b'{"backup-type":"host","backup-id":"a","backup-time":1579069803,"files":[%s]}' % A_LISTED),
    f"{A_B}/{MANIFEST}": OTHER_BLOB,
}


def many_listed(count):
    """The blob of a manifest that lists so many empty blobs."""
    return blob(manifest(A, *(listed_blob(f"x{number}.blob", blob(b"")) for number in range(10, 10 + count))))


def order(*entries, magic=b"PBSORDER"):
    """The order file of these lanes, moments and kinds."""
    return magic + b"".join(u32(lane) + u64(moment) + bytes([kind]) for lane, moment, kind in entries)

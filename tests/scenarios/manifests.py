"""Manifests that FINISH refuses. The writer goes on: the manifest is there, and the backup can be aborted."""
import json

from scenarios.backups import *

CONF, SENT_CONF = blob(b"123456789"), listed_blob("a.conf.blob", blob(b"123456789"))
ROOT_ROW = listed("root.didx", 5, BOTH_CSUM)


def written(**fields):
    """A manifest with these fields in the place of its own."""
    whole = {"backup-id": "a", "backup-time": 1579069803, "backup-type": "host", "files": []}
    return json.dumps({**whole, **{name.replace("_", "-"): it for name, it in fields.items()}}, separators=(",", ":")).encode()


def with_rows(*its_files):
    return written(files=list(its_files))


def row(**fields):
    """The archive's row with these fields in the place of its own."""
    return {**ROOT_ROW, **{name.replace("_", "-"): it for name, it in fields.items()}}


# A manifest's bytes, and what is wrong in it.
BAD = [
    # 1: not UTF-8, and no JSON
    (b"\xff", bad_manifest(1)),
    (b"{", bad_manifest(1)),
    # 2: no object; a key missing, of another kind, or outside its grammar
    (b"[]", bad_manifest(2)),
    (b'{"backup-id":"a","backup-time":1579069803,"files":[]}', bad_manifest(2)),
    (manifest("pc/a/2020-01-15T06:30:03Z"), bad_manifest(2)),
    (manifest("host/-a/2020-01-15T06:30:03Z"), bad_manifest(2)),
    (written(backup_time=5.0), bad_manifest(2)),
    (written(backup_time=253402300800), bad_manifest(2)),
    (written(files={}), bad_manifest(2)),
    # 2 before 3
    (written(backup_time="1", files=[1]), bad_manifest(2)),
    # 3: a row that is none, or has a field outside its grammar
    (with_rows(1), bad_manifest(3)),
    (manifest(A, listed("root", 5, BOTH_CSUM)), bad_manifest(3)),
    (manifest(A, listed("root.didx", -5, BOTH_CSUM)), bad_manifest(3)),
    (with_rows(row(csum=BOTH_CSUM.hex()[1:])), bad_manifest(3)),
    # 3 before 5, and 5 before 4 in one entry; the first entry first
    (with_rows(row(crypt_mode="encrypt", size="5")), bad_manifest(3)),
    (with_rows(ROOT_ROW, row(crypt_mode="encrypt")), bad_manifest(5)),
    (with_rows(row(crypt_mode=None), 1), bad_manifest(5)),
    (with_rows(ROOT_ROW, ROOT_ROW, 1), bad_manifest(4)),
    # 4 before what differs
    (manifest(B, ROOT_ROW, ROOT_ROW), bad_manifest(4)),
]
# And what differs from what was sent: 1 before 2, 2 before 3, 3 before the files.
DIFFERING = [
    (manifest("vm/b/2020-01-15T06:30:03Z", SENT_CONF, ROOT_ROW), mismatch(1)),
    (manifest("host/b/1970-01-01T00:00:01Z", SENT_CONF, ROOT_ROW), mismatch(2)),
    (manifest(A_LATER), mismatch(3)),
    # 4: not uploaded, and the manifest itself
    (manifest(A, SENT_CONF, ROOT_ROW, listed_blob("b.blob", CONF)), mismatch(4, "b.blob")),
    (manifest(A, listed(MANIFEST, 21, sha256(b"")), SENT_CONF), mismatch(4, MANIFEST)),
    # 6 before 7, and both before 5; the first that is listed comes first
    (manifest(A, listed("root.didx", 6, BOTH_CSUM)), mismatch(6, "root.didx")),
    (manifest(A, SENT_CONF, listed("root.didx", 6, sha256(b""))), mismatch(6, "root.didx")),
    (manifest(A, listed("root.didx", 5, sha256(b""))), mismatch(7, "root.didx")),
    (manifest(A, listed("root.didx", 5, sha256(b"")), listed("b.blob", 21, BOTH_CSUM)), mismatch(7, "root.didx")),
    (manifest(A, listed("a.conf.blob", 9, sha256(CONF)), ROOT_ROW), mismatch(6, "a.conf.blob")),
    (manifest(A, listed("a.conf.blob", 21, sha256(b"123456789")), ROOT_ROW), mismatch(7, "a.conf.blob")),
    # 5: the first upload in byte order
    (manifest(A), mismatch(5, "a.conf.blob")),
    (manifest(A, SENT_CONF), mismatch(5, "root.didx")),
]


def refused_manifest(number, data, reply):
    turns = [
        *ROOT_SENT,
        (put("a.conf.blob", b"123456789"), DONE),
        (put(MANIFEST, data), DONE),
        (finish(), reply),
        (ROOT_FINISHED[0][0], exists()),
        (abort(), DONE),
    ]
    return alone_and_beside(f"manifest {number}: {reply_word(reply)}", turns, [(DE, 14), (ABC, 15)])


SCENARIOS = [kept_backup(BESIDE, EARLIER), *(refused_manifest(number, *it) for number, it in enumerate(BAD + DIFFERING))]

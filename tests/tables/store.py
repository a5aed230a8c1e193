"""Sessions in memory, and chunks and files on a disk."""
from pbclient.session import *
from tables.common import *

# Of a manifest of `host/a-b` that lists nothing.
OTHER_BLOB = blob(b'{"backup-type":"host","backup-id":"a-b","backup-time":1579069803,"files":[]}')

TABLES = {
    "store_tests/src/backup.rt": {
        "CSUM": [dynamic_csum([b"abc", b"de"])],
        "FIRST": [sha256(bytes([7]) * 32)],
        "BOTH": [sha256(bytes([7]) * 32 + bytes([9]) * 32)],
    },
    "store_tests/src/chunks.rt": {
        "ABC_BLOB": [blob(b"abc")],
        "EMPTY": [blob(b"")],
        "DIGITS": [sha256(b"123456789")],
        "DAMAGE": [
            blob(b"abd", crc=0x352441c2),
            blob(b"123456789"),
        ],
    },
    "store_tests/src/fixtures.rt": {
        "ABC": [sha256(b"abc")],
        "DE": [sha256(b"de")],
        "NOTHING": [sha256(b"")],
    },
    "store_tests/src/opening.rt": {
        "EMPTY": [OTHER_BLOB],
    },
    "store_tests/src/snapshots.rt": {
        "OTHER_BLOB": [OTHER_BLOB],
    },
}

"""The sessions that the program makes itself, by the rules of their pieces and commands alone."""
from pbclient.session import *

ARCHIVE = "root.didx"
# The reading of the clock, which stands.
STILL = 1_600_000_000


def after(number):
    """The next number of the linear congruential sequence."""
    return (number * 6364136223846793005 + 1442695040888963407) % 2**64


def piece(seed):
    """The first number behind the seed tells the length, the top bytes of those behind it are the bytes."""
    number = after(seed)
    made = bytearray()
    for _ in range(1024 + (number >> 52)):
        number = after(number)
        made.append(number >> 56)
    return bytes(made)


def pieces_of(lane, place):
    """The pieces of a snapshot: the even ones are those of all lanes and snapshots."""
    return [piece(at if at % 2 == 0 else lane * 2**32 + place * 65536 + at) for at in range(64)]


def snapshot_of(lane, place):
    return f"host/g{lane}/2020-01-0{place + 1}T00:00:00Z"


def backup(lane, place):
    """The commands of a snapshot."""
    snapshot, pieces = snapshot_of(lane, place), pieces_of(lane, place)
    size, csum = sum(map(len, pieces)), dynamic_csum(pieces)
    yield open_writer(snapshot)
    if place:
        yield previous(ARCHIVE)
    yield new_dynamic(ARCHIVE)
    for at, it in enumerate(pieces):
        if place == 0 or at % 2 == 1:
            yield chunk(it)
    starts = [0] + [end for end, _ in ends_of(pieces)]
    yield append(0, *zip(pieces, starts))
    yield close_index(0, len(pieces), size, csum)
    yield put_manifest(snapshot, listed(ARCHIVE, size, csum))
    yield finish()


def commands(lane):
    if lane == 0:
        return [gc()] * 4 + [bye()]
    made = [command for place in range(4) for command in backup(lane, place)]
    return made + [verify(snapshot_of(lane, 3)), forget(snapshot_of(lane, 0)), prune(f"host/g{lane}", last=2), bye()]


def generated(lane):
    """The input of a lane."""
    return frames(*commands(lane))


def index_of(lane, place):
    return dynamic_index(snapshot_of(lane, place), ARCHIVE, STILL, pieces_of(lane, place))


def replies_to(lane):
    """What a lane but lane 0 is told on an empty datastore."""
    told = []
    for place in range(4):
        told += [base(snapshot_of(lane, place - 1)), part(index_of(lane, place - 1))] if place else [base()]
        told += [number(0)] + [done()] * (36 if place else 68)
    told += [verified(2, 64, sum(map(len, pieces_of(lane, 3)))), done()]
    return frames(*told, marks(*((snapshot_of(lane, place), place > 1) for place in (3, 2, 1))), done())


def later_replies_to(lane):
    """What it is told where the same sessions were served before: no snapshot is newer."""
    told = [
        not_newer(snapshot_of(lane, 3)) if command == open_writer(snapshot_of(lane, place)) else wrong_state(0)
        for place in range(4)
        for command in backup(lane, place)
    ]
    told += [verified(2, 64, sum(map(len, pieces_of(lane, 3)))), no_snapshot()]
    return frames(*told, marks(*((snapshot_of(lane, place), 1) for place in (3, 2))), done())


def kept(lanes):
    """The snapshots that are there then, with the numbers of their files."""
    return [(snapshot_of(lane, place), 2) for lane in range(1, lanes + 1) for place in (2, 3)]


def lane_line(lane, replies):
    return f"lane {lane} {len(replies)} {sha256(replies).hex()}\n"


def summary(replies, snapshots):
    """Of the replies of all lanes but lane 0, and the snapshots with the numbers of their files."""
    lanes = [lane_line(lane, told) for lane, told in enumerate(replies) if lane]
    return "".join(lanes + [f"{snapshot} {count}\n" for snapshot, count in snapshots] + ["status 0\n"]).encode()

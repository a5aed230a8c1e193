"""Runs that are checked: what a check tells of the run as it was, with each byte of its files another, and with another order."""
from scenarios.backups import *
from scenarios.collections import gc_of
from scenarios.any_order import unordered
from scenarios.lanes import D, OF_B, at_once, plain_on
from scenarios.prunes import of_a
from scenarios.pulls import SYNC_A, store

# The session of a backup, and LIST of it; the same replies with another first byte.
BACKED_UP = [(open_writer(A), base()), (put_manifest(A), DONE), (finish(), DONE), (LIST, rows((A, 1)))]
TOLD = frames(*(reply for _, reply in BACKED_UP))
KINDS = [(0, 0)] * 4 + [(0, 6)]
FAULT, SHORT = disk_fault(), no_memory()
BYE_DONE = (bye(), DONE)
OF_B_INDEX = dynamic_index(B, "root.didx", NOW, [b"de", b"xyz"])


def on(lane, *of_lane):
    """These are of this lane: its entries' kinds, or its commands with their replies."""
    return [(lane, *it) if isinstance(it, tuple) else (lane, it) for it in of_lane]


def asks(turns):
    return flat(asked(command) for command, _ in turns)


def by_hand(name, told, entries, *lanes, before=()):
    """A run on an empty datastore of this order, each lane of which sent commands and was told replies, as these lines say."""
    return scenario(name, *before, *(of_lane(lane, *lines) for lane, lines in enumerate(lanes)), ordered(*entries), checks(told))


def kept_so(name, told, entries, replies):
    """A check of the backup with this order, of which these replies were kept."""
    return by_hand(name, told, entries, [asks(BACKED_UP), kept(replies)])


def order_is_none(name, data):
    return scenario(name, sent(BACKED_UP), [f"order {spelled(data)}"], checks("BadOrder"))


# A backup beside a LIST and a collection, command by command.
BESIDE_GC = [
    *on(0, (open_writer(A), base())),
    *on(1, (LIST, rows())),
    *on(0, (put_manifest(A), DONE), (finish(), DONE)),
    *on(1, gc_of(NOW, 0, 0, 0), BYE_DONE),
    *on(0, BYE_DONE),
]
# A backup of an archive; what is pulled, verified and pruned; a collection beside a reader; what a writer leaves that is not finished.
ALL_LANES = [
    *on(0, *OF_B[:6]),
    *on(1, (SYNC_A, keys(TEN, ELEVEN)), (verify(TEN), verified(1, 0, 0))),
    *on(0, *OF_B[6:]),
    *on(2, (open_reader(B), DONE), (download("root.didx", 4176), part(OF_B_INDEX, 4176)), (range_of("root.didx", 0, 5), rest(b"dexyz"))),
    *on(3, gc_of(NOW, 2, 0, 0)),
    *on(1, (of_a(last=1), marks((ELEVEN, 1), (TEN, 0))), BYE_DONE),
    *on(2, (forget(B), wrong_state(2)), (close_reader(), DONE), (verify(B), verified(2, 2, 5)), BYE_DONE),
    *on(0, (open_writer(A_LATER), not_newer(ELEVEN)), (open_writer(D), base()), (forget(A), wrong_state(1)), BYE_DONE),
    *on(3, BYE_DONE),
]
# The same kinds of acts by hand, with a BLOB that memory was wanting for, a SYNC whose read of the remote failed, and whatever a collection tells.
WRITER, PULLER, READER, COLLECTOR = range(4)
ALL_KINDS = [
    *on(WRITER, 0),
    *on(PULLER, 1, 0, 0),
    *on(COLLECTOR, 3),
    *on(WRITER, 2),
    *on(PULLER, 1, 0, 0),
    *on(COLLECTOR, 1, 1),
    *on(WRITER, 0, 0),
    *on(PULLER, 0, 1, 0, 0),
    *on(READER, 0, 0, 0, 0),
    *on(COLLECTOR, 4),
    *on(PULLER, 7),
    *on(READER, 0, 0),
    *((lane, 6) for lane in range(4)),
]
ALL_SENT = [
    [sent([(open_writer(B), base()), (put_manifest(B), SHORT), (put_manifest(B), DONE), (finish(), DONE)])],
    [sent([(SYNC_A, keys(TEN, ELEVEN)), (SYNC_A, refused(30))])],
    [sent([(verify(TEN), verified(1, 0, 0)), (of_a(last=1), marks((ELEVEN, 1), (TEN, 0)))])],
    [sent([(gc(), collected(1, 2, 3, 4, 5))])],
]
BOTH_THERE = there(store(["ten", "eleven"]))

SCENARIOS = [
    kept_so("a backup and its LIST, as they were", "Ok equal", KINDS, TOLD),
    kept_so("the first byte is another", "Unequal lane 0 byte 0: 02 03", KINDS, b"\3" + TOLD[1:]),
    kept_so("an entry is missing", f"Unequal lane 0 byte 16: -- {TOLD[16]:02x}", KINDS[1:], TOLD),
    kept_so("an entry comes twice", f"Unequal lane 0 byte {len(TOLD)}: -- --", KINDS[:1] + KINDS, TOLD),
    kept_so("an act failed", "BadOrder", [*KINDS[:3], (0, 5), (0, 6)], TOLD[:-len(frame(BACKED_UP[3][1]))] + frame(FAULT)),
    by_hand("a session without commands", "Ok equal", [(0, 6)], []),
    by_hand(
        "memory was wanting for a command, for a mark, and for the last command that is read",
        "Ok equal",
        [(0, 2), (1, 3), (1, 2), (0, 0), (1, 4), (1, 2), (1, 6), (0, 6)],
        [sent([(open_writer(A), SHORT), (LIST, rows())])],
        [sent([(gc(), SHORT), (LIST, SHORT)]), asked(LIST)],
    ),
    by_hand("four lanes by hand", "Ok equal", ALL_KINDS, *ALL_SENT, before=[BOTH_THERE]),
    by_hand("an act of one failed", "BadOrder", [*ALL_KINDS[:-5], (READER, 5), *ALL_KINDS[-4:]], *ALL_SENT, before=[BOTH_THERE]),
    by_hand("without the remote", "Unequal lane 1 byte 10: -- 73", ALL_KINDS, *ALL_SENT),
    scenario(
        "a backup beside a collection, each byte another, each entry elsewhere",
        at_once(BESIDE_GC),
        lanes(0, 1, 0, 0, 1, 1, 1, 1, 0),
        kinds(0, 0, 0, 0, 3, 1, 4, 6, 6),
        checked(),
        changed(48, 706, 358),
        reordered(8, 14, 5),
    ),
    scenario(
        "four lanes with jobs, a collection, a reader, and a remote",
        BOTH_THERE,
        at_once(ALL_LANES),
        checked(),
        reordered(54, 79, 11),
    ),
    scenario(
        "a read of the remote fails beside another session",
        BOTH_THERE,
        remote_fails(1),
        at_once(on(0, (SYNC_A, refused(30))), plain_on(1, A), on(0, (LIST, rows((A, 1)))), status="RemoteFault"),
        checked(),
    ),
    scenario(
        "a call of the disk fails beside another session",
        fails(4),
        at_once(plain_on(0, A)[:1], on(1, (open_writer(B), base())), [(0, put_manifest(A), DONE), (0, finish(), FAULT)], status="DiskFault"),
        checked("BadOrder"),
    ),
    scenario("a datastore with a damaged snapshot", place(PLAIN, b"no blob"), talk([(gc(), unreadable(PLAIN))]), checked("BadOrder")),
    scenario("a session that is empty", talk([]), checked()),
    scenario("what is no command ends a session", raw(frame(b"c")), told(bad_frame(0)), ["ends BadFrame"], checked()),
    scenario("a session's sink fails", takes(3), talk([(LIST, rows())], "SinkFault"), checked("Unequal lane 0 byte 3: 00 --")),
    scenario("64 sessions", unordered(*[[(LIST, rows()), (bye(), DONE)]] * 64), entries(128), checked()),
]

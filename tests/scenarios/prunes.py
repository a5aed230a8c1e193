"""PRUNE: which snapshots it keeps and removes, and when it is refused; alone, and beside a snapshot of another group."""
from scenarios.archives import AGAIN
from scenarios.backups import *

IN_WRITER, IN_READER = wrong_state(1), wrong_state(2)
A_THIRD = "host/a/2020-01-15T06:30:05Z"


def plain_backup(snapshot, over=""):
    """A backup of a manifest alone."""
    return [(open_writer(snapshot), base(over)), (put_manifest(snapshot), DONE), (finish(), DONE)]


def of_a(dry=0, **counts):
    """PRUNE of `host/a`."""
    return prune("host/a", dry=dry, **counts)


# The last week of 2020 ends in the next year.
LAST_DAY, SUNDAY, MONDAY = (f"host/a/{it}T00:00:00Z" for it in ("2020-12-31", "2021-01-03", "2021-01-04"))
WEEKS_MARKED = marks((MONDAY, 1), (SUNDAY, 1), (LAST_DAY, 0))
BOTH_MARKED = marks((MONDAY, 1), (SUNDAY, 1))
ONE_MARKED = marks((MONDAY, 1), (SUNDAY, 0))
TOO_MANY = too_many(1000)
WEEKS = [
    # no snapshot is there yet
    (of_a(weekly=2), NONE_THERE),
    (of_a(weekly=2, dry=1), NONE_THERE),
    (of_a(), NONE_THERE),
    *plain_backup(LAST_DAY),
    *plain_backup(SUNDAY, LAST_DAY),
    *plain_backup(MONDAY, SUNDAY),
    # a dry run removes nothing, and tells the same
    (of_a(weekly=2, dry=1), WEEKS_MARKED),
    (GROUP, keys(LAST_DAY, SUNDAY, MONDAY)),
    (LIST, rows((LAST_DAY, 1), (SUNDAY, 1), (MONDAY, 1))),
    (of_a(weekly=2), WEEKS_MARKED),
    (GROUP, keys(SUNDAY, MONDAY)),
    (LIST, rows((SUNDAY, 1), (MONDAY, 1))),
    (files(LAST_DAY), no_snapshot()),
    # again: all is kept; so it is where no option is given
    (of_a(weekly=2), BOTH_MARKED),
    (of_a(), BOTH_MARKED),
    (GROUP, keys(SUNDAY, MONDAY)),
    # counts, of which a name comes first
    *((of_a(**{it: 1001}), TOO_MANY) for it in ("last", "hourly", "daily", "weekly", "monthly", "yearly")),
    (of_a(yearly=65535, dry=1), TOO_MANY),
    (of_a(last=1000, hourly=1000, daily=1000, weekly=1000, monthly=1000, yearly=1000), BOTH_MARKED),
    (prune(SUNDAY, last=1001), bad_name()),
    (prune("", last=1), bad_name()),
    (prune("host", last=1), bad_name()),
    (prune("host/b", last=1), NONE_THERE),
    (prune("host/b", last=1001), TOO_MANY),
    (prune("vm/a", last=1), NONE_THERE),
    # a lane with a session comes before both
    (open_reader(SUNDAY), DONE),
    (of_a(weekly=2), IN_READER),
    (prune(SUNDAY, last=1001), IN_READER),
    (of_a(weekly=2, dry=1), IN_READER),
    (close_reader(), DONE),
    (open_writer("host/b/2021-01-04T00:00:00Z"), base()),
    (of_a(weekly=2), IN_WRITER),
    (prune(SUNDAY, last=1001), IN_WRITER),
    (of_a(weekly=2, dry=1), IN_WRITER),
    (abort(), DONE),
    (LIST, rows((SUNDAY, 1), (MONDAY, 1))),
    # of two in one week, month and year the newer is kept
    (of_a(yearly=2, dry=1), ONE_MARKED),
    (of_a(monthly=1), ONE_MARKED),
    (GROUP, keys(MONDAY)),
]

# Two snapshots of one day and one of the day before: the last serves its day.
BEFORE, EVENING, NEXT = "host/a/2020-01-14T06:30:03Z", "host/a/2020-01-15T18:30:03Z", "host/a/2020-01-16T06:30:03Z"
DAY_MARKED = marks((EVENING, 1), (A, 0), (BEFORE, 1))
DAYS = [
    *plain_backup(BEFORE),
    *plain_backup(A, BEFORE),
    *plain_backup(EVENING, A),
    (of_a(last=1, daily=1, dry=1), DAY_MARKED),
    (LIST, rows((BEFORE, 1), (A, 1), (EVENING, 1))),
    (of_a(hourly=5, dry=1), marks((EVENING, 1), (A, 1), (BEFORE, 1))),
    (of_a(daily=1, dry=1), marks((EVENING, 1), (A, 0), (BEFORE, 0))),
    (of_a(last=1, daily=1), DAY_MARKED),
    (LIST, rows((BEFORE, 1), (EVENING, 1))),
    (GROUP, keys(BEFORE, EVENING)),
    (of_a(last=1, daily=1), marks((EVENING, 1), (BEFORE, 1))),
    # the newest goes first, but the last stays
    (of_a(last=1), marks((EVENING, 1), (BEFORE, 0))),
    (LIST, rows((EVENING, 1))),
    # other groups stay, and a next backup is over what is left
    *plain_backup(B),
    *plain_backup(NEXT, EVENING),
    (of_a(weekly=1), marks((NEXT, 1), (EVENING, 0))),
    (LIST, rows((NEXT, 1), (B, 1))),
]

# Two backups, the first with a file, which is forgotten; a third, of which a PRUNE keeps it alone.
WITH_CONF = manifest(A, listed_blob("a.conf.blob", blob(b"123456789")))
GONE = [
    (open_writer(A), base()),
    (put("a.conf.blob", b"123456789"), DONE),
    (put(MANIFEST, WITH_CONF), DONE),
    (finish(), DONE),
    *plain_backup(A_LATER, A),
    (files(A), file_rows(("a.conf.blob", 21, sha256(blob(b"123456789"))), (MANIFEST, 216, sha256(blob(WITH_CONF))))),
    (LIST, rows((A, 2), (A_LATER, 1))),
    (forget(A), DONE),
    *plain_backup(A_THIRD, A_LATER),
    (of_a(last=1), marks((A_THIRD, 1), (A_LATER, 0))),
]

# Two backups; a PRUNE that is dry, one of two steps, and a refused one.
PRUNED = [
    *plain_backup(A),
    *plain_backup(A_LATER, A),
    (of_a(last=1, dry=1), marks((A_LATER, 1), (A, 0))),
    (of_a(last=1), marks((A_LATER, 1), (A, 0))),
    (of_a(last=1001), TOO_MANY),
    (GROUP, keys(A_LATER)),
]


def left(*snapshots):
    return [(f"{it}/{MANIFEST}", 86) for it in snapshots]


SCENARIOS = [
    kept_backup(BESIDE, EARLIER),
    alone_and_beside("weeks", WEEKS, left(MONDAY)),
    alone_and_beside("days", DAYS, left(NEXT, B)),
    alone_and_beside("a FORGET, and a PRUNE behind it", GONE, left(A_THIRD)),
    scenario("the writing calls of two backups and PRUNEs", talk(PRUNED), writes("s - psrs - - psrs - - ds - - - psr")),
    scenario("those of two backups of an archive, and of a restore", talk(AGAIN), writes("s - psr psr - psr - psrs - - - - psr - psrs - - - - - - psr")),
    scenario("those of a FORGET, and of a PRUNE behind it", talk(GONE), writes("s psr - psrs - - psrs - - dsd - - psrs - ds - psr")),
]

"""Scenarios as the program `scenarios` reads them, from the words of `client/pbclient/session.py`. docs/SCENARIOS.md has the form."""
import io, re
from pbclient import session
from tables.common import NOW, order

COMMANDS = (
    "OPEN_WRITER PREVIOUS NEW_FIXED NEW_DYNAMIC CHUNK APPEND CLOSE_INDEX BLOB FINISH ABORT OPEN_READER DOWNLOAD GET_CHUNK RANGE "
    "CLOSE_READER LIST FILES FORGET PRUNE VERIFY SYNC GC GROUP BYE"
)
WORDS = {getattr(session, name): name for name in COMMANDS.split()}
# One byte, or 32 or 40 of them, a dozen times or more.
REPEATED = re.compile(rb"(.)\1{11,}|(.{32})\2{11,}|(.{40})\3{11,}", re.S)


def plainly(data):
    """Letters and signs as they are, others by two digits behind a backslash."""
    return "".join(chr(it) if 32 < it < 127 and it != 92 else f"\\{it:02x}" for it in data)


def spelled(data):
    """Bytes so, and what is repeated by its count and digits in braces."""
    out, at = [], 0
    for run in REPEATED.finditer(data):
        group = run.group(1) or run.group(2) or run.group(3)
        out += [plainly(data[at : run.start()]), f"\\{{{len(run.group()) // len(group)} {group.hex()}}}"]
        at = run.end()
    return "".join(out) + plainly(data[at:])


def command_word(body):
    return WORDS.get(body[0], "unknown") if body else "empty"


def reply_word(body):
    return session.REFUSALS.get(body[0], "Ok")


# Lines. Each of these gives a list of them.


def place(name, data):
    return [f"put {plainly(name.encode())} {spelled(data)}".rstrip()]


def place_zeros(name, count):
    """A file of so many zeros, in runs of 2^24 at most."""
    runs = [min(1 << 24, count - start) for start in range(0, count, 1 << 24)]
    return [f"put {plainly(name.encode())} " + "".join(f"\\{{{run} 00}}" for run in runs)]


def gone(name):
    return [f"gone {name}"]


def change(name, data):
    """A file gets these bytes, or goes."""
    return gone(name) if data is None else place(name, data)


def there(*lines):
    """These lines speak of the remote."""
    return ["there", *flat(lines), "here"]


def start_from(name):
    return [f"from {name}"]


def keep(name):
    return [f"keep {name}"]


def asked(command):
    return [f"> {command_word(command)} {spelled(command)}"]


def turn(command, reply):
    return asked(command) + told(reply)


def sent(turns):
    return flat(turn(command, reply) for command, reply in turns)


def talk(turns, status="Ok"):
    """A session of these commands and replies, which ends so."""
    return sent(turns) + [f"ends {status}"]


def turns(*rows):
    """Sessions at once: one behind another, each row is of a lane, with a command and its reply. None stands for a command or a reply that
    another row has."""
    out, speaks_of = [], None
    for lane, command, reply in rows:
        out += [f"lane {lane}"] if lane != speaks_of else []
        out += (asked(command) if command else []) + (told(reply) if reply else [])
        speaks_of = lane
    return out


def of_lane(lane, *lines):
    """These lines speak of this lane, and so do those behind."""
    return [f"lane {lane}", *flat(lines)]


def closes():
    """The lane's input ends here, and what stands behind comes behind its end."""
    return ["closes"]


def free():
    """The lanes' commands come in any order."""
    return ["free"]


def tries(count):
    """They are served so often at most, until what is told is what is wanted."""
    return [f"tries {count}"]


def raw(data):
    """Bytes that are sent as they are."""
    return [f">> {spelled(data)}"]


def told(reply):
    return [f"< {reply_word(reply)} {spelled(reply)}"]


def ends(status, taken, sent):
    """It ends so, once so many bytes of those that were sent are taken."""
    return [f"ends {status}" if taken == sent else f"ends {status} {taken}"]


def not_opened(cause):
    """Opening fails: the first sync (`unsynced`), or another call (`unopened`)."""
    return [f"ends DiskFault {cause}"]


def placed(place):
    """No command stands there."""
    return [f"place {place}"]


def found(since, until, turns, names):
    """Behind so many acts that were done, and up to so many, a later session is told this, and these files stand beside chunks."""
    return [f"found {since} {until}", *sent(turns), *(f"name {name}" for name in names)]


def whole(files):
    """A crash leaves these files, by name and size, and else temporary ones."""
    return [f"whole {name} {size}" for name, size in files]


def sweep(calls):
    """The session's disk fails at each of so many calls, and stops before each."""
    return [f"sweep {calls}"]


def kinds(*numbers):
    return ["kinds " + " ".join(map(str, numbers))]


def lanes(*numbers):
    """The lanes of so many first entries of the order."""
    return ["lanes " + " ".join(map(str, numbers))]


def entries(count):
    return [f"entries {count}"]


def made(count):
    """How many calls the disk has had."""
    return [f"made {count}"]


def remote_made(count):
    return [f"remote-made {count}"]


def faults(count):
    """How often the disk failed."""
    return [f"faults {count}"]


def remote_faults(count):
    return [f"remote-faults {count}"]


def gives(count):
    return [f"gives {count}"]


def takes(count):
    """The sink takes so many bytes, and then fails."""
    return [f"takes {count}"]


def same():
    return ["same"]


def clock(*readings):
    return ["clock " + " ".join(map(str, readings))]


def fails(*numbers):
    """Calls of the disk with these numbers, from 0."""
    return ["fails " + " ".join(map(str, numbers))]


def remote_fails(*numbers):
    return ["remote-fails " + " ".join(map(str, numbers))]


def taken(*numbers):
    """Reads of the disk by these calls, from 0, find nothing: another program took the file."""
    return ["taken " + " ".join(map(str, numbers))]


def shown(*numbers):
    """Lists of the disk by these calls have the file of a chunk more: another program put it there."""
    return ["shown " + " ".join(map(str, numbers))]


def stops(count):
    """So does every call of the disk behind so many."""
    return [f"stops {count}"]


def crash(choice):
    return [f"crash {choice}"]


def saved(is_saved=True):
    return ["saved yes" if is_saved else "saved no"]


def calls(*counts):
    return ["calls " + " ".join(map(str, counts))]


def writes(letters):
    return [f"writes {letters}"]


def bytes_at(name, data):
    return [f"bytes {name} {spelled(data)}"]


def files_there(files):
    """These files stand, by name and size."""
    return [f"file {plainly(name.encode())} {size}" for name, size in files]


def files_left(files):
    """These files stand, by name and size, and no other but the book."""
    return files_there(files) + [f"files {len(files)}"]


def ordered(*entries):
    """The order's file of a run that is checked: its entries by lane and kind, all of one moment."""
    return [f"order {spelled(order(*((lane, NOW, kind) for lane, kind in entries)))}"]


def kept(data):
    """Replies that were kept, of whatever bytes: as what are frames of them."""
    return [f"< bytes {spelled(body)}".rstrip() for body in session.bodies_of(io.BytesIO(data))]


def checks(told):
    """The run that is planned is checked, which tells this: the status, and the line."""
    return [f"checks {told}"]


def checked(told="Ok equal"):
    """What the check of the last run tells."""
    return [f"checked {told}"]


def changed(equal, unequal, bad_order):
    """What it tells with each byte of its files changed, taken away, and put before: how often the replies are equal or not, and how often it
    has no order."""
    return [f"changed {equal} {unequal} {bad_order}"]


def reordered(equal, unequal, bad_order):
    """The same with each entry of the order taken away, twice, and behind the next."""
    return [f"reordered {equal} {unequal} {bad_order}"]


def flat(parts):
    return [line for part in parts for line in part]


# Lines that plan a session, and those that plan its sweep.
PLANS = set("lane closes free tries > >> < clock fails remote-fails stops taken shown gives takes order".split())
FINDS = {"whole", "found", "name"}
# Lines that serve or check what is planned.
SERVES = ("ends", "sweep", "checks")


def served_in(lines):
    """The lines' words up to each line that serves what they plan, and those behind the last."""
    parts = [[]]
    for word, rest in (line.partition(" ")[::2] for line in lines):
        parts[-1].append((word, rest))
        if word in SERVES:
            parts.append([])
    return parts


def fault_at_once(rows):
    """Why the lines that plan sessions at once give no order of their commands: each lane begins with one, each is answered, a lane's end
    comes once all that began is answered, and nothing of the lane comes behind it."""
    waiting, has_begun, has_ended, lane = {}, set(), set(), "0"
    for word, rest in rows:
        lane = rest if word == "lane" else lane
        is_bye = word == ">" and rest.startswith("BYE ")
        if word in (">", ">>", "closes") and lane in has_ended:
            return f"lane {lane} has ended"
        if is_bye or word == "closes":
            if lane not in has_begun or any(waiting.values()):
                return f"lane {lane} ends too early"
            has_ended.add(lane)
        elif word == ">":
            if waiting.get(lane):
                return f"lane {lane} waits for a reply"
            waiting[lane] = True
            has_begun.add(lane)
        elif word == "<":
            waiting[lane] = False
    if any(waiting.values()):
        return "a reply is missing"
    lanes = {int(rest) for word, rest in rows if word == "lane"}
    return None if len(has_begun) == max(lanes) + 1 else "a lane sends nothing"


def fault_in_order(part):
    """What is wrong with the lines that plan how sessions at once come one behind another, up to the line that serves them."""
    words = {word for word, _ in part}
    are_several = any(row[0] == "lane" and row[1] != "0" for row in part)
    if ("order" in words) != ("checks" in words):
        return "an order is not checked"
    if "checks" in words:
        return None
    if not are_several:
        return "there is one session" if words & {"closes", "free", "tries"} else None
    if "sweep" in words:
        return "several sessions are stopped"
    if "free" in words:
        return "an end has no place" if "closes" in words else None
    return fault_at_once(part)


def fault_in(lines):
    """What the program would pass over: lines that plan what is not served, a disk that another takes the place of."""
    *served, last = served_in(lines)
    if not served or {word for word, _ in last} & (PLANS | FINDS):
        return "something is not served"
    for part in served:
        if fault := fault_in_order(part):
            return fault
        words = [word for word, _ in part]
        if FINDS & set(words) and words[-1] != "sweep":
            return "a state is not looked for"
        starts = [place for place, word in enumerate(words) if word == "found"] + [len(words)]
        sent = [[row for row in part[first:last] if row[0] in (">", ">>")] for first, last in zip(starts, starts[1:])]
        if any(it != sent[0] for it in sent):
            return "later sessions are not the same"
        if any(word == "from" and place and words[place - 1] not in ("there", *SERVES) for place, word in enumerate(words)):
            return "a disk takes the place of another"
    return None


def scenario(name, *parts):
    lines = flat(parts)
    fault = fault_in(lines)
    assert not fault, f"{name}: {fault}"
    return [f"= {name}", *lines, ""]


def text_of(module):
    """The file of a module's scenarios, behind what its first line says."""
    says = [f"# {line}" for line in module.__doc__.strip().split("\n")]
    head = [*says, "# Written by tests/make-tables from tests/scenarios. docs/SCENARIOS.md has the form.", ""]
    lines = flat(module.SCENARIOS)
    kept = [line for line in lines if line.startswith("keep ")]
    assert len(set(kept)) == len(kept), f"{module.__name__}: a disk is kept twice by one name"
    return "\n".join(head + lines)

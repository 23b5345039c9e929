"""Archives a write or sync of which fails: what was taken stands there whole in the end, once but where a sync failed.

strace answers single calls in the kernel's place, the first, a middle one or the last. Each is tried with `sync` off and on,
with a queue of the action and without."""

import re

from peers import message, messages, send_all
from room import Failure, imtcp, main_queue, module, omfile, same, test, totals, until
from writes import TO_FILES, answered, answering, needs_strace

SYNC = ' sync="on"'
BATCH, BATCHES = 8, 3
QUEUE = (f' queue.type="LinkedList" queue.workerFlow="full" queue.size="1000" queue.fullDelayMark="900" '
         f'queue.timeoutEnqueue="0" queue.dequeueBatchSize="{BATCH}"')
KINDS = {"": "", "_with_a_queue": QUEUE, "_synced": SYNC, "_synced_with_a_queue": SYNC + QUEUE}
SYNCED = [it for it in KINDS if SYNC in KINDS[it]]
COUNT, TURNS = 5, (1, 3, 5)  # messages of a run, and which of them a call fails for: the first, a middle one, the last
# (a file system that finds a fault of its own becomes read-only under files that are open)
WRITES = {"ENOSPC": "no storage space", "EIO": "error 5", "EFBIG": "file too large", "EDQUOT": "quota exceeded",
          "EROFS": "read-only filesystem or storage medium"}
SYNCS = {it: WRITES[it] for it in ("ENOSPC", "EIO", "EDQUOT")}
TRIES = 20  # for batches that are as intended, beside whatever else the host does


def of_kinds(*kinds):
    """Marks a function of a room and of an archive's parameters as a test for each of these kinds of archives."""
    def mark(body):
        for kind in kinds:
            def run(room, more=KINDS[kind]):
                return body(room, more)
            run.__name__, run.__module__ = body.__name__ + kind, body.__module__
            test(run)
        return body
    return mark


def hub(room, more, interval=0, path="audit.log", **others):
    """Starts a hub with one archive, which is tried again without end; answers it and its port."""
    port = room.port()
    room.site({"hub": module() + main_queue(size=1000, fullDelayMark=900, dequeueBatchSize=BATCH) + imtcp(port)
               + omfile("audit", path, -1, interval, more)}, f"entry hub {port}", "protect auth.* hub audit")
    return room.start("hub", port, words=["site", "hub"], **others), port


def says_that_it_fails(relay, reason, times=1):
    relay.says(f"syc: action audit fails: {reason}", times)


def closed(reason, path="audit.log"):
    """The line about an archive that can't be opened anew after a failed sync."""
    return f"syc: action audit can't reopen {path}: {reason}; no line is written until it can be"


def ended(relay):
    """How often it was told that the archive works again."""
    return len(re.findall(r"(?m)^syc: action audit works after \d+ s$", relay.errors()))


def stops(relay, count):
    """Stops a relay that took so many messages, all of which have to be in the archive."""
    relay.stops_with(totals(count, 0, 0, ("audit", count, count, 0, 0)))


def ends(relay, count, reason, spells=1, others=()):
    """The same of one whose archive failed so often: each time it was told that it fails, and then that it works. Other lines
    have `N s` for how long something took."""
    stops(relay, count)
    tells(relay, reason, spells, others)


def tells(relay, reason, spells=1, others=()):
    lines = [re.sub(r" after \d+ s$", " after N s", it) for it in relay.lines()]
    same("lines about the archive", [it for it in lines if it not in others],
         [f"syc: action audit fails: {reason}", "syc: action audit works after N s"] * spells)
    same("other lines", sorted(it for it in lines if it in others), sorted(others))


# ---- Calls that fail, one message after the other

def one_by_one(room, more, calls, error, reason, turn, again):
    """A few messages, each sent once the one before is over, a call for one of which fails: whether that one is there again."""
    room.write("audit.log", "")
    relay, port = hub(room, more, under=answering(room, calls, error, turn, "audit.log"))
    wanted = []
    for number in range(COUNT):
        send_all(port, messages(1, number))
        is_turn = number + 1 == turn
        wanted += messages(1, number) * (2 if is_turn and again else 1)
        if is_turn:
            says_that_it_fails(relay, reason)
        room.holds("audit.log", wanted)
    ends(relay, COUNT, reason)
    same(f"the archive where {calls} {turn} answers {error}", room.lines("audit.log"), wanted)
    same(f"calls that answered {error} ({turn})", answered(room), 1)


@of_kinds(*KINDS)
def writes_that_fail(room, more):
    needs_strace(room)
    for error, reason in WRITES.items():
        for turn in TURNS:
            one_by_one(room, more, TO_FILES, error, reason, turn, again=False)


@of_kinds(*SYNCED)
def syncs_that_fail(room, more):
    needs_strace(room)
    for error, reason in SYNCS.items():
        for turn in TURNS:
            one_by_one(room, more, "fdatasync", error, reason, turn, again=True)


@of_kinds(*SYNCED)
def sync_that_fails_three_times(room, more):
    """What was offered is written again after each failed sync."""
    needs_strace(room)
    room.write("audit.log", "")
    relay, port = hub(room, more, under=answering(room, "fdatasync", "EIO", "2..4", "audit.log"))
    wanted = []
    for number, times in enumerate((1, 4, 1)):
        send_all(port, messages(1, number))
        wanted += messages(1, number) * times
        if times > 1:
            says_that_it_fails(relay, WRITES["EIO"])
        room.holds("audit.log", wanted)
    ends(relay, 3, WRITES["EIO"])
    same("the archive", room.lines("audit.log"), wanted)


# ---- Calls that fail, in batches

CALL = re.compile(r"(?m)^\d+ +(\d+\.\d+) (\w+)\((?:.*, (\d+))?.*\) += (-?\d+)")


def calls_of(room):
    """The writes and syncs of the archive: of each its time in seconds, its name, its bytes, and what it answered."""
    now, found = 0.0, []
    for since, name, size, result in CALL.findall(room.read("calls").decode("latin-1")):
        now += float(since)
        found.append((now, name, int(size or 0), int(result)))
    return found


def batch_that_fails(room, more, calls, error, reason, turn):
    """The first message's call fails, and what is sent while the relay waits for its interval comes in batches, of which one
    fails; answers whether they came so."""
    last = 2 + turn
    under = answering(room, calls, error, f"1..{last}+{last - 1}", "audit.log")
    # (all calls are kept, each with the time since the one before it)
    under = [f"trace={TO_FILES},fdatasync" if it.startswith("trace=") else it for it in ["strace", "-r", *under[1:]]]
    room.write("audit.log", "")
    relay, port = hub(room, more, interval=1, under=under)
    texts = messages(1 + BATCH * BATCHES, 10)
    send_all(port, texts[:1])
    says_that_it_fails(relay, reason)
    send_all(port, texts[1:])
    again = calls == "fdatasync"
    until("all is written", lambda: room.read("audit.log").endswith(texts[-1] + b"\n")
          and (not again or calls_of(room)[-1][1::2] == ("fdatasync", 0)), came=lambda: calls_of(room))
    stops(relay, len(texts))
    if not is_as_intended(room, calls, turn):
        return False
    at = 1 + BATCH * (turn - 1)
    wanted = texts[:1] + texts[:at + BATCH] + texts[at:] if again else texts
    same(f"the archive where batch {turn} is answered {error}", room.lines("audit.log"), wanted)
    same(f"calls that answered {error}", answered(room), 2)
    tells(relay, reason)
    return True


def is_as_intended(room, calls, turn):
    """Whether the writes are those of the first message, twice, and of each batch, one of them twice; the pauses are checked."""
    found, line = calls_of(room), len(message(10)) + 1
    writes = [it for it in found if it[1] != "fdatasync"]
    sizes = [line] + [BATCH * line] * BATCHES
    wanted = sizes[:1] + sizes[:turn + 1] + sizes[turn:]
    for number, (begun, name, _, result) in enumerate(found):
        if result == -1 and name == calls.split(",", 1)[0]:
            later = next(it[0] for it in found[number + 1:] if it[1] != "fdatasync")
            if later - begun < 1:
                raise Failure(f"{name} failed, and was tried again after {later - begun:.3f} s in place of 1 s")
    return [it[2] for it in writes] == wanted


def batches_that_fail(room, more, calls, errors):
    needs_strace(room)
    # (each kind of archive has another error for each place)
    errors, first = list(errors.items()), list(KINDS.values()).index(more)
    for turn in range(1, BATCHES + 1):
        error, reason = errors[(first + turn) % len(errors)]
        if not any(batch_that_fails(room, more, calls, error, reason, turn) for _ in range(TRIES)):
            raise Failure(f"what was sent within the interval never came in batches: {calls_of(room)}")


@of_kinds(*KINDS)
def batches_whose_write_fails(room, more):
    batches_that_fail(room, more, TO_FILES, WRITES)


@of_kinds(*SYNCED)
def batches_whose_sync_fails(room, more):
    batches_that_fail(room, more, "fdatasync", SYNCS)

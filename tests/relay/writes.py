"""Writes that fail, are interrupted or take a part alone, one by one.

strace answers single calls of a relay in the kernel's place: nothing is written by them. That a write takes a part alone
comes by a limit of the files' size, and by a receiver that doesn't read."""

import os
import resource
import shutil
import signal
import subprocess
import time

from archives import lift
from control import asked
from peers import Receiver, Sender, message, messages, send_all, split
from room import WAIT, Failure, LeftOut, imtcp, main_queue, module, omfile, omfwd, same, test, totals, until
from statuses import hub_files

COUNT, MANY = 4, 3000
OF_FILES = ["EINTR", "EAGAIN", "ENOSPC", "EIO", "EPIPE"]
# (a write to a link that would block has waited for its time: it goes on, and doesn't fail)
OF_LINKS = ["ENOBUFS", "EIO", "EPIPE", "ECONNRESET", "ETIMEDOUT"]
TO_FILES, TO_LINKS = "write,writev,pwrite64", "sendto,sendmsg,writev"


def answering(room, calls, error, when, file=None):
    """The words under which a program runs so that some of these calls, of a file where one is named, answer an error.

    `when` is the number of the call in its thread: `3` the third alone, `1+2` the first, the third, the fifth and so on."""
    of_file = ["-P", room.path(file)] if file else []
    # (strace is the child: the process that is started becomes the program)
    return ["strace", "-D", "-f", "--seccomp-bpf", "-qq", "-o", room.path("calls"), *of_file, "-e", f"trace={calls}",
            "-e", f"inject={calls}:error={error}:when={when}"]


def answered(room):
    """How many calls answered an error."""
    return room.read("calls").count(b"(INJECTED)") if os.path.exists(room.path("calls")) else 0


def needs_strace(room):
    """Leaves a test out where strace isn't there, or may not answer calls."""
    if shutil.which("strace") is None:
        raise LeftOut("there is no strace (package strace)")
    words = [*answering(room, "write", "ENOSPC", 1), "echo"]
    try:
        # (where its tracer isn't ready after three seconds, strace ends what it watches by an alarm)
        while subprocess.run(words, stdin=subprocess.DEVNULL, stdout=subprocess.DEVNULL, stderr=subprocess.DEVNULL, check=False,
                             timeout=WAIT).returncode == -signal.SIGALRM:
            pass
    except subprocess.TimeoutExpired:
        pass
    if not answered(room):
        raise LeftOut("strace may not answer calls here")


# ---- Archives

AFTER = omfile("after", "after.log")


def archive(room, retries, error, when, after=AFTER):
    """Starts a relay with an archive, some of whose writes answer an error, and another one, which tells how far it is."""
    port = room.port()
    for name in "audit.log", "after.log":
        room.write(name, "")
    room.site({"hub": module() + main_queue(size=1000, dequeueBatchSize=100) + imtcp(port) + omfile("audit", "audit.log", retries, 0)
               + after})
    under = answering(room, TO_FILES, error, when, "audit.log")
    return room.start("hub", port, words=["--unchecked", "site", "hub"], under=under), port


def archive_by(room, retries, error, when, failures, wanted):
    """A few messages, each sent once the one before is over: which of them the archive then has."""
    relay, port = archive(room, retries, error, when)
    for number in range(COUNT):
        send_all(port, messages(1, number))
        room.holds("after.log", messages(number + 1))
    relay.stops_with(totals(COUNT, 0, 0, ("audit", COUNT, len(wanted), COUNT - len(wanted), 0), ("after", COUNT, COUNT, 0, 0)))
    same(f"the archive where write {when} answers {error}", room.lines("audit.log"), wanted)
    same(f"writes that answered {error} ({when})", answered(room), failures)


@test(limit=3600)
def archive_whose_writes_fail_with_endless_retries(room):
    needs_strace(room)
    for error in OF_FILES:
        for when in range(1, COUNT + 1):
            archive_by(room, -1, error, when, 1, messages(COUNT))
        archive_by(room, -1, error, "1+2", COUNT, messages(COUNT))


@test(limit=3600)
def archive_whose_writes_fail_without_retries(room):
    needs_strace(room)
    for error in OF_FILES:
        for when in range(1, COUNT + 1):
            archive_by(room, 0, error, when, 1, messages(when - 1) + messages(COUNT - when, when))
        archive_by(room, 0, error, "1+2", COUNT // 2, [message(1), message(3)])


@test
def archive_whose_writes_fail_with_two_retries(room):
    needs_strace(room)
    archive_by(room, 2, "EIO", "1+1", 3 * COUNT, [])
    archive_by(room, 2, "EINTR", "1+2", COUNT, messages(COUNT))


@test
def archive_that_fails_each_third_time_under_load(room):
    needs_strace(room)
    for error in "EINTR", "ENOSPC":
        # (by itself: an action with others in its list gets message after message)
        relay, port = archive(room, -1, error, "1+3", after="")
        send_all(port, messages(MANY))
        room.holds("audit.log", messages(MANY))
        relay.stops_with(totals(MANY, 0, 0, ("audit", MANY, MANY, 0, 0)))
        same("some writes failed", answered(room) > 0, True)


@test
def archive_that_fails_and_works_many_times(room):
    needs_strace(room)
    begun = time.monotonic()
    relay, port = archive(room, -1, "EIO", "1+2")
    texts = messages(100)
    send_all(port, texts)
    room.holds("after.log", texts)
    relay.stops_with(totals(100, 0, 0, ("audit", 100, 100, 0, 0), ("after", 100, 100, 0, 0)))
    same("writes that failed", answered(room), 100)
    took, lines = time.monotonic() - begun, relay.lines()
    # (a line a second at most, and what is left to be told as it ends)
    if not 1 <= len(lines) <= took + 2 or [it for it in lines if not it.startswith("syc: action audit ")]:
        raise Failure(f"a hundred failures were told within {took:.1f} s by {lines}")


# ---- Links

def link(room, retries, error, when, after=AFTER):
    """Starts a relay with a link, some of whose writes answer an error, and an archive, which tells how far it is; answers
    it, its port and the receiver."""
    port, inner = room.port(), room.port()
    room.write("after.log", "")
    room.site({"edge": module() + main_queue(size=1000, dequeueBatchSize=100) + imtcp(port) + omfwd("up", "hub", inner, retries, 0)
               + after, "hub": module() + imtcp(inner) + omfile("audit", "audit.log")})
    receiver = Receiver(inner)
    relay = room.start("edge", port, words=["--unchecked", "site", "edge"], under=answering(room, TO_LINKS, error, when))
    return relay, port, receiver


def received(receiver):
    """The messages of each connection, of which each has to end with a whole frame."""
    found = [split(bytes(it)) for it in receiver.came]
    same("what came behind the last whole frames", [rest for _, rest in found], [b""] * len(found))
    return [texts for texts, _ in found]


def link_by(room, retries, error, when, failures, *wanted):
    """A few messages, each sent once the one before is over: which of them come over which connection then."""
    relay, port, receiver = link(room, retries, error, when)
    for number in range(COUNT):
        send_all(port, messages(1, number))
        room.holds("after.log", messages(number + 1))
    done = sum(map(len, wanted))
    relay.stops_with(totals(COUNT, 0, 0, ("up", COUNT, done, COUNT - done, 0), ("after", COUNT, COUNT, 0, 0)))
    until("all of it is received", lambda: len(receiver.messages()) >= done and len(receiver.came) >= len(wanted))
    receiver.close()
    same(f"what comes where write {when} answers {error}", received(receiver), list(wanted))
    same(f"writes that answered {error} ({when})", answered(room), failures)


@test(limit=3600)
def link_whose_writes_fail_with_endless_retries(room):
    needs_strace(room)
    for error in OF_LINKS:
        for when in range(1, COUNT + 1):
            # (nothing of the frame was written, and the link after that one has it whole)
            link_by(room, -1, error, when, 1, messages(when - 1), messages(COUNT + 1 - when, when - 1))
        link_by(room, -1, error, "1+2", COUNT, [], *([message(it)] for it in range(COUNT)))


@test(limit=3600)
def link_whose_writes_fail_without_retries(room):
    needs_strace(room)
    for error in OF_LINKS:
        for when in range(1, COUNT):
            link_by(room, 0, error, when, 1, messages(when - 1), messages(COUNT - when, when))
        link_by(room, 0, error, COUNT, 1, messages(COUNT - 1))


@test
def link_whose_writes_would_block_or_are_interrupted(room):
    needs_strace(room)
    for error in "EAGAIN", "EINTR":
        for when, failures in *((it, 1) for it in range(1, COUNT + 1)), ("1+2", COUNT):
            link_by(room, 0, error, when, failures, messages(COUNT))


@test
def link_that_fails_each_third_time_under_load(room):
    needs_strace(room)
    for error in "EPIPE", "ECONNRESET":
        relay, port, receiver = link(room, -1, error, "1+3", after="")
        send_all(port, messages(MANY))
        receiver.has(messages(MANY))
        relay.stops_with(totals(MANY, 0, 0, ("up", MANY, MANY, 0, 0)))
        same("some writes failed", answered(room) > 0, True)
        same("what came over all connections", [it for texts in received(receiver) for it in texts], messages(MANY))


# ---- What is left, totals, lines about what happens, and connections that are accepted

def left_by(room, calls, error, when):
    """A relay that leaves sixty messages, beside an earlier file, one of whose calls answers an error.

    Answers its status, its faults, how many messages its file then has, and the files there are, without their ports."""
    port, inner = room.port(), room.port()
    room.site({"edge": module() + imtcp(port) + omfwd("up", "hub", inner, -1, 0),
               "hub": module() + imtcp(inner) + omfile("audit", "audit.log")})
    room.write("left", "before")
    name = f"left.{port}.new"
    # (a call names the file as the relay does, or by its descriptor)
    under = ["strace", "-P", name, *answering(room, calls, error, when, name)[1:]]
    relay = room.start("edge", port, words=["--unchecked", "site", "edge", "--left", "left"], under=under)
    texts = messages(60, text="x" * 3000)
    send_all(port, texts)
    relay.says("syc: action up fails: connection refused")
    relay.process.stdin.close()
    status = relay.ends()
    same("totals", relay.output().splitlines()[0], "taken 60 lost 0 held 60")
    same(f"calls that answered {error} ({calls} {when})", answered(room), 1)
    same("the earlier file", room.read("left"), b"before")
    for it in (name, f"left.{port}"):
        if os.path.exists(room.path(it)):
            same(f"messages of {it}, and what is behind them", split(room.read(it)), (texts, b""))
    found = sorted(it.replace(f".{port}", "") for it in os.listdir(room.folder) if it.startswith(f"left.{port}"))
    for it in os.listdir(room.folder):
        if it.startswith(f"left.{port}"):
            os.remove(room.path(it))
    return status, relay.faults(), found


@test(limit=3600)
def left_whose_calls_fail_one_by_one(room):
    needs_strace(room)
    # it is made, written in blocks of 64 KiB, opened to be synced, and gets its name; what is whole stays, under the name that it has
    for calls, count in ("openat", 2), (TO_FILES, 3), ("fsync,fdatasync", 1), ("link,linkat", 1):
        for when in range(1, count + 1):
            for error in "ENOSPC", "EIO":
                is_whole = calls != TO_FILES and (calls, when) != ("openat", 1)
                wanted = (4, ["syc: write failed"], ["left.new"] if is_whole else [])
                came = left_by(room, calls, error, when)
                if not came[1]:
                    # (a stop waits for a second until its last line is printed, and on a busy machine that may not be enough)
                    came = left_by(room, calls, error, when)
                same(f"{error} at call {when} of {calls}", came, wanted)


@test
def left_whose_writes_are_interrupted(room):
    needs_strace(room)
    for calls, count in ("openat", 2), (TO_FILES, 3), ("fsync,fdatasync", 1):
        for when in range(1, count + 1):
            same(f"interrupted at call {when} of {calls}", left_by(room, calls, "EINTR", when), (0, [], ["left"]))


@test
def totals_whose_write_fails(room):
    needs_strace(room)
    for error in "ENOSPC", "EIO", "EPIPE", "EAGAIN":
        port = room.port()
        hub_files(room, port)
        relay = room.start("hub", port, words=["site", "hub"], under=answering(room, TO_FILES, error, 1, "hub.stdout"))
        relay.process.stdin.close()
        same("status and faults", (relay.ends(), relay.faults()), (4, ["syc: write failed"]))
        same("the totals", relay.output(), "")


@test
def standard_error_whose_writes_fail(room):
    needs_strace(room)
    for error in "EAGAIN", "EPIPE", "ENOSPC":
        room.write("audit.log", "")
        port = room.port()
        hub_files(room, port)
        relay = room.start("hub", port, words=["site", "hub"], under=answering(room, TO_FILES, error, "1+1", "hub.stderr"))
        for number in range(3):
            sender = Sender(port).send(message(number)).send_bytes(b"x")
            sender.is_ended()
            sender.close()
        room.holds("audit.log", messages(3))
        relay.stops_with(totals(3, 0, 0, ("audit", 3, 3, 0, 0)))
        same("some writes failed", answered(room) > 0, True)


@test
def connections_whose_accept_fails(room):
    needs_strace(room)
    for error in "ECONNABORTED", "EINTR", "EMFILE", "ENOBUFS":
        room.write("audit.log", "")
        port = room.port()
        hub_files(room, port)
        relay = room.start("hub", port, words=["site", "hub"], under=answering(room, "accept,accept4", error, "1+2"))
        for number in range(COUNT):
            send_all(port, messages(1, number))
        room.holds("audit.log", messages(COUNT))
        relay.stops_with(totals(COUNT, 0, 0, ("audit", COUNT, COUNT, 0, 0)))
        same("some were refused", answered(room) > 0, True)


# ---- Writes that take a part

def grown(room, size):
    """Waits until the archive has this size."""
    until(f"the archive has {size} bytes", lambda: room.size("audit.log") == size, came=lambda: room.size("audit.log"))


def cut_archive(room, retries):
    """Starts a relay with an archive; what stands there is more than the files of lines about it will ever have."""
    port = room.port()
    room.write("audit.log", b"x" * 99_999 + b"\n")
    room.site({"hub": module() + imtcp(port) + omfile("audit", "audit.log", retries, 0)})
    ignores = lambda: signal.signal(signal.SIGXFSZ, signal.SIG_IGN)  # noqa: E731
    return room.start("hub", port, words=["--unchecked", "site", "hub"], limits=ignores), port


def limit(relay, size):
    resource.prlimit(relay.pid, resource.RLIMIT_FSIZE, (size, resource.RLIM_INFINITY))


@test(limit=3600)
def lines_cut_at_each_byte_with_endless_retries(room):
    relay, port = cut_archive(room, -1)
    size, line = room.size("audit.log"), len(message(100)) + 1
    turns = 2 * line
    for cut in range(turns):
        limit(relay, size + cut)
        send_all(port, messages(2, 100 + 2 * cut))
        grown(room, size + cut)
        lift(relay)
        size += 2 * line
        grown(room, size)
    relay.stops_with(totals(2 * turns, 0, 0, ("audit", 2 * turns, 2 * turns, 0, 0)))
    same("the archive", room.lines("audit.log")[1:], messages(2 * turns, 100))


@test(limit=3600)
def lines_cut_at_each_byte_without_retries(room):
    relay, port = cut_archive(room, 0)
    size, line, wanted, done = room.size("audit.log"), len(message(100)) + 1, [], 0
    for cut in range(line + 1):
        first, second, third = messages(3, 100 + 3 * cut)
        limit(relay, size + cut)
        send_all(port, [first, second])
        done += cut == line
        until("both are over", lambda: asked(relay, 1) == [totals(3 * cut + 2, 0, 0, ("audit", 3 * cut + 2, done, 3 * cut + 2 - done, 0))],
              came=relay.errors)
        same("the archive's size", room.size("audit.log"), size + cut)
        lift(relay)
        send_all(port, [third])
        # (what is torn is ended by a line feed, so the first looks whole where it lacked nothing else)
        wanted += [first[:cut]] * (cut > 0) + [third]
        size = 100_000 + sum(len(it) + 1 for it in wanted)
        grown(room, size)
        done += 1
    count = 3 * (line + 1)
    relay.stops_with(totals(count, 0, 0, ("audit", count, done, count - done, 0)))
    same("the archive", room.lines("audit.log")[1:], wanted)

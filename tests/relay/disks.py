"""Archives on disks that are full or read-only: what was taken stands there whole in the end, and lines that were cut go on.

Lines are really cut: by a limit of the file's size, by a small disk, and by a pipe whose reader goes away. Each is tried with
`sync` off and on, with a queue of the action and without."""

import ctypes
import fcntl
import os
import signal
import subprocess
import termios
from array import array

from archives import lift
from failing import BATCH, BATCHES, COUNT, KINDS, SYNC, SYNCED, TURNS, WRITES, closed, ended, ends, hub, of_kinds, says_that_it_fails
from peers import Sender, message, messages, send_all
from room import ANY, LeftOut, imtcp, module, omfile, same, test, totals, until
from rotation import answer, asks, asks_and_hears, has_open, refused, reopened
from writes import answering, grown, limit, needs_strace

OWN_MOUNTS = 0x20000  # of unshare


# ---- Lines that are cut

LINE, PART = len(message(10)) + 1, 10  # bytes of a line, and of it before the cut
BEFORE = b"x" * 99_999 + b"\n"  # (more than the files of lines about the relay will ever have)


def ignores():
    signal.signal(signal.SIGXFSZ, signal.SIG_IGN)


@of_kinds(*KINDS)
def lines_cut_by_a_limit(room, more):
    room.write("audit.log", BEFORE)
    relay, port = hub(room, more, limits=ignores)
    for number in range(COUNT):
        size = len(BEFORE) + number * LINE
        if number + 1 in TURNS:
            limit(relay, size + PART)
        send_all(port, messages(1, 10 + number))
        if number + 1 in TURNS:
            times = TURNS.index(number + 1) + 1
            says_that_it_fails(relay, WRITES["EFBIG"], times)
            grown(room, size + PART)
            lift(relay)
            until("its end is told", lambda count=times: ended(relay) == count, came=relay.errors)
        grown(room, size + LINE)
    ends(relay, COUNT, WRITES["EFBIG"], len(TURNS))
    same("the archive", room.read("audit.log")[len(BEFORE):], b"".join(it + b"\n" for it in messages(COUNT, 10)))


@of_kinds(*KINDS)
def batches_cut_by_a_limit(room, more):
    room.write("audit.log", BEFORE)
    relay, port = hub(room, more, limits=ignores)
    texts = messages(1 + BATCH * BATCHES, 10)
    limit(relay, len(BEFORE))
    send_all(port, texts[:1])
    says_that_it_fails(relay, WRITES["EFBIG"])
    send_all(port, texts[1:])
    # (in the first batch, a middle one and the last line of the last)
    for whole in 1 + 2, 1 + BATCH + 5, BATCH * BATCHES:
        limit(relay, len(BEFORE) + whole * LINE + PART)
        grown(room, len(BEFORE) + whole * LINE + PART)
    lift(relay)
    grown(room, len(BEFORE) + len(texts) * LINE)
    ends(relay, len(texts), WRITES["EFBIG"])
    same("the archive", room.read("audit.log")[len(BEFORE):], b"".join(it + b"\n" for it in texts))


def told(relay, line):
    """Waits for a line, and answers it as a list."""
    relay.says(line)
    return [line]


@of_kinds(*KINDS)
def senders_that_wait_while_there_is_no_room(room, more):
    room.write("audit.log", BEFORE)
    relay, port = hub(room, more, limits=ignores)
    # (above what the queues hold)
    texts = messages(3000, 1000)
    limit(relay, len(BEFORE) + PART)
    sender = Sender(port).send(*texts)
    says_that_it_fails(relay, WRITES["EFBIG"])
    relay.says(f"syc: input {port} held: full-delay mark")
    lift(relay)
    sender.end()
    room.holds("audit.log", [BEFORE[:-1], *texts])
    others = [f"syc: input {port} held: full-delay mark", f"syc: input {port} goes on after N s"]
    ends(relay, len(texts), WRITES["EFBIG"], others=others)


@of_kinds(*SYNCED)
def torn_line_whose_sync_fails(room, more):
    """Lines before it are whole, so a sync follows. The file is opened anew, which ends what is torn: so its line is there again,
    whole, and so are those before."""
    needs_strace(room)
    room.write("audit.log", BEFORE)
    relay, port = hub(room, more, under=answering(room, "fdatasync", "EIO", 2, "audit.log"), limits=ignores)
    texts = messages(1 + BATCH, 10)
    limit(relay, len(BEFORE))
    send_all(port, texts[:1])
    says_that_it_fails(relay, WRITES["EFBIG"])
    send_all(port, texts[1:])
    # (within the third line of the batch that comes after the first message)
    limit(relay, len(BEFORE) + 3 * LINE + PART)
    # (nor is there room for the line feed that ends it)
    others = told(relay, closed(WRITES["EFBIG"]))
    same("the archive", room.read("audit.log"), BEFORE + b"".join(it + b"\n" for it in texts[:3]) + texts[3][:PART])
    lift(relay)
    wanted = [*texts[:3], texts[3][:PART], *texts[1:]]
    grown(room, len(BEFORE) + sum(len(it) + 1 for it in wanted))
    ends(relay, len(texts), WRITES["EFBIG"], others=others + told(relay, reopened()))
    same("the archive then", room.lines("audit.log")[1:], wanted)


# ---- Disks

def own_mounts():
    """Has this test, and what it starts, mounts of their own, which end with them."""
    libc = ctypes.CDLL(None, use_errno=True)
    if libc.unshare(OWN_MOUNTS) or not mounts("--make-rprivate", "/"):
        raise LeftOut("mounting a disk isn't allowed here")


def mounts(*words):
    return not subprocess.run(["mount", *words], stdin=subprocess.DEVNULL, capture_output=True, check=False).returncode


def small_disk(room):
    """Mounts a disk of 64 KiB."""
    own_mounts()
    os.mkdir(room.path("disk"))
    if not mounts("-t", "tmpfs", "-o", "size=64k", "tmpfs", room.path("disk")):
        raise LeftOut("mounting a disk isn't allowed here")


ROOM = 65_536  # bytes of that disk


@of_kinds(*KINDS)
def disk_that_is_full(room, more):
    small_disk(room)
    page, texts = 4096, messages(400, 1000)
    fit = page // (len(texts[0]) + 1)
    # (before the first line, within a middle one, and within the last)
    for free, count in (0, COUNT), (page, len(texts)), (page, fit + 1):
        room.write("disk/other", b"x" * (ROOM - free))
        relay, port = hub(room, more, path="disk/audit.log")
        send_all(port, texts[:count])
        says_that_it_fails(relay, WRITES["ENOSPC"])
        until("the disk is full", lambda size=free: room.size("disk/audit.log") == size, came=lambda: room.size("disk/audit.log"))
        os.unlink(room.path("disk/other"))
        room.holds("disk/audit.log", texts[:count])
        ends(relay, count, WRITES["ENOSPC"])
        same("the archive", room.lines("disk/audit.log"), texts[:count])
        os.unlink(room.path("disk/audit.log"))


def cover(room):
    """Mounts the disk over itself, read-only. (While a relay writes to it, it can't be mounted anew so itself.)"""
    disk = room.path("disk")
    same("whether the disk itself becomes read-only", mounts("-o", "remount,ro", disk), False)
    same("whether it does above itself", mounts("--bind", disk, disk) and mounts("-o", "remount,bind,ro", disk), True)


def uncover(room):
    subprocess.run(["umount", "-l", room.path("disk")], stdin=subprocess.DEVNULL, check=True)


@of_kinds(*SYNCED)
def disk_that_is_read_only_after_a_failed_sync(room, more):
    needs_strace(room)
    small_disk(room)
    path = "disk/audit.log"
    room.write(path, "")
    relay, port = hub(room, more, path=path, under=answering(room, "fdatasync", "EIO", 2, path))
    send_all(port, messages(1))
    room.holds(path, messages(1))
    cover(room)
    send_all(port, messages(1, 1))
    says_that_it_fails(relay, WRITES["EIO"])
    others = told(relay, closed(WRITES["EROFS"], path=path))
    send_all(port, messages(3, 2))
    same("the archive", room.lines(path), messages(2))
    uncover(room)
    room.holds(path, [*messages(2), *messages(4, 1)])
    ends(relay, COUNT, WRITES["EIO"], others=others + told(relay, reopened(path)))


@of_kinds(*KINDS)
def reopen_on_a_disk_that_is_read_only(room, more):
    small_disk(room)
    path, old = "disk/audit.log", "disk/audit.old"
    relay, port = hub(room, more, path=path)
    send_all(port, messages(1))
    room.holds(path, messages(1))
    os.rename(room.path(path), room.path(old))
    cover(room)
    asks_and_hears(relay, refused(WRITES["EROFS"], path=path), answer(0))
    send_all(port, messages(2, 1))
    room.holds(old, messages(3))
    uncover(room)
    relay.says(reopened(path))
    send_all(port, messages(2, 3))
    room.holds(path, messages(2, 3))
    same("the old archive", room.lines(old), messages(3))
    relay.stops_with(totals(COUNT, 0, 0, ("audit", COUNT, COUNT, 0, 0)))
    same("what it said", relay.lines(), [refused(WRITES["EROFS"], path=path), answer(0), reopened(path)])


# ---- Files that can't be opened anew after a failed sync

@of_kinds(*SYNCED)
def folder_that_is_gone_after_a_failed_sync(room, more):
    """No file is open then, and no line is lost: the file of its name has them once it can be made."""
    needs_strace(room)
    path, old = "logs/audit.log", "old/audit.log"
    os.mkdir(room.path("logs"))
    relay, port = hub(room, more, path=path, under=answering(room, "fdatasync", "EIO", 2))
    send_all(port, messages(1))
    room.holds(path, messages(1))
    os.rename(room.path("logs"), room.path("old"))
    send_all(port, messages(1, 1))
    says_that_it_fails(relay, WRITES["EIO"])
    line = closed("no such folder", path=path)
    relay.says(line)
    send_all(port, messages(3, 2))
    # (each request that fails says so)
    asks(relay)
    relay.says(answer(0))
    relay.says(line, 2)
    same("the old archive", room.lines(old), messages(2))
    same("whether it is open", has_open(relay, room.path(old)), False)
    os.mkdir(room.path("logs"))
    room.holds(path, messages(4, 1))
    relay.says(reopened(path))
    ends(relay, COUNT, WRITES["EIO"], others=[line, line, answer(0), reopened(path)])
    same("the old archive then", room.lines(old), messages(2))


@of_kinds(*SYNCED)
def sync_that_fails_after_a_refused_reopen(room, more):
    """Lines go on to the old file until its sync fails, and then to none."""
    needs_strace(room)
    relay, port = hub(room, more, under=answering(room, "fdatasync", "EIO", 3))
    send_all(port, messages(1))
    room.holds("audit.log", messages(1))
    os.rename(room.path("audit.log"), room.path("audit.old"))
    os.mkdir(room.path("audit.log"))
    asks_and_hears(relay, refused("is a directory"), answer(0))
    for number in 1, 2:
        send_all(port, messages(1, number))
        room.holds("audit.old", messages(number + 1))
    says_that_it_fails(relay, WRITES["EIO"])
    relay.says(closed("is a directory"))
    send_all(port, messages(2, 3))
    os.rmdir(room.path("audit.log"))
    room.holds("audit.log", messages(3, 2))
    relay.says(reopened())
    ends(relay, COUNT, WRITES["EIO"], others=[refused("is a directory"), answer(0), closed("is a directory"), reopened()])
    same("the old archive", room.lines("audit.old"), messages(3))


# ---- Pipes and devices

@test
def synced_archive_that_is_on_no_disk(room):
    """The host refuses to sync it, and it is no failure."""
    port = room.port()
    room.site({"hub": module() + imtcp(port) + omfile("audit", "/dev/null", -1, 0, SYNC)}, f"entry hub {port}", "protect auth.* hub audit")
    relay = room.start("hub", port)
    send_all(port, messages(COUNT))
    relay.stops_with(totals(COUNT, 0, 0, ("audit", COUNT, COUNT, 0, 0)))
    same("what it said", relay.lines(), [])


def unread(reader):
    found = array("i", [0])
    fcntl.ioctl(reader, termios.FIONREAD, found)
    return found[0]


def reads(reader, came, size):
    """Reads until so much came."""
    def is_there():
        try:
            came.extend(os.read(reader, ROOM))
        except BlockingIOError:
            pass
        return len(came) >= size
    until("all comes through the pipe", is_there, came=lambda: len(came))


@of_kinds(*KINDS)
def pipe_whose_reader_goes_away(room, more):
    """A write that waits for room takes a part alone where the reader goes; the next reader has the rest."""
    path, held = room.path("audit.log"), 4096
    os.mkfifo(path)
    reader = os.open(path, os.O_RDONLY | os.O_NONBLOCK)
    fcntl.fcntl(reader, fcntl.F_SETPIPE_SZ, held)
    relay, port = hub(room, more + ANY)
    texts, came = messages(COUNT, text="a" * 30_000), bytearray()
    for number, text in enumerate(texts):
        send_all(port, [text])
        times = TURNS.index(number + 1) + 1 if number + 1 in TURNS else 0
        if times:
            until("the pipe is full", lambda: unread(reader) == held, came=lambda: unread(reader))
            os.close(reader)
            says_that_it_fails(relay, "broken pipe", times)
            reader = os.open(path, os.O_RDONLY | os.O_NONBLOCK)
        reads(reader, came, (number + 1) * (len(text) + 1))
        if times:
            until("its end is told", lambda count=times: ended(relay) == count, came=relay.errors)
    ends(relay, COUNT, "broken pipe", len(TURNS))
    reads(reader, came, 0)
    same("what came through the pipe", bytes(came), b"".join(it + b"\n" for it in texts))

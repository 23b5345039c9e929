"""Archives that are one process's: a second is refused at its start, and as archives are opened anew."""

import contextlib
import fcntl
import os

from archives import Pipe
from failing import SYNC, closed
from failing import hub as failing_hub
from peers import message, messages, send_all
from room import ANY, Relay, imtcp, module, omfile, same, test, totals, until
from rotation import answer, asks_and_hears, has_open, hub, refused, reopened
from starts import explains, place
from writes import answering, needs_strace

OTHERS = "another process writes to it"
TAKEN = "syc: another process writes to an archive\n"
CHANGE = "change: the name of another file, or stop that process, which fuser names"


@contextlib.contextmanager
def locked(room, name):
    """Has the lock on a file, which is made where it isn't there; fails where somebody else has it."""
    with open(room.path(name), "ab") as it:
        fcntl.flock(it, fcntl.LOCK_EX | fcntl.LOCK_NB)
        yield


def is_locked(room, name):
    """Whether somebody has the lock on a file that is there."""
    os.stat(room.path(name))
    try:
        with locked(room, name):
            return False
    except BlockingIOError:
        return True


def two(room, first, second):
    """A site of two relays, each with an archive of its own parameters; answers their ports."""
    ports = room.port(), room.port()
    room.site({"hub": module() + imtcp(ports[0]) + omfile("audit", first[0], more=first[1]),
               "other": module() + imtcp(ports[1]) + omfile("copies", second[0], more=second[1])},
              f"entry hub {ports[0]}", "protect auth.* hub audit")
    return ports


def where(room):
    return f"(looked for in {os.path.realpath(room.folder)}, the working directory)"


def done(name, count):
    return totals(count, 0, 0, (name, count, count, 0, 0))


# ---- At the start

@test
def two_relays_of_one_archive(room):
    port, other = two(room, ("audit.log", ""), ("audit.log", ""))
    relay = room.start("hub", port)
    send_all(port, messages(2))
    room.holds("audit.log", messages(2))
    # (a line feed would end what looks torn)
    with open(room.path("audit.log"), "ab") as it:
        it.write(b"torn")
    explains(room, ["site", "other"], 4, TAKEN, f"where: other.conf:{place(room, 'copies', 'other.conf')}: action copies",
             f"why: audit.log: {OTHERS} {where(room)}", CHANGE)
    room.ports_are_free(other)
    send_all(port, messages(1, 2))
    room.holds("audit.log", [*messages(2), b"torn" + message(2)])
    relay.stops_with(done("audit", 3))
    # (it is anybody's once that one has ended)
    relay = room.start("other", other)
    send_all(other, messages(1, 3))
    room.has("audit.log", 4)
    relay.stops_with(done("copies", 1))


@test
def relay_that_is_started_twice(room):
    """Its archive comes before its port: nothing is touched."""
    relay, port = hub(room, os.path.realpath(room.folder) + "/audit.log")
    send_all(port, messages(1))
    room.holds("audit.log", messages(1))
    explains(room, ["site", "hub"], 4, TAKEN, f"where: hub.conf:{place(room, 'audit')}: action audit",
             f"why: {os.path.realpath(room.folder)}/audit.log: {OTHERS}", CHANGE)
    send_all(port, messages(1, 1))
    room.holds("audit.log", messages(2))
    relay.stops_with(done("audit", 2))


@test
def relay_that_is_killed_leaves_no_lock(room):
    relay, port = hub(room)
    for turn in range(3):
        send_all(port, messages(1, turn))
        room.holds("audit.log", messages(turn + 1))
        same("whether it is locked", is_locked(room, "audit.log"), True)
        relay.kill()
        same("whether it is locked then", is_locked(room, "audit.log"), False)
        relay = room.start("hub", port)
    relay.stops_with(done("audit", 0))


@test
def archives_that_are_different_files(room):
    ports = two(room, ("audit.log", SYNC), ("other.log", ""))
    relays = [room.start(name, port) for name, port in zip(("hub", "other"), ports)]
    for port in ports:
        send_all(port, messages(3))
    for name in "audit.log", "other.log":
        room.holds(name, messages(3))
        os.rename(room.path(name), room.path(f"{name}.old"))
    for relay in relays:
        asks_and_hears(relay, answer(1))
    for port in ports:
        send_all(port, messages(1, 3))
    for name in "audit.log", "other.log":
        room.holds(name, messages(1, 3))
    for relay, name in zip(relays, ("audit", "copies")):
        relay.stops_with(done(name, 4))


@test
def archives_of_any_file_are_shared(room):
    """Neither is locked, nor does it ask for a lock, by which name ever."""
    ports = two(room, ("audit.log", ANY), ("./audit.log", ANY))
    with locked(room, "audit.log"):
        relays = [room.start(name, port) for name, port in zip(("hub", "other"), ports)]
    same("whether it is locked", is_locked(room, "audit.log"), False)
    for port in ports:
        send_all(port, messages(3))
    room.has("audit.log", 6)
    same("the archive of both", sorted(room.lines("audit.log")), sorted(messages(3) * 2))
    for relay, name in zip(relays, ("audit", "copies")):
        relay.stops_with(done(name, 3))


@test
def pipe_is_not_locked(room):
    pipe = Pipe(room)
    relay, port = room.hub(kind=ANY)
    send_all(port, messages(3))
    pipe.has(messages(3))
    same("whether it is locked", is_locked(room, "audit.log"), False)
    relay.stops_with(done("audit", 3))


@test
def unread_file_is_not_locked(room):
    port = room.port()
    room.site({"hub": module() + imtcp(port) + omfile("audit", "audit.log")}, f"entry hub {port}", "protect auth.* hub audit")
    relay = room.start("hub", port, words=["--unread", "unread", "site", "hub"])
    same("whether it is locked", is_locked(room, "unread"), False)
    same("whether the archive is", is_locked(room, "audit.log"), True)
    relay.stops_with(totals(0, 0, 0, ("audit", 0, 0, 0, 0), unread=0))


@test
def archive_where_there_are_no_locks(room):
    """As on some file systems: it is written to without one."""
    needs_strace(room)
    for error in "ENOLCK", "EOPNOTSUPP", "ENOSYS":
        room.write("audit.log", "")
        relay, port = failing_hub(room, "", under=answering(room, "flock", error, "1+1"))
        same("whether it is locked", is_locked(room, "audit.log"), False)
        send_all(port, messages(2))
        room.holds("audit.log", messages(2))
        os.rename(room.path("audit.log"), room.path("audit.old"))
        asks_and_hears(relay, answer(1))
        send_all(port, messages(1, 2))
        room.holds("audit.log", messages(1, 2))
        relay.stops_with(done("audit", 3))


@test
def many_that_start_at_once(room):
    """One of them has it, and each other is refused."""
    names = [f"hub{it}" for it in range(8)]
    room.site({it: module() + imtcp(room.port()) + omfile("audit", "audit.log") for it in names})
    relays = [Relay(room, it, ["--unchecked", "site", it]) for it in names]
    until("all but one have ended", lambda: sum(it.process.poll() is None for it in relays) == 1)
    for relay in relays:
        if relay.process.poll() is None:
            until("it has the archive", lambda it=relay: has_open(it, room.path("audit.log")))
            relay.kill()
        else:
            same("status, and words", (relay.ends(), relay.errors()), (4, TAKEN))


# ---- As archives are opened anew

@test
def lock_of_a_file_that_was_renamed(room):
    """The old file is closed, and its lock with it; the new one has its own."""
    relay, port = hub(room)
    send_all(port, messages(1))
    room.holds("audit.log", messages(1))
    os.rename(room.path("audit.log"), room.path("audit.old"))
    same("whether the old file is locked", is_locked(room, "audit.old"), True)
    asks_and_hears(relay, answer(1))
    same("whether the old file is locked then", is_locked(room, "audit.old"), False)
    same("whether the new one is", is_locked(room, "audit.log"), True)
    # (the same file stays open)
    asks_and_hears(relay, answer(1))
    same("whether it still is", is_locked(room, "audit.log"), True)
    relay.stops_with(done("audit", 1))


@test
def reopen_of_a_file_of_another_process(room):
    relay, port = hub(room)
    send_all(port, messages(1))
    room.holds("audit.log", messages(1))
    os.rename(room.path("audit.log"), room.path("audit.old"))
    room.write("audit.log", b"torn")
    with locked(room, "audit.log"):
        asks_and_hears(relay, refused(OTHERS), answer(0))
        send_all(port, messages(2, 1))
        room.holds("audit.old", messages(3))
        same("whether the old file is locked", is_locked(room, "audit.old"), True)
        same("the new one", room.read("audit.log"), b"torn")
    relay.says(reopened())
    same("whether the old file is locked then", is_locked(room, "audit.old"), False)
    send_all(port, messages(1, 3))
    room.holds("audit.log", [b"torn", message(3)])
    same("what it said", relay.lines(), [refused(OTHERS), answer(0), reopened()])
    relay.stops_with(done("audit", 4))


@test
def lock_after_a_failed_sync(room):
    """The same file is opened anew, though it was locked by the relay itself."""
    needs_strace(room)
    room.write("audit.log", "")
    relay, port = failing_hub(room, SYNC, under=answering(room, "fdatasync", "EIO", 2, "audit.log"))
    send_all(port, messages(1))
    room.holds("audit.log", messages(1))
    send_all(port, messages(1, 1))
    relay.says("syc: action audit fails: error 5")
    room.holds("audit.log", [*messages(2), message(1)])
    same("whether it is locked", is_locked(room, "audit.log"), True)
    relay.stops_with(done("audit", 2))


@test
def file_that_another_process_takes_after_a_failed_sync(room):
    """While no file is open none is locked, and no line is lost."""
    needs_strace(room)
    path = "logs/audit.log"
    for it in "logs", "theirs":
        os.mkdir(room.path(it))
    relay, port = failing_hub(room, SYNC, path=path, under=answering(room, "fdatasync", "EIO", 2))
    send_all(port, messages(1))
    room.holds(path, messages(1))
    os.rename(room.path("logs"), room.path("old"))
    send_all(port, messages(1, 1))
    relay.says(closed("no such folder", path=path))
    same("whether the old file is locked", is_locked(room, "old/audit.log"), False)
    with locked(room, "theirs/audit.log"):
        os.rename(room.path("theirs"), room.path("logs"))
        relay.says(closed(OTHERS, path=path))
        send_all(port, messages(1, 2))
        same("the file", room.read(path), b"")
    room.holds(path, messages(2, 1))
    same("whether it is locked", is_locked(room, path), True)
    relay.says(reopened(path))
    relay.stops_with(done("audit", 3))

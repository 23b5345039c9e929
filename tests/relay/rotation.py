"""Archives that are opened anew or can't be, whose file has lost its name, and that can't be read."""

import ctypes
import os
import time

from archives import Pipe
from peers import Pump, Sender, message, messages, send_all
from room import ANY, imtcp, main_queue, module, omfile, omfwd, same, test, totals, until

LIBC = ctypes.CDLL(None, use_errno=True)
DROP_OF_BOUNDS, OVERRIDE, READ_SEARCH = 24, 1, 2  # of prctl; and the capabilities by which root reads and writes any file
NAMELESS = "syc: action audit writes to a file that has no name any more"


def ruled_by_modes():
    """Has a relay that root starts keep to owners and modes of files."""
    for it in (OVERRIDE, READ_SEARCH):
        if os.getuid() == 0 and LIBC.prctl(DROP_OF_BOUNDS, it, 0, 0, 0):
            os._exit(126)


def refused(reason, name="audit", path="audit.log"):
    return f"syc: action {name} can't reopen {path}: {reason}; lines go on to the file that was renamed"


def reopened(path="audit.log", name="audit"):
    return f"syc: action {name} reopened {path}"


def answer(count):
    return f"syc: reopened {count} archives"


def asks(relay):
    """Asks a relay to open its archives anew."""
    relay.process.stdin.write(b"reopen\n")
    relay.process.stdin.flush()


def asks_and_hears(relay, *lines):
    """The same, and waits until it has said these lines, the answer last, after what it said before."""
    before = len(relay.lines())
    asks(relay)
    until(f"{relay.name} answers", lambda: len(relay.lines()) >= before + len(lines), came=relay.errors)
    same("what it answers", relay.lines()[before:], list(lines))


def hub(room, path="audit.log", limits=None):
    """Starts a hub with one archive of that path; answers it and its port."""
    port = room.port()
    room.site({"hub": module() + imtcp(port) + omfile("audit", path)}, f"entry hub {port}", "protect auth.* hub audit")
    return room.start("hub", port, words=["site", "hub"], limits=limits), port


def has_open(relay, path):
    """Whether a relay has this file open."""
    folder, about = f"/proc/{relay.pid}/fd", os.stat(path)
    for it in os.listdir(folder):
        try:
            found = os.stat(f"{folder}/{it}")
        except FileNotFoundError:
            continue
        if (found.st_dev, found.st_ino) == (about.st_dev, about.st_ino):
            return True
    return False


# ---- reopen

@test
def archives_without_traffic_are_opened_anew(room):
    port = room.port()
    room.site({"hub": module() + imtcp(port) + omfile("audit", "audit.log") + omfile("other", "other.log")},
              f"entry hub {port}", "protect auth.* hub audit")
    relay = room.start("hub", port)
    send_all(port, messages(2))
    room.holds("audit.log", messages(2))
    room.holds("other.log", messages(2))
    for it in "audit", "other":
        os.rename(room.path(f"{it}.log"), room.path(f"{it}.old"))
    asks_and_hears(relay, answer(2))
    # (nothing was sent since, and yet the new files are there, and the old ones closed)
    for it in "audit", "other":
        same(f"{it}.log", room.size(f"{it}.log"), 0)
        same(f"whether {it}.old is open", has_open(relay, room.path(f"{it}.old")), False)
        same(f"whether {it}.log is open", has_open(relay, room.path(f"{it}.log")), True)
    send_all(port, messages(1, 2))
    room.holds("audit.log", messages(1, 2))
    asks_and_hears(relay, answer(2))
    relay.stops_with(totals(3, 0, 0, ("audit", 3, 3, 0, 0), ("other", 3, 3, 0, 0)))


@test
def reopen_of_a_relay_without_archives(room):
    port, inner = room.port(), room.port()
    room.site({"edge": module() + imtcp(port) + omfwd("up", "hub", inner),
               "hub": module() + imtcp(inner) + omfile("audit", "audit.log")})
    relay = room.start_unchecked("edge", port)
    asks_and_hears(relay, answer(0))
    relay.stops_with(totals(0, 0, 0, ("up", 0, 0, 0, 0)))


@test
def reopen_just_before_a_stop(room):
    relay, port = hub(room)
    send_all(port, messages(1))
    room.holds("audit.log", messages(1))
    os.rename(room.path("audit.log"), room.path("audit.old"))
    asks(relay)
    # (not once it rests)
    same("totals", relay.stop(), totals(1, 0, 0, ("audit", 1, 1, 0, 0)))
    same("what it said", relay.lines(), [answer(1)])
    same("audit.log", room.read("audit.log"), b"")


@test
def rotation_under_load_tells_nothing_else(room):
    relay, port = hub(room)
    pump, names = Pump(port, 0, "a" * 50), []
    for turn in range(5):
        room.has("audit.log", 500)
        names.append(f"audit.{turn}")
        os.rename(room.path("audit.log"), room.path(names[-1]))
        asks(relay)
        relay.says(answer(1), turn + 1)
    pump.finish()
    until("all is written", lambda: sum(map(room.count, [*names, "audit.log"])) >= pump.sent)
    relay.stops_with(totals(pump.sent, 0, 0, ("audit", pump.sent, pump.sent, 0, 0)))
    same("what it said", relay.lines(), [answer(1)] * 5)
    lines = [line for name in [*names, "audit.log"] for line in room.lines(name)]
    same("the lines of all files", lines == messages(pump.sent, text="a" * 50), True)


@test
def reopen_while_a_pipe_is_full(room):
    pipe = Pipe(room, reads=False)
    port = room.port()
    room.site({"hub": module() + main_queue(size=1000, fullDelayMark=900) + imtcp(port) + omfile("other", "other.log")
               + omfile("audit", "audit.log", more=ANY)}, f"entry hub {port}", "protect auth.* hub audit")
    relay = room.start("hub", port)
    texts = messages(500, text="a" * 500)
    sender = Sender(port).send(*texts)
    relay.rests()
    # (a write to the pipe is under way, and is waited for a second long)
    asks_and_hears(relay, "syc: reopened 1 archives, 1 not yet")
    pipe.reads()
    pipe.has(texts)
    sender.close()
    relay.stops_with(totals(500, 0, 0, ("other", 500, 500, 0, 0), ("audit", 500, 500, 0, 0)))


@test
def reopen_into_a_folder(room):
    relay, port = hub(room)
    send_all(port, messages(1))
    room.holds("audit.log", messages(1))
    os.rename(room.path("audit.log"), room.path("audit.old"))
    os.mkdir(room.path("audit.log"))
    asks_and_hears(relay, refused("is a directory"), answer(0))
    send_all(port, messages(2, 1))
    room.holds("audit.old", messages(3))
    os.rmdir(room.path("audit.log"))
    # (it is tried again, also where nothing is sent)
    relay.says(reopened())
    send_all(port, messages(2, 3))
    room.holds("audit.log", messages(2, 3))
    same("what it said", relay.lines(), [refused("is a directory"), answer(0), reopened()])
    relay.stops_with(totals(5, 0, 0, ("audit", 5, 5, 0, 0)))


@test
def reopen_into_a_missing_folder(room):
    os.mkdir(room.path("logs"))
    relay, port = hub(room, "logs/audit.log")
    send_all(port, messages(1))
    room.holds("logs/audit.log", messages(1))
    os.rename(room.path("logs"), room.path("old"))
    asks_and_hears(relay, refused("no such folder", path="logs/audit.log"), answer(0))
    # (each request that fails says so)
    relay.rests()
    asks(relay)
    relay.says(answer(0), 2)
    relay.says(refused("no such folder", path="logs/audit.log"), 2)
    room.write("logs", "")
    relay.says(refused("not a directory", path="logs/audit.log"))
    send_all(port, messages(1, 1))
    room.holds("old/audit.log", messages(2))
    os.unlink(room.path("logs"))
    os.mkdir(room.path("logs"))
    asks(relay)
    relay.says(answer(1))
    relay.says(reopened("logs/audit.log"))
    send_all(port, messages(1, 2))
    room.holds("logs/audit.log", messages(1, 2))
    relay.stops_with(totals(3, 0, 0, ("audit", 3, 3, 0, 0)))


@test
def reopen_of_a_file_of_another_user(room):
    relay, port = hub(room, limits=ruled_by_modes)
    send_all(port, messages(1))
    room.holds("audit.log", messages(1))
    os.rename(room.path("audit.log"), room.path("audit.old"))
    room.write("audit.log", "")
    os.chmod(room.path("audit.log"), 0o400)
    if os.getuid() == 0:
        os.chown(room.path("audit.log"), 65534, 65534)
    asks_and_hears(relay, refused("permission denied"), answer(0))
    send_all(port, messages(2, 1))
    room.holds("audit.old", messages(3))
    if os.getuid() == 0:
        os.chown(room.path("audit.log"), 0, 0)
    os.chmod(room.path("audit.log"), 0o600)
    relay.says(reopened())
    send_all(port, messages(1, 3))
    room.holds("audit.log", messages(1, 3))
    relay.stops_with(totals(4, 0, 0, ("audit", 4, 4, 0, 0)))


@test
def reopen_in_a_folder_that_is_not_writable(room):
    os.mkdir(room.path("logs"))
    relay, port = hub(room, "logs/audit.log", limits=ruled_by_modes)
    os.rename(room.path("logs/audit.log"), room.path("audit.old"))
    os.chmod(room.path("logs"), 0o500)
    asks_and_hears(relay, refused("permission denied", path="logs/audit.log"), answer(0))
    os.chmod(room.path("logs"), 0o700)
    relay.says(reopened("logs/audit.log"))
    relay.stops_with(totals(0, 0, 0, ("audit", 0, 0, 0, 0)))


@test
def path_that_would_write_lines_of_its_own(room):
    os.mkdir(room.path("a\rb"))
    relay, port = hub(room, "a\rb/audit.log")
    os.rename(room.path("a\rb"), room.path("old"))
    asks_and_hears(relay, refused("no such folder", path="a\\x0db/audit.log"), answer(0))
    relay.stops_with(totals(0, 0, 0, ("audit", 0, 0, 0, 0)))


# ---- Files without a name

@test
def archive_that_is_removed(room):
    relay, port = hub(room)
    send_all(port, messages(1))
    room.holds("audit.log", messages(1))
    os.unlink(room.path("audit.log"))
    send_all(port, messages(1, 1))
    relay.says(NAMELESS)
    asks(relay)
    relay.says(answer(1))
    relay.says(reopened())
    send_all(port, messages(2, 2))
    room.holds("audit.log", messages(2, 2))
    same("what it said", sorted(relay.lines()), sorted([NAMELESS, reopened(), answer(1)]))
    relay.stops_with(totals(4, 0, 0, ("audit", 4, 4, 0, 0)))


@test
def archive_that_is_renamed(room):
    relay, port = hub(room)
    os.rename(room.path("audit.log"), room.path("audit.old"))
    room.write("audit.log", b"other\n")
    # (nothing is said before lines are written)
    relay.rests(port)
    same("what it said", relay.lines(), [])
    send_all(port, messages(1))
    relay.says(NAMELESS)
    room.holds("audit.old", messages(1))
    asks(relay)
    relay.says(answer(1))
    relay.says(reopened())
    send_all(port, messages(1, 1))
    room.holds("audit.log", [b"other", *messages(1, 1)])
    same("what it said", sorted(relay.lines()), sorted([NAMELESS, reopened(), answer(1)]))
    relay.stops_with(totals(2, 0, 0, ("audit", 2, 2, 0, 0)))


@test
def archive_that_gets_its_name_back(room):
    relay, port = hub(room)
    os.rename(room.path("audit.log"), room.path("audit.old"))
    send_all(port, messages(1))
    relay.says(NAMELESS)
    os.rename(room.path("audit.old"), room.path("audit.log"))
    send_all(port, messages(1, 1))
    relay.says("syc: action audit writes to audit.log again")
    room.holds("audit.log", messages(2))
    relay.stops_with(totals(2, 0, 0, ("audit", 2, 2, 0, 0)))


@test
def archive_without_a_name_that_cannot_be_opened_anew(room):
    relay, port = hub(room)
    os.rename(room.path("audit.log"), room.path("audit.old"))
    send_all(port, messages(1))
    relay.says(NAMELESS)
    os.mkdir(room.path("audit.log"))
    asks(relay)
    relay.says(answer(0))
    relay.says(refused("is a directory"))
    os.rmdir(room.path("audit.log"))
    relay.says(reopened())
    send_all(port, messages(1, 1))
    room.holds("audit.log", messages(1, 1))
    relay.stops_with(totals(2, 0, 0, ("audit", 2, 2, 0, 0)))


@test
def files_that_are_none_keep_their_names(room):
    port = room.port()
    room.site({"hub": module() + imtcp(port) + omfile("null", "/dev/null") + omfile("audit", "audit.log", more=ANY)},
              f"entry hub {port}", "protect auth.* hub audit")
    pipe = Pipe(room)
    relay = room.start("hub", port)
    sender, end, texts = Sender(port), time.monotonic() + 3, []
    # (lines are written for so long that both are looked at more than twice)
    while time.monotonic() < end:
        texts.append(message(len(texts)))
        sender.send(texts[-1])
        pipe.has(texts)
    sender.end()
    count = len(texts)
    asks_and_hears(relay, answer(2))
    relay.stops_with(totals(count, 0, 0, ("null", count, count, 0, 0), ("audit", count, count, 0, 0)))
    same("what it said", relay.lines(), [answer(2)])


@test(limit=3600)
def what_lasts_is_told_each_minute(room):
    os.mkdir(room.path("logs"))
    port = room.port()
    room.site({"hub": module() + imtcp(port) + omfile("audit", "audit.log") + omfile("other", "logs/other.log")},
              f"entry hub {port}", "protect auth.* hub audit")
    relay = room.start("hub", port)
    os.rename(room.path("logs"), room.path("old"))
    asks(relay)
    relay.says(answer(1))
    os.unlink(room.path("audit.log"))
    send_all(port, messages(1))
    lasting = [NAMELESS, refused("no such folder", "other", "logs/other.log")]
    until("both are told twice", lambda: all(relay.lines().count(it) >= 2 for it in lasting), 180, relay.errors)
    same("what it said", sorted(relay.lines()), sorted([answer(1), *lasting, *lasting]))
    relay.stops_with(totals(1, 0, 0, ("audit", 1, 1, 0, 0), ("other", 1, 1, 0, 0)))


# ---- Files that can't be read

def unreadable(room, text):
    """A hub whose archive, which has this text, may be written and not read; answers it and its port."""
    room.write("audit.log", text)
    os.chmod(room.path("audit.log"), 0o222)
    return hub(room, limits=ruled_by_modes)


@test
def torn_archive_that_cannot_be_read(room):
    relay, port = unreadable(room, b"whole\ntorn")
    send_all(port, messages(2))
    room.holds("audit.log", [b"whole", b"torn", *messages(2)])
    relay.stops_with(totals(2, 0, 0, ("audit", 2, 2, 0, 0)))


@test
def whole_archive_that_cannot_be_read(room):
    # (whether it is whole isn't known)
    relay, port = unreadable(room, b"whole\n")
    send_all(port, messages(2))
    room.holds("audit.log", [b"whole", b"", *messages(2)])
    relay.stops_with(totals(2, 0, 0, ("audit", 2, 2, 0, 0)))


@test
def empty_archive_that_cannot_be_read(room):
    relay, port = unreadable(room, b"")
    asks_and_hears(relay, answer(1))
    send_all(port, messages(2))
    room.holds("audit.log", messages(2))
    relay.stops_with(totals(2, 0, 0, ("audit", 2, 2, 0, 0)))


@test
def unreadable_archive_that_is_opened_anew(room):
    relay, port = unreadable(room, b"")
    send_all(port, messages(1))
    room.holds("audit.log", messages(1))
    os.rename(room.path("audit.log"), room.path("audit.old"))
    room.write("audit.log", b"torn")
    os.chmod(room.path("audit.log"), 0o222)
    asks_and_hears(relay, answer(1))
    send_all(port, messages(1, 1))
    room.holds("audit.log", [b"torn", *messages(1, 1)])
    relay.stops_with(totals(2, 0, 0, ("audit", 2, 2, 0, 0)))

"""Archives that can't be written, or only in part, and what stands in them before."""

import os
import re
import resource
import signal
import subprocess
import threading
import time
from shutil import which

from peers import Pump, Sender, message, messages, send_all
from room import ANY, LeftOut, imtcp, is_listening, main_queue, module, omfile, omfwd, same, test, totals, until


@test
def full_archive(room):
    port = room.port()
    room.site({"hub": module() + imtcp(port) + omfile("full", "/dev/full", 0, 0) + omfile("tried", "/dev/full", 2, 0)
               + omfile("after", "after.log") + omfile("null", "/dev/null", 0)})
    relay = room.start_unchecked("hub", port)
    send_all(port, messages(15))
    room.holds("after.log", messages(15))
    relay.rests(port)
    relay.stops_with(totals(15, 0, 0, ("full", 15, 0, 15, 0), ("tried", 15, 0, 15, 0), ("after", 15, 15, 0, 0),
                            ("null", 15, 15, 0, 0)))


@test
def full_archive_with_endless_retries(room):
    port = room.port()
    room.site({"hub": module() + main_queue(size=100, dequeueBatchSize=4) + imtcp(port) + omfile("before", "before.log")
               + omfile("full", "/dev/full", -1, 0)})
    relay = room.start_unchecked("hub", port)
    send_all(port, messages(1))
    room.holds("before.log", messages(1))
    send_all(port, messages(7, 1))
    relay.stops_with(totals(8, 0, 8, ("before", 1, 1, 0, 0), ("full", 1, 0, 0, 1)))


@test
def archive_without_a_final_line_feed(room):
    room.write("audit.log", b"whole\ntorn")
    relay, port = room.hub()
    send_all(port, messages(2))
    room.has("audit.log", 4)
    same("the archive", room.lines("audit.log"), [b"whole", b"torn", *messages(2)])
    relay.stops_with(totals(2, 0, 0, ("audit", 2, 2, 0, 0)))


@test
def archive_torn_by_an_earlier_run(room):
    port = room.port()
    room.site({"hub": module() + imtcp(port) + omfile("audit", "audit.log", -1, 0)}, f"entry hub {port}", "protect auth.* hub audit")
    relay = room.start("hub", port, words=["site", "hub"], limits=limited(1003))
    send_all(port, messages(500))
    until("the archive is full", lambda: room.size("audit.log") == 1003, came=lambda: room.size("audit.log"))
    relay.kill()
    relay = room.start("hub", port)
    send_all(port, messages(2))
    whole = b"".join(it + b"\n" for it in messages(500))[:1003].split(b"\n")
    room.holds("audit.log", [*whole, *messages(2)])
    relay.stops_with(totals(2, 0, 0, ("audit", 2, 2, 0, 0)))


@test
def archive_that_ends_in_a_line_feed(room):
    room.write("audit.log", b"whole\n")
    relay, port = room.hub()
    send_all(port, messages(2))
    room.holds("audit.log", [b"whole", *messages(2)])
    relay.stops_with(totals(2, 0, 0, ("audit", 2, 2, 0, 0)))


@test
def one_archive_of_two_actions(room):
    port = room.port()
    room.site({"hub": module() + imtcp(port) + omfile("one", "audit.log", more=ANY) + omfile("two", "audit.log", more=ANY)},
              f"entry hub {port}", "protect auth.* hub one", "protect auth.* hub two")
    relay = room.start("hub", port)
    send_all(port, messages(50))
    room.has("audit.log", 100)
    relay.stops_with(totals(50, 0, 0, ("one", 50, 50, 0, 0), ("two", 50, 50, 0, 0)))
    same("the archive of two actions", sorted(room.lines("audit.log")), sorted(messages(50) * 2))


def limited(size):
    """Lets files of a relay grow to so many bytes; writes past that fail, and raise no signal."""
    def limits():
        signal.signal(signal.SIGXFSZ, signal.SIG_IGN)
        resource.setrlimit(resource.RLIMIT_FSIZE, (size, resource.RLIM_INFINITY))
    return limits


def lift(relay):
    resource.prlimit(relay.pid, resource.RLIMIT_FSIZE, (resource.RLIM_INFINITY, resource.RLIM_INFINITY))


@test
def archive_that_is_full_for_a_while(room):
    port = room.port()
    room.site({"hub": module() + imtcp(port) + omfile("audit", "audit.log", -1, 0)}, f"entry hub {port}", "protect auth.* hub audit")
    relay = room.start("hub", port, words=["site", "hub"], limits=limited(1003))
    send_all(port, messages(500))
    # (the limit cuts a line)
    until("the archive is full", lambda: room.size("audit.log") == 1003, came=lambda: room.size("audit.log"))
    lift(relay)
    room.holds("audit.log", messages(500))
    relay.stops_with(totals(500, 0, 0, ("audit", 500, 500, 0, 0)))


@test
def archive_that_is_full_without_retries(room):
    port, count, length = room.port(), 300, len(message(1000)) + 1
    room.site({"hub": module() + imtcp(port) + omfile("audit", "audit.log", 0) + omfile("after", "/dev/null", 0)
               + omfile("other", "other.log", 0)})
    # 20 lines and a part of the next one
    room.write("other.log", "")
    relay = room.start("hub", port, words=["--unchecked", "site", "hub"], limits=limited(20 * length + 5))
    send_all(port, messages(count, 1000))
    relay.rests(port)
    same("sizes", (room.size("audit.log"), room.size("other.log")), (20 * length + 5,) * 2)
    lift(relay)
    send_all(port, messages(10, 2000))
    room.has("other.log", 31)
    relay.stops_with(totals(310, 0, 0, ("audit", 310, 30, 280, 0), ("after", 310, 310, 0, 0), ("other", 310, 30, 280, 0)))
    # (what was torn gets a line feed before the next line)
    wanted = [*messages(20, 1000), message(1020)[:5], *messages(10, 2000)]
    same("audit.log", room.lines("audit.log"), wanted)
    same("other.log", room.lines("other.log"), wanted)


class Pipe:
    """An archive that is a FIFO. What comes is read, slowly where a pause is given, or not until `reads` is called."""

    def __init__(self, room, reads=True, pause=0.0):
        if not os.path.exists(room.path("audit.log")):
            os.mkfifo(room.path("audit.log"))
        # (its other end is kept too, so that it opens at once, and no end is read while nobody writes)
        self.ends, self.came, self.pause = os.open(room.path("audit.log"), os.O_RDWR), bytearray(), pause
        if reads:
            self.reads()

    def reads(self):
        threading.Thread(target=self.run, daemon=True).start()

    def run(self):
        while data := os.read(self.ends, 1000):
            self.came.extend(data)
            time.sleep(self.pause)

    def has(self, texts):
        """Waits until lines of these messages came, and compares them."""
        wanted = b"".join(it + b"\n" for it in texts)
        until("all comes through the pipe", lambda: len(self.came) >= len(wanted), came=lambda: len(self.came))
        same("what comes through the pipe", bytes(self.came), wanted)


@test
def archive_that_is_a_pipe(room):
    pipe = Pipe(room)
    relay, port = room.hub(kind=ANY)
    texts = messages(20_000, text="a" * 100)
    send_all(port, texts)
    pipe.has(texts)
    relay.stops_with(totals(20_000, 0, 0, ("audit", 20_000, 20_000, 0, 0)))


@test
def archive_that_is_a_pipe_with_a_slow_reader(room):
    pipe = Pipe(room, pause=0.002)
    relay, port = room.hub(main_queue(size=1000, fullDelayMark=900), kind=ANY)
    # (the pipe takes 64 KiB at once, and the queue half of what is sent: the sender waits for the reader)
    texts = messages(2000, text="a" * 500)
    send_all(port, texts)
    pipe.has(texts)
    relay.stops_with(totals(2000, 0, 0, ("audit", 2000, 2000, 0, 0)))


@test
def archive_that_is_a_pipe_whose_reader_comes_back(room):
    os.mkfifo(room.path("audit.log"))
    first = os.open(room.path("audit.log"), os.O_RDONLY | os.O_NONBLOCK)
    port = room.port()
    room.site({"hub": module() + imtcp(port) + omfile("audit", "audit.log", -1, 0, ANY)}, f"entry hub {port}", "protect auth.* hub audit")
    relay = room.start("hub", port)
    send_all(port, messages(5))
    came = bytearray()
    wanted = b"".join(it + b"\n" for it in messages(5))
    os.set_blocking(first, True)
    while len(came) < len(wanted):
        came.extend(os.read(first, 1000))
    same("what the first reader has", bytes(came), wanted)
    os.close(first)
    # (nobody reads it: a write fails, and is tried again)
    send_all(port, messages(5, 5))
    relay.says("syc: action audit fails: broken pipe")
    Pipe(room).has(messages(5, 5))
    relay.stops_with(totals(10, 0, 0, ("audit", 10, 10, 0, 0)))


@test
def archive_is_a_pipe_that_nobody_reads_at_a_stop(room):
    pipe = Pipe(room, reads=False)
    relay, port = room.hub(main_queue(size=1000, fullDelayMark=900), kind=ANY)
    texts = messages(1000, text="a" * 500)
    sender = Sender(port).send(*texts)
    relay.rests()
    relay.process.stdin.close()
    # (the write that waits for room in the pipe holds the stop: nothing is taken any more, and no total is printed)
    sender.is_ended()
    until("the port is free", lambda: not is_listening(port))
    relay.rests()
    same("what it has printed, and its status", (relay.output(), relay.process.poll()), ("", None))
    pipe.reads()
    same("status", relay.ends(), 0)
    found = re.fullmatch(r"taken (\d+) lost 0 held (\d+)\naudit due \d+ done (\d+) given-up 0 left \d+\n", relay.output())
    same("totals", bool(found) and int(found[1]) == int(found[2]) + int(found[3]), True)
    # (the line that was under way comes whole)
    pipe.has(texts[:int(found[3])])


@test
def archive_becomes_a_pipe_that_nobody_reads(room):
    relay, port = room.hub(kind=ANY)
    send_all(port, messages(1))
    room.holds("audit.log", messages(1))
    os.rename(room.path("audit.log"), room.path("audit.old"))
    os.mkfifo(room.path("audit.log"))
    relay.is_told(b"reopen\n", port)
    send_all(port, messages(2, 1))
    relay.rests(port)
    # (it is opened anew once somebody reads it, and the stop waits for that)
    relay.process.stdin.close()
    until("the port is free", lambda: not is_listening(port))
    relay.rests()
    same("what it has printed, and its status", (relay.output(), relay.process.poll()), ("", None))
    Pipe(room).has(messages(2, 1))
    same("status and totals", (relay.ends(), relay.output()), (0, totals(3, 0, 0, ("audit", 3, 3, 0, 0))))


@test
def archive_is_a_pipe_that_nobody_reads_before_a_stop(room):
    os.mkfifo(room.path("audit.log"))
    port = room.port()
    room.site({"hub": module() + imtcp(port) + omfile("audit", "audit.log", more=ANY)}, f"entry hub {port}", "protect auth.* hub audit")
    relay = room.start("hub")
    relay.process.stdin.close()
    relay.rests()
    same("what it has printed, and its status", (relay.output(), relay.process.poll()), ("", None))
    Pipe(room)
    same("status and totals", (relay.ends(), relay.output()), (0, totals(0, 0, 0, ("audit", 0, 0, 0, 0))))


@test
def archive_is_a_pipe_that_nobody_reads(room):
    os.mkfifo(room.path("audit.log"))
    port = room.port()
    room.site({"hub": module() + imtcp(port) + omfile("audit", "audit.log", more=ANY)}, f"entry hub {port}", "protect auth.* hub audit")
    relay = room.start("hub")
    relay.rests()
    same("listens before somebody reads the pipe", is_listening(port), False)
    with open(room.path("audit.log"), "rb") as pipe:
        relay.listens(port)
        send_all(port, messages(5))
        same("what comes through the pipe", [pipe.readline() for _ in range(5)], [it + b"\n" for it in messages(5)])
        relay.stops_with(totals(5, 0, 0, ("audit", 5, 5, 0, 0)))


def with_a_small_disk(room, start):
    """Mounts a disk of 64 KiB, of which 4 KiB are free, and starts a relay with files there; answers that, its port and the disk."""
    os.mkdir(room.path("disk"))
    mount = ["mount", "-t", "tmpfs", "-o", "size=64k", "tmpfs", room.path("disk")]
    if subprocess.run(mount, stdin=subprocess.DEVNULL, capture_output=True, check=False).returncode:
        raise LeftOut("mounting a small disk isn't allowed here")
    try:
        disk = f"/proc/{os.getpid()}/fd/{os.open(room.path('disk'), os.O_RDONLY)}"
        room.write("disk/other", b"x" * 61_440)
        return *start(), disk
    finally:
        # (it lasts as long as its files are open)
        subprocess.run(["umount", "-l", room.path("disk")], stdin=subprocess.DEVNULL, check=False)


@test
def archive_on_a_disk_that_is_full_for_a_while(room):
    def start():
        port = room.port()
        room.site({"hub": module() + imtcp(port) + omfile("audit", "disk/audit.log", -1, 0)}, f"entry hub {port}", "protect auth.* hub audit")
        return room.start("hub", port), port
    relay, port, disk = with_a_small_disk(room, start)
    send_all(port, messages(500))
    # (the disk cuts a line)
    until("the disk is full", lambda: os.stat(f"{disk}/audit.log").st_size == 4096, came=lambda: os.stat(f"{disk}/audit.log").st_size)
    os.unlink(f"{disk}/other")
    wanted = b"".join(it + b"\n" for it in messages(500))
    until("all is written", lambda: os.stat(f"{disk}/audit.log").st_size >= len(wanted))
    with open(f"{disk}/audit.log", "rb") as it:
        same("the archive", it.read(), wanted)
    relay.stops_with(totals(500, 0, 0, ("audit", 500, 500, 0, 0)))


@test
def archive_of_long_and_short_lines(room):
    relay, port = room.hub()
    texts = [message(it, "a" * (65_000 if it % 50 == 0 else it)) for it in range(500)]
    send_all(port, texts)
    room.holds("audit.log", texts)
    relay.stops_with(totals(500, 0, 0, ("audit", 500, 500, 0, 0)))


@test
def archive_is_appended_to(room):
    relay, port = room.hub()
    for turn in range(3):
        send_all(port, messages(100, turn * 100))
        room.holds("audit.log", messages(turn * 100 + 100))
        relay.stops_with(totals(100, 0, 0, ("audit", 100, 100, 0, 0)))
        relay = room.start("hub", port)
    relay.stops_with(totals(0, 0, 0, ("audit", 0, 0, 0, 0)))


@test
def archives_opened_anew(room):
    relay, port = room.hub()
    send_all(port, messages(2))
    room.holds("audit.log", messages(2))
    os.rename(room.path("audit.log"), room.path("audit.old"))
    # (other lines, and a line that is cut, ask nothing)
    relay.is_told(b"reopened\nreope\n reopen\nREOPEN\nreop", port)
    send_all(port, messages(1, 2))
    room.holds("audit.old", messages(3))
    relay.is_told(b"en\n", port)
    send_all(port, messages(2, 3))
    room.holds("audit.log", messages(2, 3))
    same("the old archive", room.lines("audit.old"), messages(3))
    relay.stops_with(totals(5, 0, 0, ("audit", 5, 5, 0, 0)))


@test
def archives_opened_anew_under_load(room):
    relay, port = room.hub()
    pump, names = Pump(port, 0, "a" * 50), []
    for turn in range(5):
        room.has("audit.log", 500)
        names.append(f"audit.{turn}")
        os.rename(room.path("audit.log"), room.path(names[-1]))
        relay.process.stdin.write(b"reopen\n")
        relay.process.stdin.flush()
    pump.finish()
    until("all is written", lambda: sum(map(room.count, [*names, "audit.log"])) >= pump.sent)
    relay.stops_with(totals(pump.sent, 0, 0, ("audit", pump.sent, pump.sent, 0, 0)))
    # (no line is torn between two files, and none stands in both)
    lines = [line for name in [*names, "audit.log"] for line in room.lines(name)]
    same("the lines of all files", lines == messages(pump.sent, text="a" * 50), True)


@test
def archive_opened_anew_while_a_line_is_torn(room):
    port = room.port()
    room.site({"hub": module() + imtcp(port) + omfile("audit", "audit.log", -1, 0)}, f"entry hub {port}", "protect auth.* hub audit")
    room.write("audit.log", b"x" * 9999 + b"\n")
    relay = room.start("hub", port, words=["site", "hub"], limits=limited(10_010))
    send_all(port, messages(3))
    until("the archive is full", lambda: room.size("audit.log") == 10_010, came=lambda: room.size("audit.log"))
    os.rename(room.path("audit.log"), room.path("audit.old"))
    relay.process.stdin.write(b"reopen\n")
    relay.process.stdin.flush()
    # (the new file has the line whole, and the old one keeps what it had)
    room.holds("audit.log", messages(3))
    same("the old file", room.read("audit.old")[10_000:], message(0)[:10])
    relay.stops_with(totals(3, 0, 0, ("audit", 3, 3, 0, 0)))


@test
def archive_has_the_mode_that_is_given(room):
    port = room.port()
    for more, mask, mode in (("", 0o022, 0o640), ("", 0o077, 0o600), (' fileCreateMode="0644"', 0o022, 0o644), (' FILECREATEMODE="0600"', 0o000, 0o600)):
        room.site({"hub": module() + imtcp(port) + omfile("audit", "audit.log", more=more)}, f"entry hub {port}", "protect auth.* hub audit")
        room.start("hub", port, words=["site", "hub"], limits=lambda: os.umask(mask)).stops_with(totals(0, 0, 0, ("audit", 0, 0, 0, 0)))
        same(f"mode by{more} and the umask {mask:o}", os.stat(room.path("audit.log")).st_mode & 0o777, mode)
        os.unlink(room.path("audit.log"))


@test
def archives_by_their_own_relays_files(room):
    entry, inner = room.port(), room.port()
    room.site({"edge": module() + imtcp(entry) + omfile("kept", "kept.log", more=' fileCreateMode="0644"') + omfwd("up", "hub", inner),
               "hub": module() + imtcp(inner) + omfile("first", "first.log") + omfile("audit", "audit.log", more=' fileCreateMode="0600"')},
              f"entry edge {entry}", "protect auth.* hub audit")
    room.start("hub", inner).stops_with(totals(0, 0, 0, ("first", 0, 0, 0, 0), ("audit", 0, 0, 0, 0)))
    room.start("edge", entry).stops_with(totals(0, 0, 0, ("kept", 0, 0, 0, 0), ("up", 0, 0, 0, 0)))
    modes = [os.stat(room.path(f"{it}.log")).st_mode & 0o777 for it in ("kept", "first", "audit")]
    same("modes", modes, [0o644, 0o640, 0o600])


@test
def archive_in_folders_that_are_made(room):
    port = room.port()
    file = "deep/deeper/audit.log"
    room.site({"hub": module() + imtcp(port) + omfile("audit", file, more=' createDirs="on" sync="on"')}, f"entry hub {port}", "protect auth.* hub audit")
    relay = room.start("hub", port)
    send_all(port, messages(2))
    room.holds(file, messages(2))
    relay.stops_with(totals(2, 0, 0, ("audit", 2, 2, 0, 0)))
    same("mode of a folder", os.stat(room.path("deep")).st_mode & 0o777, 0o700)


@test
def archive_that_becomes_a_pipe_isnt_followed(room):
    relay, port = room.hub()
    send_all(port, messages(1))
    room.holds("audit.log", messages(1))
    os.rename(room.path("audit.log"), room.path("audit.old"))
    os.mkfifo(room.path("audit.log"))
    relay.is_told(b"reopen\n", port)
    relay.says("syc: action audit can't reopen audit.log: it is no regular file; lines go on to the file that was renamed")
    send_all(port, messages(2, 1))
    room.holds("audit.old", messages(3))
    relay.stops_with(totals(3, 0, 0, ("audit", 3, 3, 0, 0)))


@test
def archive_whose_sync_fails_once(room):
    """What was written counts once the disk has it: the file is opened anew, and it is written again in a line of its own."""
    strace = which("strace")
    if strace is None:
        raise LeftOut("no strace")
    port = room.port()
    room.site({"hub": module() + imtcp(port) + omfile("audit", "audit.log", -1, 0, ' sync="on"')}, f"entry hub {port}", "protect auth.* hub audit")
    under = [strace, "-f", "-qq", "-o", room.path("calls"), "-e", "trace=fdatasync", "-e", "inject=fdatasync:error=EIO:when=2"]
    relay = room.start("hub", port, under=under)
    send_all(port, messages(1))
    room.holds("audit.log", messages(1))
    send_all(port, messages(1, 1))
    relay.says("syc: action audit fails: error 5")
    room.holds("audit.log", [*messages(2), *messages(1, 1)])
    relay.stops_with(totals(2, 0, 0, ("audit", 2, 2, 0, 0)))
    with open(room.path("calls"), encoding="ascii") as calls:
        same("syncs", len(re.findall(r"fdatasync\(", calls.read())), 3)


@test
def archive_that_cannot_be_opened_anew(room):
    relay, port = room.hub()
    send_all(port, messages(1))
    room.holds("audit.log", messages(1))
    os.rename(room.path("audit.log"), room.path("audit.old"))
    os.mkdir(room.path("audit.log"))
    relay.is_told(b"reopen\n", port)
    send_all(port, messages(2, 1))
    room.holds("audit.old", messages(3))
    os.rmdir(room.path("audit.log"))
    send_all(port, messages(2, 3))
    room.holds("audit.log", messages(2, 3))
    relay.stops_with(totals(5, 0, 0, ("audit", 5, 5, 0, 0)))

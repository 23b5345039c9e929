"""Archives whose lines have escapes, while writes fail or take a part alone, and files are opened anew: each line whole, and once."""

import os
import re
import signal
import subprocess

from archives import lift, with_a_small_disk
from escaping import ESCAPES, QUEUE, SYNC, gives_back, has_each, hub, line_of, lines_of, trimmed
from peers import Pump, Sender, message, messages, send_all
from room import imtcp, is_listening, module, omfile, same, test, totals, until
from rotation import answer, asks
from running import TOP
from writes import TO_FILES, answered, answering, grown, limit, needs_strace

# ---- Writes that fail, or take a part

def numbered(count, first=0):
    """Messages all of whose lines are of one length, with escapes, and with one line feed at the end of each other one."""
    return [message(it, "a\tb#0120\x7f" + "\n" * (it % 2)) for it in range(first, first + count)]


@test
def escaped_writes_that_fail_at_once(room):
    needs_strace(room)
    for error, when, failures in ("ENOSPC", 2, 1), ("ENOSPC", "2..4", 3), ("EIO", "1+2", 4):
        for name in "audit.log", "after.log":
            room.write(name, "")
        relay, port = hub(room, after=omfile("after", "after.log"), under=answering(room, TO_FILES, error, when, "audit.log"))
        for number in range(4):
            send_all(port, numbered(1, number))
            room.holds("after.log", numbered(number + 1))
        has_each(room, "audit.log", numbered(4))
        relay.stops_with(totals(4, 0, 0, ("audit", 4, 4, 0, 0), ("after", 4, 4, 0, 0)))
        same(f"writes that answered {error} ({when})", answered(room), failures)


@test
def escaped_writes_of_a_batch_that_fail(room):
    """Batches of several writes, each third of which fails."""
    needs_strace(room)
    texts = [message(it, "\n" * (it % 400)) for it in range(3000)]
    for error, more in ("ENOSPC", ""), ("EIO", SYNC):
        room.write("audit.log", "")
        relay, port = hub(room, ESCAPES + more, under=answering(room, TO_FILES, error, "1+3", "audit.log"))
        send_all(port, texts)
        has_each(room, "audit.log", texts)
        relay.stops_with(totals(3000, 0, 0, ("audit", 3000, 3000, 0, 0)))
        same("some writes failed", answered(room) > 2, True)


# (what stands in an archive whose growth is limited is more than the files of lines about it will ever have)
BEFORE = [message(it, "x" * 50_000, connection=9) for it in range(2)]
START = sum(len(it) + 1 for it in BEFORE)


def ignores_limits():
    signal.signal(signal.SIGXFSZ, signal.SIG_IGN)


def cut_hub(room, more=ESCAPES, retries=-1, **started):
    room.write("audit.log", b"".join(it + b"\n" for it in BEFORE))
    return hub(room, more, retries, limits=ignores_limits, **started)


def cut_at_each_byte(room, more):
    """Two messages at once, of which the archive takes a part alone first, by each byte of their lines."""
    relay, port = cut_hub(room, ESCAPES + more)
    line, size = len(line_of(numbered(1, 100)[0])) + 1, START
    turns = 2 * line
    for cut in range(turns):
        limit(relay, size + cut)
        send_all(port, numbered(2, 100 + 2 * cut))
        grown(room, size + cut)
        lift(relay)
        size += 2 * line
        grown(room, size)
    relay.stops_with(totals(2 * turns, 0, 0, ("audit", 2 * turns, 2 * turns, 0, 0)))
    has_each(room, "audit.log", [*BEFORE, *numbered(2 * turns, 100)])


@test
def escaped_lines_cut_at_each_byte(room):
    cut_at_each_byte(room, "")


@test
def escaped_lines_cut_at_each_byte_that_are_synced(room):
    cut_at_each_byte(room, SYNC)


def cut_at_many_places(room, more, **started):
    """A stream that the archive takes in parts, most of which end in a line; answers how often it was let grow."""
    texts = [message(it, "\n\t" * (it % 20)) for it in range(2000)]
    length = sum(len(it) + 1 for it in lines_of(texts))
    relay, port = cut_hub(room, ESCAPES + more, **started)
    limit(relay, START)
    sender = Sender(port).send(*texts)
    steps = range(1, length, 4099)
    for size in steps:
        limit(relay, START + size)
        grown(room, START + size)
    lift(relay)
    grown(room, START + length)
    sender.end()
    relay.stops_with(totals(2000, 0, 0, ("audit", 2000, 2000, 0, 0)))
    has_each(room, "audit.log", [*BEFORE, *texts])
    return len(steps)


@test
def escaped_batches_cut_at_many_places(room):
    for more in "", SYNC, QUEUE:
        cut_at_many_places(room, more)


@test
def escaped_batches_cut_and_failing(room):
    """What is left of a line may fail too, for another reason."""
    needs_strace(room)
    for error in "EIO", "ENOSPC":
        cut_at_many_places(room, "", under=answering(room, TO_FILES, error, "1+3", "audit.log"))
        same("some writes failed", answered(room) > 2, True)


@test
def escaped_lines_cut_without_retries(room):
    """A line that is begun is ended before any other is, though its message was given up."""
    relay, port = cut_hub(room, retries=0)
    line, size, wanted, done = len(line_of(numbered(1, 100)[0])) + 1, START, list(BEFORE), 0
    for cut in range(line + 1):
        first, second, third = numbered(3, 100 + 3 * cut)
        limit(relay, size + cut)
        send_all(port, [first, second])
        relay.rests(port)
        same("the archive's size", room.size("audit.log"), size + cut)
        lift(relay)
        send_all(port, [third])
        wanted += [first] * (cut > 0) + [third]
        done += 1 + (cut == line)
        size = sum(len(it) + 1 for it in lines_of(wanted))
        grown(room, size)
    count = 3 * (line + 1)
    relay.stops_with(totals(count, 0, 0, ("audit", count, done, count - done, 0)))
    has_each(room, "audit.log", wanted)


@test
def escaped_line_that_comes_again(room):
    """A message whose line is begun, and which is given up and sent again next: its line stands there once."""
    relay, port = cut_hub(room, retries=0)
    first, other = b"<34>1 - - - - - - again\n", b"<34>1 - - - - - - again\nand other"
    limit(relay, START + 5)
    send_all(port, [first])
    grown(room, START + 5)
    relay.rests(port)
    lift(relay)
    # (it has the same line without its line feed)
    send_all(port, [trimmed(first)])
    has_each(room, "audit.log", [*BEFORE, first])
    # (a line that begins so is another one)
    size = room.size("audit.log")
    limit(relay, size + len(line_of(first)))
    send_all(port, [first])
    grown(room, size + len(line_of(first)))
    relay.rests(port)
    lift(relay)
    send_all(port, [other, first])
    has_each(room, "audit.log", [*BEFORE, first, first, other, first])
    relay.stops_with(totals(5, 0, 0, ("audit", 5, 3, 2, 0)))


@test
def escaped_archive_on_a_disk_that_is_full_for_a_while(room):
    for more in "", SYNC:
        relay, port, disk = with_a_small_disk(room, lambda: hub(room, ESCAPES + more, file="disk/audit.log"))
        texts = numbered(500)
        sender = Sender(port).send(*texts)
        until("the disk is full", lambda: os.stat(f"{disk}/audit.log").st_size == 4096, came=lambda: os.stat(f"{disk}/audit.log").st_size)
        os.unlink(f"{disk}/other")
        wanted = b"".join(it + b"\n" for it in lines_of(texts))
        until("all is written", lambda: os.stat(f"{disk}/audit.log").st_size >= len(wanted))
        sender.end()
        with open(f"{disk}/audit.log", "rb") as it:
            same("the archive", it.read(), wanted)
        relay.stops_with(totals(500, 0, 0, ("audit", 500, 500, 0, 0)))
        os.rmdir(room.path("disk"))


@test
def escaped_archive_whose_sync_fails(room):
    """What was offered is written again to the file, which is opened anew: each line is whole, and stands there once or twice."""
    needs_strace(room)
    texts = numbered(3000)
    relay, port = hub(room, ESCAPES + SYNC, under=answering(room, "fdatasync", "EIO", "2+3"))
    send_all(port, texts)
    relay.stops_with(totals(3000, 0, 0, ("audit", 3000, 3000, 0, 0)))
    lines, wanted = room.lines("audit.log"), lines_of(texts)
    same("lines that are none of a message", set(lines) - set(wanted), set())
    same("the lines, each by its first time", list(dict.fromkeys(lines)) == wanted, True)
    same("lines were written again", (answered(room) > 0, len(lines) > len(wanted)), (True, True))


@test
def escaped_archive_torn_by_an_earlier_run(room):
    """What a relay that was killed left of a line is ended by the next start, and is the line of no message."""
    relay, port = cut_hub(room)
    limit(relay, START + 10)
    sender = Sender(port).send(*numbered(2))
    grown(room, START + 10)
    relay.kill()
    sender.close()
    relay = room.start("hub", port, words=["--unchecked", "site", "hub"])
    send_all(port, numbered(2, 2))
    room.holds("audit.log", [*BEFORE, line_of(numbered(1)[0])[:10], *lines_of(numbered(2, 2))])
    gives_back(room, "audit.log", [*BEFORE, *numbered(2, 2)], left=[3])
    relay.stops_with(totals(2, 0, 0, ("audit", 2, 2, 0, 0)))


# ---- Archives that are opened anew

@test
def escaped_archive_that_is_rotated_under_load(room):
    for more in "", SYNC:
        relay, port = hub(room, ESCAPES + more)
        pump, names = Pump(port, 0, "a\tb\n#012\n"), []
        for turn in range(4):
            room.has("audit.log", 300)
            names.append(f"audit.{turn}")
            os.rename(room.path("audit.log"), room.path(names[-1]))
            asks(relay)
            relay.says(answer(1), turn + 1)
        pump.finish()
        until("all is written", lambda: sum(map(room.count, [*names, "audit.log"])) >= pump.sent)
        relay.stops_with(totals(pump.sent, 0, 0, ("audit", pump.sent, pump.sent, 0, 0)))
        lines = [line for name in [*names, "audit.log"] for line in room.lines(name)]
        same("the lines of all files", lines == lines_of(messages(pump.sent, text="a\tb\n#012\n")), True)
        for it in [*names, "audit.log"]:
            os.unlink(room.path(it))


@test
def escaped_archive_that_is_rotated_by_signals(room):
    """The same by HUP, which packaging/syc-run has the relay understand."""
    port = room.port()
    room.site({"hub": module() + imtcp(port) + omfile("audit", "audit.log", more=ESCAPES)}, f"entry hub {port}", "protect auth.* hub audit")
    with open(room.path("hub.stdout"), "wb") as out, open(room.path("hub.stderr"), "wb") as err:
        process = subprocess.Popen([f"{TOP}/packaging/syc-run", "site", "hub"], cwd=room.folder, env=os.environ | {"SYC": room.program},
                                   stdin=subprocess.DEVNULL, stdout=out, stderr=err)
    until("it listens", lambda: is_listening(port) or process.poll() is not None)
    pump, names = Pump(port, 0, "\x1b#001\n"), []
    for turn in range(3):
        room.has("audit.log", 300)
        names.append(f"audit.{turn}")
        os.rename(room.path("audit.log"), room.path(names[-1]))
        process.send_signal(signal.SIGHUP)
        until("it is opened anew", lambda: room.read("hub.stderr").decode().splitlines().count(answer(1)) > turn)
    pump.finish()
    count = pump.sent
    until("all is written", lambda: sum(map(room.count, [*names, "audit.log"])) >= count)
    process.send_signal(signal.SIGTERM)
    until("it ends", lambda: process.poll() is not None)
    same("status and totals", (process.returncode, room.read("hub.stdout").decode()), (0, totals(count, 0, 0, ("audit", count, count, 0, 0))))
    lines = [line for name in [*names, "audit.log"] for line in room.lines(name)]
    same("the lines of all files", lines == lines_of(messages(count, text="\x1b#001\n")), True)


@test
def escaped_archive_opened_anew_while_a_line_is_torn(room):
    relay, port = cut_hub(room)
    limit(relay, START + 10)
    sender = Sender(port).send(*numbered(3))
    grown(room, START + 10)
    os.rename(room.path("audit.log"), room.path("audit.old"))
    asks(relay)
    # (the new file has the line whole, and the old one keeps what it had)
    has_each(room, "audit.log", numbered(3))
    same("the old file", room.read("audit.old")[START:], line_of(numbered(1)[0])[:10])
    sender.end()
    relay.stops_with(totals(3, 0, 0, ("audit", 3, 3, 0, 0)))


@test
def escaped_archive_opened_anew_where_it_is_while_a_line_is_torn(room):
    """No file was renamed, as where another archive is rotated: the line goes on."""
    relay, port = cut_hub(room)
    limit(relay, START + 10)
    sender = Sender(port).send(*numbered(3))
    grown(room, START + 10)
    asks(relay)
    until("it has answered", lambda: any(it.startswith("syc: reopened ") for it in relay.lines()), came=relay.errors)
    lift(relay)
    has_each(room, "audit.log", [*BEFORE, *numbered(3)])
    sender.end()
    relay.stops_with(totals(3, 0, 0, ("audit", 3, 3, 0, 0)))


@test
def escaped_archive_whose_sync_fails_while_a_line_is_torn(room):
    """Nothing is synced where no line is out. What was offered is written again, and no line is a part of one."""
    needs_strace(room)
    relay, port = cut_hub(room, ESCAPES + SYNC, under=answering(room, "fdatasync", "EIO", 1))
    limit(relay, START + 10)
    sender = Sender(port).send(*numbered(3))
    grown(room, START + 10)
    lift(relay)
    until("a sync fails", lambda: answered(room) == 1)
    sender.end()
    relay.stops_with(totals(3, 0, 0, ("audit", 3, 3, 0, 0)))
    lines, wanted = room.lines("audit.log"), [*BEFORE, *lines_of(numbered(3))]
    same("lines that are none of a message", sorted(set(lines) - set(wanted)), [])
    same("the lines, each by its first time", list(dict.fromkeys(lines)) == wanted, True)

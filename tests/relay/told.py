"""What a relay tells as it runs: lines about actions, inputs and queues at each change, and the peers of connections that end with a fault."""

import os
import re
import time

from archives import lift, limited
from control import asked
from failing import hub as failing_hub
from marks import INFO, held, stuck
from peers import Receiver, Sender, frame, message, messages, send_all
from room import FAULT, Failure, imtcp, main_queue, module, omfile, omfwd, same, test, totals, until
from writes import TO_FILES, answering, needs_strace

SECONDS = r"\d+ s"


def told(relay):
    """The lines on standard error that aren't faults."""
    return [it for it in relay.lines() if not FAULT.fullmatch(it)]


def tells(relay, *wanted):
    """Waits until these lines were told, each given by a regular expression, in this order, and no others."""
    def lines():
        return told(relay)

    until(f"{relay.name} tells {len(wanted)} lines", lambda: len(lines()) >= len(wanted), came=lines)
    for it, line in zip(wanted, lines()):
        if not re.fullmatch(it, line):
            raise Failure(f"wanted a line {it!r}, came {lines()}")
    same("how many lines are told", len(lines()), len(wanted))


def turns(relay):
    """How often the relay's threads have waited so far."""
    return sum(int(it[3]) for it in relay.threads().values())


def fails(name, reason):
    return re.escape(f"syc: action {name} fails: {reason}")


def works(name):
    return rf"syc: action {name} works after {SECONDS}"


@test
def receiver_that_is_down_and_comes_up(room):
    relay, port, inner = stuck(room, "off", interval=0)
    tells(relay, fails("up", "connection refused"))
    # (each try waits once)
    before = turns(relay)
    until("fifty tries", lambda: turns(relay) > before + 50)
    tells(relay, fails("up", "connection refused"))
    receiver = Receiver(inner)
    receiver.has([message("first")])
    tells(relay, fails("up", "connection refused"), works("up"))
    relay.stops_with(totals(1, 0, 0, ("first", 1, 1, 0, 0), ("up", 1, 1, 0, 0)))


@test
def archive_that_fails_for_a_while(room):
    port = room.port()
    room.site({"hub": module() + imtcp(port) + omfile("audit", "audit.log", -1, 0)}, f"entry hub {port}", "protect auth.* hub audit")
    relay = room.start("hub", port, words=["site", "hub"], limits=limited(1003))
    send_all(port, messages(500))
    tells(relay, fails("audit", "file too large"))
    lift(relay)
    room.holds("audit.log", messages(500))
    tells(relay, fails("audit", "file too large"), works("audit"))
    relay.stops_with(totals(500, 0, 0, ("audit", 500, 500, 0, 0)))


@test
def archive_on_a_full_disk(room):
    port = room.port()
    room.site({"hub": module() + imtcp(port) + omfile("full", "/dev/full", -1, 0)})
    relay = room.start_unchecked("hub", port)
    send_all(port, messages(1))
    tells(relay, fails("full", "no storage space"))
    relay.stops_with(totals(1, 0, 1, ("full", 1, 0, 0, 1)))
    tells(relay, fails("full", "no storage space"))


@test
def input_held_by_its_mark(room):
    relay, port, inner = stuck(room, "full", interval=0, fullDelayMark=5, timeoutEnqueue=0)
    sender = Sender(port).send(*messages(20))
    begins = [fails("up", "connection refused"), f"syc: input {port} held: full-delay mark"]
    tells(relay, *begins)
    Receiver(inner).has([message("first"), *messages(20)])
    sender.end()
    until("both are over", lambda: len(told(relay)) == 4, came=lambda: told(relay))
    same("the lines before", [bool(re.fullmatch(*it)) for it in zip(begins, told(relay))], [True, True])
    for it in works("up"), rf"syc: input {port} goes on after {SECONDS}":
        same(f"lines {it!r}", len([line for line in told(relay) if re.fullmatch(it, line)]), 1)
    relay.stops_with(totals(21, 0, 0, ("first", 21, 21, 0, 0), ("up", 21, 21, 0, 0)))


@test
def held_input_at_the_end(room):
    relay, port, _ = stuck(room, "full", fullDelayMark=5, timeoutEnqueue=0)
    sender = Sender(port).send(*messages(20))
    wanted = fails("up", "connection refused"), f"syc: input {port} held: full-delay mark"
    tells(relay, *wanted)
    relay.rests(port)
    relay.stops_with(totals(7, 0, 7, *held()))
    sender.is_ended()
    # (it doesn't go on, and no link is waited for)
    tells(relay, *wanted, f"syc: input {port} not taken at the stop: 14 frames, and a part of one from 0 connections")


@test
def input_that_loses(room):
    relay, port, _ = stuck(room, "off", discardMark=5, discardSeverity=4)
    send_all(port, messages(8, pri=INFO))
    tells(relay, fails("up", "connection refused"), f"syc: input {port} loses", rf"syc: input {port} lost 3 in {SECONDS}")
    relay.stops_with(totals(9, 3, 6, *held()))


@test
def input_at_a_full_queue(room):
    relay, port, _ = stuck(room, "off", size=4, timeoutEnqueue=700)
    send_all(port, messages(6))
    tells(relay, fails("up", "connection refused"), f"syc: input {port} held: full queue", f"syc: input {port} loses",
          rf"syc: input {port} goes on after {SECONDS}", rf"syc: input {port} lost 2 in {SECONDS}")
    relay.stops_with(totals(7, 2, 5, *held()))


@test
def post_that_loses(room):
    port, inner = room.port(), room.port()
    queue = ' queue.type="LinkedList" queue.size="2" queue.dequeueBatchSize="1" queue.timeoutEnqueue="0"'
    room.site({"edge": module() + imtcp(port) + omfile("first", "first.log") + omfwd("up", "hub", inner, more=queue)
               + omfile("last", "last.log"), "hub": module() + imtcp(inner) + omfile("audit", "audit.log")})
    relay = room.start_unchecked("edge", port)
    send_all(port, [message("first")])
    fail = fails("up", "connection refused")
    tells(relay, fail)
    send_all(port, messages(6))
    room.has("last.log", 7)
    tells(relay, fail, "syc: queue of up loses", rf"syc: queue of up lost 4 in {SECONDS}")
    # (one in the worker, two in the queue)
    relay.stops_with(totals(7, 4, 3, ("first", 7, 7, 0, 0), ("up", 1, 0, 0, 1), ("last", 7, 7, 0, 0)))


@test
def entries_lost_as_they_leave_a_queue(room):
    relay, port, inner = stuck(room, "off", interval=0, discardMark=3, discardSeverity=4)
    send_all(port, messages(3, pri=INFO) + messages(3, 3))
    receiver = Receiver(inner)
    receiver.has([message("first"), *messages(3, 3)])
    until("its losses are over", lambda: any("main queue lost" in it for it in told(relay)), came=lambda: told(relay))
    lines = [it for it in told(relay) if "main queue" in it]
    same("lines of the queue", (len(lines), lines[0], bool(re.fullmatch(rf"syc: main queue lost 3 in {SECONDS}", lines[-1]))),
         (2, "syc: main queue loses", True))
    relay.stop()


# ---- What is over within a second of the line before, as the relay ends

@test
def failure_that_is_over_just_before_the_end(room):
    needs_strace(room)
    room.write("audit.log", "")
    relay, port = failing_hub(room, "", under=answering(room, TO_FILES, "EIO", "1+2", "audit.log"))
    both = fails("audit", "error 5"), works("audit")
    send_all(port, messages(1))
    tells(relay, *both)
    send_all(port, messages(1, 1))
    room.holds("audit.log", messages(2))
    relay.stop()
    tells(relay, *both, *both)


@test
def input_that_was_held_and_lost_just_before_the_end(room):
    relay, port, _ = stuck(room, "off", size=4, timeoutEnqueue=20)
    send_all(port, messages(6))
    held_up, loses, lost = f"syc: input {port} held: full queue", f"syc: input {port} loses", rf"syc: input {port} lost 2 in {SECONDS}"
    goes_on, fail = rf"syc: input {port} goes on after {SECONDS}", fails("up", "connection refused")
    tells(relay, fail, held_up, loses, goes_on, lost)
    send_all(port, messages(2))
    relay.stop()
    # (that it loses is told where a second has passed in between)
    last = [it for it in told(relay)[5:] if it != loses]
    same("the last lines", [bool(re.fullmatch(*it)) for it in zip([held_up, goes_on, lost], last)], [True] * 3)
    same("how many these are", len(last), 3)


def at(sender):
    return "{}:{}".format(*sender.socket.getsockname())


def sends(port, sender, first):
    """The line of a connection that begins to send what is no message, where that is dropped."""
    return f"syc: input {port} peer {at(sender)} sends what is no message: {first}; dropped"


@test
def peers_of_faults(room):
    relay, port = room.hub()
    first = Sender(port).send_bytes(b"x")
    first.is_ended()
    tells(relay, f"syc: input {port} peer {at(first)}: 11 BadLength")
    second = Sender(port).send(message(0), b"<192>1 - - - - - -", b"34>")
    second.half_close().is_ended()
    unread = f"syc: input {port} peer {at(second)}: ended, 2 unread, the first 1 Pri at 1 in frame 2"
    tells(relay, f"syc: input {port} peer {at(first)}: 11 BadLength", sends(port, second, "1 Pri at 1 in frame 2"), unread)
    third = Sender(port).send_bytes(frame(b"34>") + b"18 <34>1 - - - - - -")
    third.half_close().is_ended()
    same("totals", relay.stop_at_rest(), totals(1, 0, 0, ("audit", 1, 1, 0, 0), unread=3))
    # (each kind once a second at most, so in any order)
    same("the last lines", sorted(told(relay)[3:]), sorted([sends(port, third, "1 Pri at 0 in frame 1"),
         f"syc: input {port} peer {at(third)}: 13 Truncated, 1 unread, the first 1 Pri at 0 in frame 1"]))


@test
def many_faults_at_once(room):
    relay, port = room.hub()
    begun = time.monotonic()
    for _ in range(60):
        Sender(port).send_bytes(b"x").is_ended()
    relay.stop()
    same("faults", relay.faults(), [f"syc: 11 BadLength at {port}"] * 60)
    took = time.monotonic() - begun
    lines = told(relay)
    if len(lines) > took + 2:
        raise Failure(f"{len(lines)} lines about an input in {took:.1f} s")
    counts = [re.fullmatch(rf"syc: input {port} peer 127\.0\.0\.1:\d+: 11 BadLength(?:, and (\d+) others)?", it) for it in lines]
    if None in counts:
        raise Failure(f"other lines: {lines}")
    same("the connections that were told", sum(1 + int(it.group(1) or 0) for it in counts), 60)


@test
def nothing_changes(room):
    relay, port = room.hub()
    for number in range(20):
        send_all(port, messages(50, 50 * number))
    room.holds("audit.log", messages(1000))
    relay.stops_with(totals(1000, 0, 0, ("audit", 1000, 1000, 0, 0)))
    same("standard error", relay.lines(), [])


def full_pipe():
    """The two ends of a pipe that has no room left."""
    outer, inner = os.pipe()
    os.set_blocking(inner, False)
    try:
        while True:
            os.write(inner, b"x" * 4096)
    except BlockingIOError:
        os.set_blocking(inner, True)
    return outer, inner


@test
def standard_error_that_nobody_reads(room):
    entry, inner = room.port(), room.port()
    room.site({"edge": module() + main_queue(size=100, dequeueBatchSize=1, fullDelayMark=50) + imtcp(entry) + omfwd("up", "hub", inner, -1, 0),
               "hub": module() + imtcp(inner) + omfile("audit", "audit.log")}, f"entry edge {entry}", "protect auth.* hub audit")
    outer, full = full_pipe()
    edge = room.start("edge", entry, words=["site", "edge"], limits=lambda: os.dup2(full, 2))
    sender = Sender(entry).send(*messages(500))
    before = turns(edge)
    until("fifty tries", lambda: turns(edge) > before + 50)
    hub = room.start("hub", inner)
    room.holds("audit.log", messages(500))
    sender.end()
    edge.stops_with(totals(500, 0, 0, ("up", 500, 500, 0, 0)))
    hub.stops_with(totals(500, 0, 0, ("audit", 500, 500, 0, 0)))
    for it in outer, full:
        os.close(it)


@test
def names_of_actions_are_no_lines_of_their_own(room):
    port = room.port()
    named = "audit\\n" + "taken 9 lost 9 held 9" + "\\n\x1b[2K\x7fother"
    printed = "audit\\x0ataken 9 lost 9 held 9\\x0a\\x1b[2K\\x7fother"
    room.site({"hub": module() + imtcp(port) + omfile("audit", "audit.log") + omfile(named, "/dev/full", 1, 0)})
    relay = room.start_unchecked("hub", port)
    send_all(port, messages(1))
    room.holds("audit.log", messages(1))
    relay.rests(port)
    relay.says(f"syc: action {printed} fails: no storage space")
    wanted = totals(1, 0, 0, ("audit", 1, 1, 0, 0), (printed, 1, 0, 1, 0))
    same("the totals", asked(relay, 1, 3), [wanted])
    relay.stops_with(wanted)
    same("control characters on standard error", [it for it in relay.errors() if it < " " and it != "\n" or it == "\x7f"], [])

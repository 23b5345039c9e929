"""Many connections at once: hundreds and thousands, more than an input serves, and more than a relay has descriptors for."""

import itertools
import re
import resource
import threading
import time

from crowd import allow, arrived, connected, document, has_open, held_now, open_now, said, taken, waiting
from left import told
from marks import stuck
from peers import Sender, frame, message, messages, send_all
from resources import left, left_at_first, settles
from room import Failure, LeftOut, imtcp, module, omfile, same, test, totals, until

MOST = 10_000  # connections that an input serves at once
TEXT = "a" * 40


# ---- all at once

def served_at_once(room, count, each):
    """So many connections, all of which are open while each sends in its turn."""
    allow(count)
    relay, port = room.hub()
    senders = connected(relay, port, count)
    lists = [messages(each, connection=it, text=TEXT[:it % 40]) for it in range(count)]
    for number in range(each):
        for sender, texts in zip(senders, lists):
            sender.send(texts[number])
    room.has("audit.log", count * each)
    has_open(relay, count)
    for it in senders:
        it.end()
    relay.stops_with(taken(count * each))
    same("what is told", said(relay), [])
    arrived(room, "audit.log", lists)


@test
def hundred_at_once(room):
    """A hundred connections are served at once: all of their messages are written, and none is refused."""
    served_at_once(room, 100, 200)


@test
def thousand_at_once(room):
    """The same of a thousand."""
    served_at_once(room, 1_000, 20)


# ---- idle connections

IDLE = 4  # KiB that an idle connection takes at most


def takes_little(relay, before, connections, when):
    """Whether so many idle connections take little memory and few threads, beside what it had before; answers how much for each."""
    memory, threads = (relay.status_field(it) - was for it, was in zip(("VmRSS", "Threads"), before))
    if memory >= IDLE * connections or threads >= 64:
        raise Failure(f"{connections} connections {when}: {memory} KiB more are resident, and there are {threads} threads more")
    return f"{memory / connections:.2f} KiB for each of {connections} connections {when}, and {threads} threads more"


@test(limit=3600)
def idle_connections_beside_one_that_sends(room):
    """Thousands of idle connections hold nobody up, and take little memory and no threads, whether they have sent before or not."""
    count = MOST - 10
    try:
        allow(MOST)
    except LeftOut:
        count = 2_000
        allow(count)
    relay, port = room.hub()
    honest = Sender(port).send(*messages(1_000))
    room.holds("audit.log", messages(1_000))
    relay.rests(port)
    before = relay.status_field("VmRSS"), relay.status_field("Threads")
    senders = connected(relay, port, count)
    relay.rests(port)
    measured = [takes_little(relay, before, count, "that have sent nothing")]
    honest.send(*messages(1_000, 1_000))
    room.holds("audit.log", messages(2_000))
    for it in senders:
        it.send(message(0, connection=1))
    room.has("audit.log", 2_000 + count)
    relay.rests(port)
    measured.append(takes_little(relay, before, count, "that have sent"))
    honest.send(*messages(1_000, 2_000)).end()
    room.has("audit.log", 3_000 + count)
    relay.stops_with(taken(3_000 + count))
    same("what is told", said(relay), [])
    arrived(room, "audit.log", [messages(3_000), [message(0, connection=1)] * count])
    # (the host keeps nothing of those)
    for it in senders:
        it.reset()
    return "; ".join(measured)


# ---- more than may be

def more_wait(port):
    return f"syc: as many connections are open as may be at {port}"


def again(port):
    return f"syc: connections are accepted again at {port}"


def in_turn(relay, first, second):
    """How often each of two lines was told, which are told in turn; nothing else is told."""
    lines = said(relay)
    same("what is told", lines, list(itertools.islice(itertools.cycle([first, second]), len(lines))))
    return lines.count(first), lines.count(second)


def rarely(relay, port, begun):
    """Whether it is told that more wait, and that they are accepted again: the first once in ten seconds at most since then."""
    often, _ = in_turn(relay, more_wait(port), again(port))
    if not 1 <= often <= 1 + (time.monotonic() - begun) / 10:
        raise Failure(f"it was told {often} times within {time.monotonic() - begun:.1f} s")


@test(limit=3600)
def more_connections_than_may_be(room):
    """Beyond 10,000 connections others wait with the host, which is told once; each is served once one of these has ended."""
    allow(MOST + 10)
    relay, port = room.hub()
    senders = connected(relay, port, MOST)
    later = [Sender(port).send(message(0, connection=it)) for it in range(5)]
    begun = time.monotonic()
    relay.says(more_wait(port))
    until("five wait", lambda: waiting(port) == 5, came=lambda: waiting(port))
    for it in senders[-3:]:
        it.send(message(0, connection=5))
    room.holds("audit.log", [message(0, connection=5)] * 3)
    same("connections that are open, and wait", (open_now(relay), waiting(port)), (MOST, 5))
    for number in range(3):
        senders.pop().end()
        until("one that waited is served", lambda: message(0, connection=number) in room.lines("audit.log"))
        same("connections that are open, and wait", (open_now(relay), waiting(port)), (MOST, 4 - number))
    relay.says(again(port))
    rarely(relay, port, begun)
    # (at a stop those that wait still are closed by the host; while they wait it doesn't rest)
    same("totals", relay.stop(), taken(6))
    for it in senders + later:
        it.reset()


# ---- more than there are descriptors for

LITTLE, MANY = 64, 200


def failed(port):
    return f"syc: accept failed at {port}"


def told_in_turn(relay, port):
    """How often it was told that accepting fails, and that it goes on, which are told in turn; nothing else is told."""
    return in_turn(relay, failed(port), again(port))


def brief(port, connection, failures):
    """Sends a message over a connection of its own, which it closes at once."""
    try:
        Sender(port).send(message(0, connection=connection)).close()
    except OSError as failure:
        failures.append(str(failure))


@test
def more_senders_than_descriptors(room):
    """200 senders that each send a message and close, to a relay that may have 64 descriptors: all of it arrives."""
    port, failures = room.port(), []
    room.site({"hub": module() + imtcp(port) + omfile("audit", "audit.log")}, f"entry hub {port}", "protect auth.* hub audit")
    limits = lambda: resource.setrlimit(resource.RLIMIT_NOFILE, (LITTLE, LITTLE))  # noqa: E731
    relay = room.start("hub", port, words=["site", "hub"], limits=limits)
    # (so many that some of them have to wait, while they stay)
    staying = [Sender(port).send(message(0, connection=it)) for it in range(LITTLE)]
    relay.says(failed(port))
    threads = [threading.Thread(target=brief, args=(port, it, failures), daemon=True) for it in range(LITTLE, MANY)]
    for it in threads:
        it.start()
    until("connections wait", lambda: waiting(port) > LITTLE, came=lambda: waiting(port))
    if room.count("audit.log") >= LITTLE:
        raise Failure(f"{room.count('audit.log')} connections are served by {LITTLE} descriptors")
    for it in staying:
        it.end()
    for it in threads:
        it.join()
    same("senders that failed", failures, [])
    room.has("audit.log", MANY)
    # (one more, so that it is told of the last that waited)
    send_all(port, [message(0, connection=MANY)])
    room.has("audit.log", MANY + 1)
    until("it is told that they are accepted again", lambda: len(set(told_in_turn(relay, port))) == 1, came=lambda: said(relay))
    relay.stops_with(taken(MANY + 1))
    arrived(room, "audit.log", [[message(0, connection=it)] for it in range(MANY + 1)])


@test
def descriptors_that_run_out_again_and_again(room):
    """Each time that descriptors run out is told once, and once that connections are accepted again."""
    relay, port = room.hub()
    descriptors, count = left_at_first(room, relay, port)[0], 1
    hard = resource.getrlimit(resource.RLIMIT_NOFILE)[1]
    for turn in range(2):
        resource.prlimit(relay.pid, resource.RLIMIT_NOFILE, (descriptors + 8, hard))
        senders = [Sender(port).send(message(turn, connection=it)) for it in range(9)]
        # (the second time once some seconds have passed since the first)
        until("it is told", lambda: told_in_turn(relay, port) == (turn + 1, turn), came=lambda: said(relay))
        for it in senders:
            it.end()
        count += 9
        room.has("audit.log", count)
        resource.prlimit(relay.pid, resource.RLIMIT_NOFILE, (hard, hard))
        send_all(port, [message(turn, connection=9)])
        count += 1
        room.has("audit.log", count)
        until("it goes on", lambda: told_in_turn(relay, port) == (turn + 1, turn + 1), came=lambda: said(relay))
    relay.stops_with(taken(count))
    same("how often it was told", told_in_turn(relay, port), (2, 2))


# ---- what they leave

def come_and_go(port, first, count):
    """So many connections by eight threads, each of which sends two messages; the numbers of the connections begin there."""
    failures = []

    def run(numbers):
        try:
            for it in numbers:
                sender = Sender(port).send(*messages(2, connection=it))
                # (of each two one waits until it was read, and one doesn't)
                sender.end() if it % 2 else sender.close()
        except (OSError, Failure) as failure:
            failures.append(str(failure))

    threads = [threading.Thread(target=run, args=(range(first + it, first + count, 8),), daemon=True) for it in range(8)]
    for it in threads:
        it.start()
    for it in threads:
        it.join()
    same("senders that failed", failures, [])


ROUND, TURNS = 512, 8  # KiB that the connections of a turn may leave, and how many turns there are at most


@test(limit=3600)
def thousands_that_come_and_go(room):
    """Connections that are opened, used and closed by thousands leave no descriptor, no thread and no memory."""
    relay, port = room.hub()
    before, each, turns, grown = left_at_first(room, relay, port), 2_000, 0, ROUND + 1
    # (the first of them fill what each reader keeps for later ones; what connections leave behind, those of each turn do)
    while turns < 2 or grown > ROUND and turns < TURNS:
        memory = relay.status_field("VmRSS")
        come_and_go(port, 1 + turns * each, each)
        turns += 1
        room.has("audit.log", 1 + turns * each * 2)
        settles(relay, before)
        relay.rests(port)
        grown = relay.status_field("VmRSS") - memory
    if grown > ROUND:
        raise Failure(f"{each} more connections left {grown} KiB more resident, after {memory}, also in turn {turns}")
    relay.stops_with(taken(1 + 2 * turns * each))
    same("what is told", said(relay), [])
    arrived(room, "audit.log", [[message("first")], *(messages(2, connection=it) for it in range(1, 1 + turns * each))])
    return f"{each} more connections left {grown} KiB more resident"


# ---- a stop

STOPPING = 40 * 1024  # KiB that a relay has at most as it stops with a thousand connections


@test
def stop_with_a_thousand_connections(room):
    """A stop with a thousand connections open, half of them within a frame, ends soon: what was taken is written, the rest told."""
    allow(1_000)
    relay, port = room.hub()
    senders = connected(relay, port, 1_000)
    for connection, sender in enumerate(senders):
        text = frame(message(0, connection=connection))
        sender.send_bytes(text + text[:1 + connection % (len(text) - 1)] if connection % 2 else text)
    room.has("audit.log", 1_000)
    relay.rests(port)
    begun = time.monotonic()
    relay.process.stdin.close()
    same("status", relay.ends(), 0)
    took = time.monotonic() - begun
    same("totals", relay.output(), taken(1_000))
    same("what is told at the stop", told(relay, port), (0, 500, 0, 0))
    same("how many lines are told", len(said(relay)), 1)
    room.ports_are_free(port)
    for it in senders:
        it.is_ended()
        it.reset()
    arrived(room, "audit.log", [[message(0, connection=it)] for it in range(1_000)])
    return f"it ended within {took:.2f} s"


@test
def memory_of_a_stop_with_a_thousand_connections(room):
    """A stop takes little memory for each connection that is open, whether it is idle or within a frame."""
    allow(1_000)
    relay, port = room.hub()
    senders = connected(relay, port, 1_000)
    for it in senders[::2]:
        it.send_bytes(frame(message(0)) + b"100 <34>1 - - - - - - ")
    room.has("audit.log", 500)
    relay.rests(port)
    memory = relay.status_field("VmHWM")
    relay.stops_with(taken(500))
    # (the most that a process of this test had: that of the relay, or of what it was started by)
    most = resource.getrusage(resource.RUSAGE_CHILDREN).ru_maxrss
    if most > STOPPING:
        raise Failure(f"1000 connections are open at a stop: {most} KiB were resident then, and {memory} KiB before")
    for it in senders:
        it.reset()


# ---- an input that is held

@test
def two_hundred_held_by_the_full_delay_mark(room):
    """200 connections of an input that its full-delay mark holds: once it goes on, all of their messages are written."""
    relay, port, inner = stuck(room, "full", interval=0, fullDelayMark=5, timeoutEnqueue=0)
    senders = connected(relay, port, 200)
    lists = [[message("first")], *(messages(50, connection=it) for it in range(1, 201))]
    for sender, texts in zip(senders, lists[1:]):
        sender.send(*texts)
    relay.says(f"syc: input {port} held: full-delay mark")
    # (one in the worker, five in the queue; others are in hands, or weren't read)
    until("the queue is at its mark", lambda: document(relay)["queued"] == 5, came=lambda: document(relay))
    if held_now(relay) < 1:
        raise Failure("no connection is held")
    hub = room.start_unchecked("hub", inner)
    room.has("audit.log", 10_001)
    until("it goes on", lambda: re.search(rf"^syc: input {port} goes on after \d+ s$", relay.errors(), re.M), came=relay.errors)
    for it in senders:
        it.end()
    relay.stops_with(totals(10_001, 0, 0, ("first", 10_001, 10_001, 0, 0), ("up", 10_001, 10_001, 0, 0)))
    hub.stops_with(taken(10_001))
    arrived(room, "audit.log", lists)

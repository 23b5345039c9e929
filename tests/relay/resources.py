"""What many connections leave behind: descriptors, threads and memory."""

import os
import re
import resource
import threading
import time

from crowd import READERS, connected, has_open, held_now, open_now, said
from peers import Pump, Receiver, Sender, frame, frames, message, messages, send_all
from room import Failure, imtcp, is_read, main_queue, module, omfile, omfwd, same, test, totals, until
from stops import forwarding

MANY = 1500

# how many readers an input has but one, unless some wait for an unread file
PROCESSORS = len(os.sched_getaffinity(0))


def left(relay):
    """How many descriptors and threads a relay has."""
    return len(os.listdir(f"/proc/{relay.pid}/fd")), len(os.listdir(f"/proc/{relay.pid}/task"))


def left_at_first(room, relay, port):
    """What it has once it has served as many connections at once as have a reader each, has taken a message and waits for more."""
    for it in connected(relay, port, READERS):
        it.end()
    has_open(relay, 0)
    send_all(port, [message("first")])
    room.has("audit.log", 1)
    relay.rests(port)
    return left(relay)


def short_connections(port, first, count):
    for number in range(first, first + count):
        send_all(port, [message(number)])


def is_settled(now, before):
    """Whether no descriptor is left, and no thread but those of readers, of which one more than there are processors may have started meanwhile."""
    return now[0] == before[0] and now[1] <= before[1] + PROCESSORS + 1


def settles(relay, before):
    until("no descriptor and no thread is left", lambda: is_settled(left(relay), before), came=lambda: f"{left(relay)} after {before}")


@test(limit=3600)
def many_short_connections(room):
    relay, port = room.hub()
    before = left_at_first(room, relay, port)
    turns, grown = 0, 513
    # (the first of them fill what each reader keeps for later ones; what connections leave behind, those of each turn do)
    while turns < 2 or grown > 512 and turns < 6:
        memory = relay.status_field("VmRSS")
        short_connections(port, turns * MANY, MANY)
        turns += 1
        count = turns * MANY + 1
        room.has("audit.log", count)
        settles(relay, before)
        grown = relay.status_field("VmRSS") - memory
    if grown > 512:
        raise Failure(f"{MANY} more connections left {grown} KiB more resident, after {memory}, also in turn {turns}")
    same("archive", sorted(room.lines("audit.log")), sorted([message("first"), *messages(turns * MANY)]))
    relay.stops_with(totals(count, 0, 0, ("audit", count, count, 0, 0)))


@test
def half_frames_leave_nothing(room):
    relay, port = room.hub()
    before = left_at_first(room, relay, port)
    for _ in range(3):
        senders = [Sender(port).send_bytes(b"65536 <34>1 - - - - - - " + b"a" * (500 * it)) for it in range(64)]
        relay.rests(port)
        same("connections that wait", open_now(relay), 64)
        if left(relay)[1] > before[1] + PROCESSORS + 1:
            raise Failure(f"there are {left(relay)[1]} threads, after {before[1]}")
        for it in senders:
            it.end()
        settles(relay, before)
    send_all(port, messages(1))
    room.holds("audit.log", [message("first"), message(0)])
    relay.stops_with(totals(2, 0, 0, ("audit", 2, 2, 0, 0)), [f"syc: 13 Truncated at {port}"] * 192)


@test
def many_faulty_connections(room):
    relay, port = room.hub()
    before = left_at_first(room, relay, port)
    for number in range(200):
        sender = Sender(port).send_bytes(frame(message(number)) + b"0")
        sender.is_ended()
        sender.close()
    room.has("audit.log", 201)
    settles(relay, before)
    relay.stops_with(totals(201, 0, 0, ("audit", 201, 201, 0, 0)), [f"syc: 11 BadLength at {port}"] * 200)


@test
def memory_of_half_frames(room):
    relay, port = room.hub()
    senders = [Sender(port).send_bytes(b"65536 <34>1 - - - - - - " + b"a" * 32_000) for _ in range(64)]
    relay.rests(port)
    memory = relay.status_field("VmRSS")
    if memory > 32 * 1024:
        raise Failure(f"64 connections with half of the longest frame each: {memory} KiB are resident")
    for it in senders:
        it.send_bytes(b"a" * (65536 - 18 - 32_000)).end()
    room.has("audit.log", 64)
    relay.stops_with(totals(64, 0, 0, ("audit", 64, 64, 0, 0)))


@test
def memory_of_senders_that_are_held(room):
    port = room.port()
    room.site({"hub": module() + main_queue(size=2, fullDelayMark=1, dequeueBatchSize=1) + imtcp(port) + omfile("full", "/dev/full", -1, 1)})
    relay = room.start_unchecked("hub", port)
    senders, data = [Sender(port) for _ in range(64)], frames([b"<34>1 - - - - - -"] * 3000)
    for it in senders:
        it.socket.setblocking(False)
    still = 0
    while still < 50:
        # (until the kernel takes no more of any)
        still += 1
        for it in senders:
            try:
                it.socket.send(data)
                still = 0
            except BlockingIOError:
                pass
        time.sleep(0.01)
    memory = relay.status_field("VmRSS")
    if memory > 32 * 1024:
        raise Failure(f"64 senders that are held: {memory} KiB are resident")
    taken = re.fullmatch(r"taken (\d+) lost 0 held (\d+)\nfull due \d+ done 0 given-up 0 left \d+\n", relay.stop())
    same("messages held", bool(taken) and taken[1], bool(taken) and taken[2])
    for it in senders:
        it.close()


@test
def memory_of_a_long_stream(room):
    relay, port = room.hub()
    texts = messages(20_000, text="a" * 300)
    send_all(port, texts)
    room.has("audit.log", len(texts))
    memory = relay.status_field("VmHWM")
    for _ in range(4):
        send_all(port, texts)
    count = 5 * len(texts)
    room.has("audit.log", count)
    grown = relay.status_field("VmHWM") - memory
    # (a queue that waits has up to its size in memory)
    if grown > 32 * 1024:
        raise Failure(f"{count} messages took {grown} KiB more than the first {len(texts)}, after {memory}")
    relay.stops_with(totals(count, 0, 0, ("audit", count, count, 0, 0)))


FREE = 8  # descriptors


def with_few_descriptors(room):
    """A relay that has descriptors for eight connections, and twice as many senders."""
    relay, port = room.hub()
    resource.prlimit(relay.pid, resource.RLIMIT_NOFILE, (left_at_first(room, relay, port)[0] + FREE,) * 2)
    return relay, port, [Sender(port).send(message(it)) for it in range(2 * FREE)]


@test
def senders_wait_for_descriptors(room):
    relay, _, senders = with_few_descriptors(room)
    for number, sender in enumerate(senders):
        until(f"sender {number} is served", lambda: message(number) + b"\n" in room.read("audit.log"))
        same("connections that are served at once", room.count("audit.log") - 1 <= number + FREE, True)
        sender.end()
    count = 2 * FREE + 1
    relay.stops_with(totals(count, 0, 0, ("audit", count, count, 0, 0)))
    same("archive", sorted(room.lines("audit.log")), sorted([message("first"), *messages(2 * FREE)]))
    # (what is said of it is said once, until one is accepted, and that once more)
    if len(said(relay)) > 2 * len(senders):
        raise Failure(f"wanted a line as connections begin to wait, came {relay.errors()!r}")


@test
def stop_without_descriptors(room):
    relay, port, senders = with_few_descriptors(room)
    # (all that it can take then; it doesn't rest while others wait)
    room.has("audit.log", 1 + FREE)
    output = relay.stop()
    count = len(room.lines("audit.log"))
    same("totals", output, totals(count, 0, 0, ("audit", count, count, 0, 0)))
    room.ports_are_free(port)
    for it in senders:
        it.close()


@test
def deepest_script_within_a_mebibyte_of_stack(room):
    port, rulesets = room.port(), []
    for it in range(17):
        inner = f"call r{it + 1}" if it < 16 else omfile("audit", "audit.log")
        rulesets.append(f'ruleset(name="r{it}") {{ {"if $msg contains ~x~ then { " * 31}{inner}{" }" * 31} }}\n'.replace("~", '"'))
    room.site({"edge": module() + imtcp(port, ruleset="r0") + "".join(rulesets)})
    little = lambda: resource.setrlimit(resource.RLIMIT_STACK, (1 << 20, 1 << 20))  # noqa: E731
    relay = room.start("edge", port, words=["--unchecked", "site", "edge"], limits=little)
    send_all(port, messages(10, text="x") + messages(10, 10, text="y"))
    room.holds("audit.log", messages(10, text="x"))
    relay.stops_with(totals(20, 0, 0, ("audit", 10, 10, 0, 0)))


@test
def memory_that_runs_out_for_a_while(room):
    entry, inner, count = room.port(), room.port(), 200_000
    room.site({"edge": module() + main_queue(size=1_000_000, fullDelayMark=900_000) + imtcp(entry) + omfwd("up", "hub", inner, -1, 1),
               "hub": module() + imtcp(inner) + omfile("audit", "audit.log")}, f"entry edge {entry}", "protect auth.* hub audit")
    edge = room.start("edge", entry)
    send_all(entry, messages(10))
    room_left = edge.status_field("VmSize") * 1024 + 30_000_000
    resource.prlimit(edge.pid, resource.RLIMIT_AS, (room_left, resource.RLIM_INFINITY))
    texts = messages(count, 10, text="a" * 300)
    sending = threading.Thread(target=send_all, args=(entry, texts), daemon=True)
    sending.start()
    until("it has no memory left", lambda: edge.status_field("VmSize") * 1024 > room_left - 1_000_000)
    until("it reads no more", lambda: not is_read(entry))
    resource.prlimit(edge.pid, resource.RLIMIT_AS, (resource.RLIM_INFINITY, resource.RLIM_INFINITY))
    hub = room.start("hub", inner)
    room.has("audit.log", count + 10)
    sending.join()
    edge.stops_with(totals(count + 10, 0, 0, ("up", count + 10, count + 10, 0, 0)))
    hub.stops_with(totals(count + 10, 0, 0, ("audit", count + 10, count + 10, 0, 0)))
    if room.lines("audit.log") != messages(10) + texts:
        raise Failure("the archive has other lines than the messages")


@test
def idle_relay_does_nothing(room):
    relay, port = room.hub()
    senders = [Sender(port).send(message(it)) for it in range(10)]
    room.has("audit.log", 10)
    # (beside other work a thread that began to wait may be woken once more)
    for _ in range(5):
        relay.rests(port)
        before = relay.threads()
        relay.rests(port)
        after = relay.threads()
        if after == before:
            break
    same("what its threads did while it was idle", after, before)
    for it in senders:
        it.end()
    relay.stops_with(totals(10, 0, 0, ("audit", 10, 10, 0, 0)))


def took(relay):
    """Nanoseconds of processor time that its threads have had."""
    found = 0
    for thread in os.listdir(f"/proc/{relay.pid}/task"):
        with open(f"/proc/{relay.pid}/task/{thread}/schedstat") as it:
            found += int(it.read().split()[0])
    return found


def takes_next_to_nothing(relay, *ports):
    """Whether it takes 1 ms of processor time a second at most while it has nothing to do but to wait for its peers."""
    for _ in range(10):
        relay.rests(*ports)
        begun, before = time.monotonic(), took(relay)
        # (long enough for what is done once a second)
        until("three seconds have passed", lambda: time.monotonic() > begun + 3)
        used, passed = took(relay) - before, time.monotonic() - begun
        if used <= passed * 1e6:
            return
        # (a buffer of the host's that still gave room)
    raise Failure(f"it took {used / 1e6:.2f} ms of processor time in {passed:.1f} s")


@test
def idle_relay_takes_next_to_no_processor(room):
    relay, port = room.hub()
    senders = [Sender(port).send(message(it)) for it in range(64)]
    room.has("audit.log", 64)
    takes_next_to_nothing(relay, port)
    for it in senders:
        it.end()
    relay.stops_with(totals(64, 0, 0, ("audit", 64, 64, 0, 0)))


@test
def relay_whose_receiver_is_down_takes_next_to_no_processor(room):
    relay, port, _ = forwarding(room, 30, size=100, fullDelayMark=4, dequeueBatchSize=1)
    senders = [Sender(port).send(*messages(50, connection=it)) for it in range(20)]
    takes_next_to_nothing(relay)
    # (one in the worker, four in the queue, one in the hand of each reader)
    count = 5 + held_now(relay)
    relay.stops_with(totals(count, 0, count, ("up", 1, 0, 0, 1)))
    for it in senders:
        it.is_ended()


@test
def relay_whose_link_is_full_takes_next_to_no_processor(room):
    relay, port, inner = forwarding(room, 30, size=1000, fullDelayMark=900)
    receiver = Receiver(inner, reads=False, small=True)
    pump = Pump(port, 0, "a" * 1000)
    receiver.is_connected()
    pump.is_held(relay)
    takes_next_to_nothing(relay)
    relay.stop()
    pump.end()
    receiver.close()

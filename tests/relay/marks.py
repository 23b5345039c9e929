"""What is held, discarded and given up at the marks of queues, and waits that run out."""

import time

from peers import Receiver, Sender, message, messages, send_all
from room import WAIT, Failure, imtcp, main_queue, module, omfile, omfwd, same, test, totals, until

INFO, CRIT = 38, 34  # auth.info, auth.crit


def stuck(room, flow, pri=CRIT, interval=30, more_inputs="", **queue):
    """A relay whose only worker holds one message, which it can't forward; its queue is empty then.

    The message is written to an archive before, and it is told that the forward fails, so that nothing is told of that later."""
    port, inner = room.port(), room.port()
    parameters = {"size": 10, "dequeueBatchSize": 1, "fullDelayMark": 0, "lightDelayMark": 0, "discardMark": 0} | queue
    room.site({"edge": module() + main_queue(**parameters) + imtcp(port, flow) + more_inputs
               + omfile("first", "first.log") + omfwd("up", "hub", inner, -1, interval),
               "hub": module() + imtcp(inner) + omfile("audit", "audit.log")})
    relay = room.start_unchecked("edge", port)
    send_all(port, [message("first", pri=pri)])
    room.holds("first.log", [message("first", pri=pri)])
    until("its forward fails", lambda: "syc: action up fails: connection refused" in relay.lines(), came=relay.lines)
    return relay, port, inner


def held(worker=1):
    """The totals of the two actions while the worker is stuck."""
    return ("first", worker, worker, 0, 0), ("up", worker, 0, 0, worker)


@test
def discarded_at_the_mark(room):
    relay, port, _ = stuck(room, "off", discardMark=5, discardSeverity=4, timeoutEnqueue=0)
    # five of eight come below the mark; of the others none of severity 6 comes into the queue
    send_all(port, messages(8, pri=INFO))
    send_all(port, messages(3, 8, pri=CRIT))
    relay.stops_with(totals(12, 3, 9, *held()))


@test
def time_to_enqueue_runs_out(room):
    relay, port, _ = stuck(room, "off", size=4, timeoutEnqueue=300)
    begun = time.monotonic()
    send_all(port, messages(7))
    took = time.monotonic() - begun
    if took < 0.9:
        raise Failure(f"three messages that found a full queue waited {took:.3f} s, less than 0.9 s")
    relay.stops_with(totals(8, 3, 5, *held()))


@test
def time_to_enqueue_of_nothing(room):
    relay, port, _ = stuck(room, "off", size=4, timeoutEnqueue=0)
    send_all(port, messages(1000))
    relay.stops_with(totals(1001, 996, 5, *held()))


@test
def full_queue_of_a_light_delay_input(room):
    relay, port, _ = stuck(room, "on", size=4, timeoutEnqueue=50)
    send_all(port, messages(10))
    relay.stops_with(totals(11, 6, 5, *held()))


@test
def full_delay_holds_the_sender(room):
    relay, port, _ = stuck(room, "full", fullDelayMark=5, timeoutEnqueue=0)
    sender = Sender(port).send(*messages(20))
    # five are in the queue, one is in the hand; of the others none is taken
    relay.rests(port)
    relay.stops_with(totals(7, 0, 7, *held()))
    sender.is_ended()


@test
def full_delay_goes_on(room):
    relay, port, inner = stuck(room, "full", interval=0, fullDelayMark=5, timeoutEnqueue=0)
    sender = Sender(port).send(*messages(2000))
    receiver = Receiver(inner)
    receiver.has([message("first"), *messages(2000)])
    sender.end()
    relay.stops_with(totals(2001, 0, 0, ("first", 2001, 2001, 0, 0), ("up", 2001, 2001, 0, 0)))


@test
def full_delay_without_a_mark_gives_up(room):
    relay, port, _ = stuck(room, "full", size=4, timeoutEnqueue=50)
    send_all(port, messages(6))
    relay.stops_with(totals(7, 2, 5, *held()))


@test
def full_delay_above_the_size_gives_up(room):
    relay, port, _ = stuck(room, "full", size=4, fullDelayMark=5, timeoutEnqueue=50)
    send_all(port, messages(6))
    relay.stops_with(totals(7, 2, 5, *held()))


@test
def full_delay_beside_an_input_that_does_not_wait(room):
    other = room.port()
    relay, port, _ = stuck(room, "full", more_inputs=imtcp(other, "off"), size=8, fullDelayMark=5, timeoutEnqueue=50)
    send_all(port, messages(5))
    sender = Sender(port).send(*messages(5, 5))
    send_all(other, messages(6, 10))
    relay.rests(port, other)
    # eight in the queue, one in the worker, one in the hand of the input that waits; three that don't wait are lost
    relay.stops_with(totals(13, 3, 10, *held()))
    sender.is_ended()


@test
def light_delay_takes_a_second(room):
    relay, port, _ = stuck(room, "on", lightDelayMark=3, timeoutEnqueue=0)
    begun = time.monotonic()
    send_all(port, messages(3))
    send_all(port, messages(2, 3))
    took = time.monotonic() - begun
    if took < 2:
        raise Failure(f"two messages above the mark of light delay took {took:.3f} s, less than 2 s")
    relay.stops_with(totals(6, 0, 6, *held()))


@test
def light_delay_ends_below_the_mark(room):
    relay, port, inner = stuck(room, "on", interval=0, lightDelayMark=3, timeoutEnqueue=0)
    # (if each of those above the mark took a second while the queue is emptied, this would take far longer than is waited for)
    count = 10 * WAIT
    sender = Sender(port).send(*messages(count))
    receiver = Receiver(inner)
    receiver.has([message("first"), *messages(count)])
    sender.end()
    count += 1
    relay.stops_with(totals(count, 0, 0, ("first", count, count, 0, 0), ("up", count, count, 0, 0)))


@test
def discarded_as_they_are_grabbed(room):
    relay, port, inner = stuck(room, "off", interval=0, discardMark=3, discardSeverity=4)
    # three of severity 6 come below the mark; three of severity 2 are behind the last of them as it leaves
    send_all(port, messages(3, pri=INFO) + messages(3, 3, pri=CRIT))
    receiver = Receiver(inner)
    wanted = [message("first"), *messages(3, 3, pri=CRIT)]
    receiver.has(wanted)
    relay.rests(port)
    relay.stops_with(totals(7, 3, 0, ("first", 4, 4, 0, 0), ("up", 4, 4, 0, 0)))
    same("first.log", room.lines("first.log"), wanted)


@test
def severities_at_the_discard_severity(room):
    relay, port, _ = stuck(room, "off", discardMark=1, discardSeverity=4, timeoutEnqueue=0)
    # one is in the queue; then of severities 7 to 0 those from 4 on are discarded
    send_all(port, [message("one"), *(message(it, pri=32 + it) for it in range(7, -1, -1))])
    relay.stops_with(totals(10, 4, 6, *held()))


def posting(room, interval=30, **queue):
    """A relay whose forward has a queue of its own, and can't forward; its worker holds one message."""
    port, inner = room.port(), room.port()
    parameters = {"type": "LinkedList", "size": 4, "dequeueBatchSize": 1, "discardMark": 0} | queue
    more = "".join(f' queue.{name}="{value}"' for name, value in parameters.items())
    room.site({"edge": module() + main_queue(size=1000, dequeueBatchSize=16) + imtcp(port)
               + omfwd("up", "hub", inner, -1, interval, more) + omfile("after", "after.log"),
               "hub": module() + imtcp(inner) + omfile("audit", "audit.log")})
    relay = room.start_unchecked("edge", port)
    send_all(port, [message("first")])
    room.holds("after.log", [message("first")])
    if interval:
        relay.rests(port)
    return relay, port, inner


@test
def posts_into_a_full_queue_are_lost(room):
    relay, port, _ = posting(room, timeoutEnqueue=50)
    send_all(port, messages(9))
    room.holds("after.log", [message("first"), *messages(9)])
    relay.stops_with(totals(10, 5, 5, ("up", 1, 0, 0, 1), ("after", 10, 10, 0, 0)))


@test
def posts_are_discarded_at_the_mark(room):
    relay, port, _ = posting(room, discardMark=2, discardSeverity=6, timeoutEnqueue=0)
    send_all(port, messages(4, pri=INFO) + messages(1, 4, pri=CRIT))
    room.holds("after.log", [message("first"), *messages(4, pri=INFO), *messages(1, 4, pri=CRIT)])
    # two of severity 6 come below the mark, and the one of severity 2 has room above it
    relay.stops_with(totals(6, 2, 4, ("up", 1, 0, 0, 1), ("after", 6, 6, 0, 0)))


@test
def posts_wait_for_room(room):
    relay, port, inner = posting(room, 0, timeoutEnqueue=60_000)
    send_all(port, messages(20))
    receiver = Receiver(inner)
    receiver.has([message("first"), *messages(20)])
    room.holds("after.log", [message("first"), *messages(20)])
    relay.stops_with(totals(21, 0, 0, ("up", 21, 21, 0, 0), ("after", 21, 21, 0, 0)))


@test
def rulesets_with_queues(room):
    port, count = room.port(), 3000
    queue = 'queue.type="LinkedList" queue.size="{0}" queue.fullDelayMark="{0}" queue.timeoutEnqueue="60000" queue.discardMark="0"'
    text = (imtcp(port, ruleset="in") + f'ruleset(name="in" {queue.format(50)}) {{\n  call side\n  if prifilt("mail.*") then call side\n'
            + omfile("main", "main.log") + f'}}\nruleset(name="side" {queue.format(20)} queue.workerThreads="3") {{\n'
            + omfile("side", "side.log") + "}\n")
    room.site({"hub": module() + text})
    relay = room.start_unchecked("hub", port)
    texts = [message(it, pri=CRIT if it % 3 else 18) for it in range(count)]
    send_all(port, texts)
    room.holds("main.log", texts)
    mails = [it for it in texts if it.startswith(b"<18>")]
    wanted = sorted(texts + mails)
    size = sum(len(it) + 1 for it in wanted)
    # (three workers: in any order)
    until("side.log is whole", lambda: room.size("side.log") >= size)
    same("side.log", sorted(room.lines("side.log")), wanted)
    many = count + len(mails)
    relay.stops_with(totals(count, 0, 0, ("main", count, count, 0, 0), ("side", many, many, 0, 0)))

"""Inner queues that wait: posts that the full-delay mark holds, and what becomes of the messages behind them."""

import time

from peers import Receiver, Sender, frame, messages
from room import Failure, imtcp, main_queue, module, omfile, omfwd, test, totals

WAITS = 'queue.type="LinkedList" queue.workerFlow="full" queue.size="10" queue.fullDelayMark="4" queue.dequeueBatchSize="1"'


def edge(room, interval, timeout=0, words=(), **queue):
    """A relay that writes each message, and then forwards it through a queue that waits at 4 messages.

    Its site is accepted, so it runs with a guard."""
    port, inner = room.port(), room.port()
    room.site({"edge": module() + main_queue(**{"size": 100, "dequeueBatchSize": 1, "fullDelayMark": 5} | queue) + imtcp(port)
               + omfile("first", "first.log")
               + omfwd("up", "hub", inner, -1, interval, f' {WAITS} queue.timeoutEnqueue="{timeout}"'),
               "hub": module() + imtcp(inner) + omfile("audit", "audit.log")},
              f"entry edge {port}", "protect auth.* hub audit")
    return room.start("edge", port, words=[*words, "site", "edge"]), port, inner


@test
def post_is_held_at_the_mark(room):
    relay, port, _ = edge(room, 30)
    sender = Sender(port).send(*messages(20))
    # one with the worker that forwards, four in its queue, one whose post is held, five in the main queue, one in the hand
    room.holds("first.log", messages(6))
    relay.rests(port)
    relay.stops_with(totals(12, 0, 12, ("first", 6, 6, 0, 0), ("up", 1, 0, 0, 1)))
    sender.is_ended()


@test
def archive_behind_an_inner_queue_stops(room):
    relay, port, inner = edge(room, 0, timeout=100)
    sender = Sender(port).send(*messages(500))
    begun = time.monotonic()
    room.holds("first.log", messages(6))
    # (that nothing is lost in five seconds, many times the time to enqueue, is what is tested)
    time.sleep(5)
    room.holds("first.log", messages(6))
    receiver = Receiver(inner)
    receiver.has(messages(500))
    if time.monotonic() - begun < 5:
        raise Failure("the archive did not stop")
    sender.end()
    relay.stops_with(totals(500, 0, 0, ("first", 500, 500, 0, 0), ("up", 500, 500, 0, 0)))
    room.holds("first.log", messages(500))


@test
def archive_behind_an_inner_queue_stops_again_and_again(room):
    relay, port, inner = edge(room, 0)
    sender = Sender(port)
    sent = 0
    for _ in range(3):
        sender.send(*messages(50, sent))
        room.has("first.log", sent + 6)
        receiver = Receiver(inner)
        receiver.has(messages(50, sent))
        receiver.close()
        sent += 50
    sender.end()
    relay.stops_with(totals(150, 0, 0, ("first", 150, 150, 0, 0), ("up", 150, 150, 0, 0)))


@test
def what_inner_queues_hold_is_left(room):
    relay, port, inner = edge(room, 30, words=["--left", "left"])
    sender = Sender(port).send(*messages(20))
    room.holds("first.log", messages(6))
    relay.rests(port)
    relay.stops_with(totals(12, 0, 12, ("first", 6, 6, 0, 0), ("up", 1, 0, 0, 1)))
    sender.is_ended()
    left = room.read(f"left.{port}")
    for place, it in enumerate(messages(12)):
        if left.count(frame(it)) != 1:
            raise Failure(f"message {place} of 12 is left {left.count(frame(it))} times")

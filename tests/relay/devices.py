"""Receivers that are down, killed and restarted."""

import os
import re
import signal
import socket
import time

from peers import Pump, Receiver, Sender, messages, send_all
from room import Failure, imtcp, main_queue, module, omfile, omfwd, same, test, totals, until


def edge(room, retries, interval=0, after=True, more=""):
    """Starts a relay that forwards, and then writes to an archive, which tells how far it is; answers its ports too."""
    entry, inner = room.port(), room.port()
    room.site({"edge": module() + main_queue(size=1000, dequeueBatchSize=8) + imtcp(entry)
               + omfwd("up", "hub", inner, retries, interval, more) + (omfile("after", "after.log") if after else ""),
               "hub": module() + imtcp(inner) + omfile("audit", "audit.log")})
    return room.start_unchecked("edge", entry), entry, inner


def numbers(texts):
    """The places of messages in their connection."""
    return [int(it.split(b" ")[8][1:]) for it in texts]


def full(room, retries=-1, **more):
    """A relay whose link is full, since the receiver reads nothing; answers it, its port, the receiver and what sends."""
    relay, port, inner = edge(room, retries, after=False)
    receiver = Receiver(inner, reads=False, small=True, **more)
    pump = Pump(port, 0, "a" * 1000)
    receiver.is_connected()
    pump.is_held(relay)
    return relay, port, receiver, pump


def wakes(relay, times):
    """Waits until its worker has waked so often, as it does each second in which a write takes nothing."""
    def turns():
        return sum(int(it[3]) for it in relay.threads().values())
    before = turns()
    until(f"{relay.name} has waked {times} times", lambda: turns() >= before + times)


def all_received(relay, port, receiver, pump, links):
    """What was sent comes, over so many links where that is told, each message once, whole and in order; the last link
    ends in no torn frame."""
    receiver.begins_to_read()
    pump.finish()
    until("all is received", lambda: len(receiver.messages()) >= pump.sent, came=lambda: len(receiver.messages()))
    relay.stops_with(totals(pump.sent, 0, 0, ("up", pump.sent, pump.sent, 0, 0)))
    found = receiver.ended()
    if links:
        same("links", len(found), links)
    same("messages", numbers(it for texts, _ in found for it in texts) == list(range(pump.sent)), True)
    same("what the last link ends in", found[-1][1], b"")


@test
def receiver_down_without_retries(room):
    # (the interval is waited for before a retry alone: not after a message that is given up)
    relay, port, _ = edge(room, 0, 30)
    send_all(port, messages(40))
    room.holds("after.log", messages(40))
    relay.stops_with(totals(40, 0, 0, ("up", 40, 0, 40, 0), ("after", 40, 40, 0, 0)))


@test
def receiver_down_with_three_retries(room):
    relay, port, _ = edge(room, 3)
    begun = time.monotonic()
    send_all(port, messages(20))
    room.holds("after.log", messages(20))
    took = time.monotonic() - begun
    # (three times of at least 10 ms for each message, where the interval is 0)
    if took < 0.6:
        raise Failure(f"20 messages with three retries of 10 ms each were given up within {took:.3f} s")
    relay.stops_with(totals(20, 0, 0, ("up", 20, 0, 20, 0), ("after", 20, 20, 0, 0)))


@test
def interval_between_retries_is_waited_for(room):
    relay, port, _ = edge(room, 2, 1)
    begun = time.monotonic()
    send_all(port, messages(1))
    room.holds("after.log", messages(1))
    took = time.monotonic() - begun
    if took < 2:
        raise Failure(f"two retries with an interval of one second took {took:.3f} s")
    relay.stops_with(totals(1, 0, 0, ("up", 1, 0, 1, 0), ("after", 1, 1, 0, 0)))


@test
def receiver_comes_up_before_the_last_retry(room):
    # (the three retries take 24 s, of which a busy machine may take some until the receiver is there)
    relay, port, inner = edge(room, 3, 8)
    send_all(port, messages(10))
    relay.says("syc: action up fails: connection refused")
    receiver = Receiver(inner)
    room.holds("after.log", messages(10))
    receiver.has(messages(10))
    relay.stops_with(totals(10, 0, 0, ("up", 10, 10, 0, 0), ("after", 10, 10, 0, 0)))


@test
def receiver_comes_up_late_with_endless_retries(room):
    relay, port, inner = edge(room, -1)
    send_all(port, messages(100))
    receiver = Receiver(inner)
    receiver.has(messages(100))
    room.holds("after.log", messages(100))
    relay.stops_with(totals(100, 0, 0, ("up", 100, 100, 0, 0), ("after", 100, 100, 0, 0)))


def cut_while_idle(room, retries, end, comes_back):
    """A receiver that took ten messages ends; ten more come, and then perhaps another receiver."""
    relay, port, inner = edge(room, retries, after=retries >= 0)
    first = Receiver(inner)
    sender = Sender(port).send(*messages(10))
    first.has(messages(10))
    end(first)
    if comes_back:
        second = Receiver(inner)
        sender.send(*messages(10, 10))
        second.has(messages(10, 10))
    else:
        sender.send(*messages(10, 10))
    return relay, sender


@test
def receiver_killed_without_retries(room):
    relay, sender = cut_while_idle(room, 0, Receiver.kill, False)
    room.holds("after.log", messages(20))
    sender.end()
    relay.stops_with(totals(20, 0, 0, ("up", 20, 10, 10, 0), ("after", 20, 20, 0, 0)))


@test
def receiver_closed_without_retries(room):
    relay, sender = cut_while_idle(room, 0, Receiver.close, False)
    room.holds("after.log", messages(20))
    sender.end()
    relay.stops_with(totals(20, 0, 0, ("up", 20, 10, 10, 0), ("after", 20, 20, 0, 0)))


@test
def receiver_killed_with_three_retries(room):
    relay, sender = cut_while_idle(room, 3, Receiver.kill, False)
    room.holds("after.log", messages(20))
    sender.end()
    relay.stops_with(totals(20, 0, 0, ("up", 20, 10, 10, 0), ("after", 20, 20, 0, 0)))


@test
def receiver_killed_with_endless_retries(room):
    relay, sender = cut_while_idle(room, -1, Receiver.kill, False)
    sender.end()
    # (the worker holds eight and offers the first of them, two wait in the queue: or fewer, as they came)
    same("totals while it is down", re.sub(r"due \d+ done (\d+) given-up (\d+) left \d+", r"done \1 given-up \2", relay.stop()),
         "taken 20 lost 0 held 10\nup done 10 given-up 0\n")


@test
def receiver_killed_and_restarted(room):
    relay, sender = cut_while_idle(room, -1, Receiver.kill, True)
    sender.end()
    relay.stops_with(totals(20, 0, 0, ("up", 20, 20, 0, 0)))


@test
def receiver_closed_and_restarted(room):
    relay, sender = cut_while_idle(room, -1, Receiver.close, True)
    sender.end()
    relay.stops_with(totals(20, 0, 0, ("up", 20, 20, 0, 0)))


@test
def receiver_killed_under_load(room):
    relay, port, inner = edge(room, -1, after=False)
    receivers = [Receiver(inner)]
    sender = Sender(port)
    count = 0
    for turn in range(4):
        sender.send(*messages(5000, count, text="a" * 100))
        count += 5000
        until("the receiver has some", lambda: len(receivers[-1].came) > 0 and len(receivers[-1].came[-1]) > 100_000)
        receivers[-1].kill()
        receivers.append(Receiver(inner))
    last = messages(1, count)
    sender.send(*last).end()
    until("the last message is received", lambda: receivers[-1].messages()[-1:] == last)
    relay.stops_with(totals(count + 1, 0, 0, ("up", count + 1, count + 1, 0, 0)))
    # (a link that breaks loses what stood in it; over one link nothing is lost, and none comes twice over two)
    came = [numbers(receiver.messages()) for receiver in receivers]
    for it in came:
        if it != list(range(it[0], it[0] + len(it))):
            raise Failure(f"a receiver got other messages than those behind each other: {it[:20]}..")
    ranges = [(it[0], it[-1]) for it in came]
    same("messages over the links", [*ranges], sorted(ranges))
    same("messages that came over two links", [it for it in zip(ranges, ranges[1:]) if it[0][1] >= it[1][0]], [])


def cut_while_idle_twenty_times(room, end):
    relay, port, inner = edge(room, -1, after=False)
    sender, before = Sender(port), None
    for turn in range(20):
        receiver = Receiver(inner)
        sender.send(*messages(5, turn * 5))
        receiver.has(messages(5, turn * 5))
        before = before or len(os.listdir(f"/proc/{relay.pid}/fd"))
        end(receiver)
    same("descriptors after 20 links", len(os.listdir(f"/proc/{relay.pid}/fd")), before)
    sender.end()
    relay.stops_with(totals(100, 0, 0, ("up", 100, 100, 0, 0)))


@test
def link_closed_while_idle_twenty_times(room):
    cut_while_idle_twenty_times(room, Receiver.close)


@test
def link_reset_while_idle_twenty_times(room):
    cut_while_idle_twenty_times(room, Receiver.kill)


@test
def target_that_is_no_relay(room):
    port, nobody = room.port(), room.port()
    receiver = Receiver(nobody)
    room.site({"edge": module() + main_queue(size=100, dequeueBatchSize=1) + imtcp(port) + omfwd("up", "nowhere", nobody, 2, 0)
               + omfile("after", "after.log") + omfwd("never", "elsewhere", nobody)})
    relay = room.start_unchecked("edge", port)
    send_all(port, messages(3))
    room.holds("after.log", messages(1))
    relay.rests(port)
    # (nothing of that list is done for the next message before this one is)
    relay.stops_with(totals(3, 0, 3, ("up", 1, 0, 1, 0), ("after", 1, 1, 0, 0), ("never", 1, 0, 0, 1)))
    same("connections to a target that is no relay", len(receiver.connections), 0)


@test
def port_that_is_no_input_of_the_target(room):
    entry, inner, other = room.port(), room.port(), room.port()
    room.site({"edge": module() + imtcp(entry) + omfwd("up", "hub", other),
               "hub": module() + imtcp(inner) + omfile("audit", "audit.log")})
    receiver = Receiver(other)
    relay = room.start_unchecked("edge", entry)
    send_all(entry, messages(30))
    receiver.has(messages(30))
    relay.stops_with(totals(30, 0, 0, ("up", 30, 30, 0, 0)))


@test
def receiver_that_talks_back(room):
    relay, port, inner = edge(room, -1, after=False)
    receiver = Receiver(inner)
    sender = Sender(port)
    for turn in range(5):
        sender.send(*messages(10, turn * 10))
        receiver.has(messages(turn * 10 + 10))
        receiver.connections[0][0].sendall(b"220 welcome\r\n" * 10_000)
    sender.end()
    relay.stops_with(totals(50, 0, 0, ("up", 50, 50, 0, 0)))


@test
def receiver_that_talks_back_and_closes_while_idle(room):
    relay, port, inner = edge(room, -1, after=False)
    first, sender = Receiver(inner), Sender(port)
    sender.send(*messages(5))
    first.has(messages(5))
    # (all of it is read before the close behind it is seen)
    first.connections[0][0].sendall(b"220 welcome\r\n" * 4000)
    relay.rests(port)
    first.close()
    second = Receiver(inner)
    sender.send(*messages(5, 5))
    second.has(messages(5, 5))
    sender.end()
    relay.stops_with(totals(10, 0, 0, ("up", 10, 10, 0, 0)))


@test
def receiver_that_talks_back_at_a_stop(room):
    relay, port, inner = edge(room, -1, after=False)
    receiver = Receiver(inner, reads=False)
    wanted = messages(2000, text="a" * 1000)
    send_all(port, wanted)
    receiver.is_connected()
    relay.rests(port)
    receiver.connections[0][0].sendall(b"220 welcome\r\n")
    relay.stops_with(totals(2000, 0, 0, ("up", 2000, 2000, 0, 0)))
    # (what stands in the buffers then is received: a close with unread bytes would have reset the link)
    receiver.begins_to_read()
    receiver.has(wanted)
    same("links that ended in a torn frame", [rest for _, rest in receiver.ended()], [b""])


@test
def receiver_that_ends_its_side_while_the_link_is_full(room):
    relay, port, receiver, pump = full(room)
    for links in 2, 3:
        receiver.connections[-1][0].shutdown(socket.SHUT_WR)
        # (it looks each second, and what it has written is still read from the link before)
        receiver.is_connected(links)
        relay.rests()
    all_received(relay, port, receiver, pump, 3)


@test
def receiver_that_reads_nothing_for_a_while(room):
    relay, port, receiver, pump = full(room)
    wakes(relay, 3)
    # (a write that waits goes on over the same link)
    all_received(relay, port, receiver, pump, 1)


@test
def receiver_that_talks_back_and_reads_nothing_for_a_while(room):
    relay, port, receiver, pump = full(room)
    for _ in range(3):
        receiver.connections[0][0].sendall(b"220 welcome\r\n" * 1000)
        wakes(relay, 1)
    all_received(relay, port, receiver, pump, 1)


@test
def relay_halted_by_signals_while_the_link_is_full(room):
    relay, port, receiver, pump = full(room)
    for _ in range(5):
        os.kill(relay.pid, signal.SIGSTOP)
        until("it is halted", lambda: {it[0] for it in relay.threads().values()} == {"T"})
        os.kill(relay.pid, signal.SIGCONT)
        relay.rests()
    # (each may interrupt a write that waits, which goes on over the same link)
    all_received(relay, port, receiver, pump, 1)


@test
def receiver_that_takes_no_connection_for_a_while(room):
    relay, port, inner = edge(room, -1, after=False)
    # A listener whose places are all taken: a further connection is neither made nor refused.
    silent, waiting = socket.create_server(("127.0.0.1", inner), backlog=0), []
    for _ in range(4):
        waiting.append(socket.socket())
        waiting[-1].setblocking(False)
        waiting[-1].connect_ex(("127.0.0.1", inner))
    send_all(port, messages(10))
    relay.says("syc: action up fails: timed out")
    for it in waiting + [silent]:
        it.close()
    receiver = Receiver(inner)
    receiver.has(messages(10))
    relay.stops_with(totals(10, 0, 0, ("up", 10, 10, 0, 0)))


def spared(room, more=""):
    """A hub that writes each message, and then forwards it by a spare action to a relay that is down; its site is accepted."""
    port, mirror = room.port(), room.port()
    room.site({"hub": module() + imtcp(port) + omfile("audit", "audit.log") + omfwd("copy", "mirror", mirror, 0, 30, more),
               "mirror": module() + imtcp(mirror, "on") + omfile("log", "log.log", 0)},
              f"entry hub {port}", "protect auth.* hub audit", "spare hub copy")
    room.write("site", "policy 2\n" + room.read("site").decode())
    return room.start("hub", port), port


@test
def spare_action_whose_receiver_is_down(room):
    relay, port = spared(room)
    send_all(port, messages(20))
    room.holds("audit.log", messages(20))
    relay.rests(port)
    relay.stops_with(totals(20, 0, 0, ("audit", 20, 20, 0, 0), ("copy", 20, 0, 20, 0)))


@test
def spare_action_with_a_queue_of_its_own(room):
    relay, port = spared(room, ' queue.type="LinkedList" queue.size="3" queue.dequeueBatchSize="1" queue.timeoutEnqueue="0"')
    send_all(port, messages(300))
    room.holds("audit.log", messages(300))
    relay.rests(port)
    # what finds that queue full is lost at once
    said = relay.stop().splitlines()
    if not re.fullmatch("taken 300 lost [0-9]+ held 0", said[0]) or said[1] != "audit due 300 done 300 given-up 0 left 0":
        raise Failure(f"the totals are {said}")

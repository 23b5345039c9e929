"""The end of standard input at any moment: totals come, with status 0, within seconds, and the ports are free."""

import re
import socket
import subprocess
import threading

from crowd import held_now
from peers import PAUSE, Pump, Receiver, Sender, frame, message, messages, places, send_all
from room import Failure, Relay, imtcp, main_queue, module, omfile, omfwd, same, test, totals, until


def balanced(what, output):
    """The totals of a relay with one action, all of whose messages have it due: taken is done, given up, held and lost."""
    found = re.fullmatch(r"taken (\d+) lost (\d+) held (\d+)\n\S+ due (\d+) done (\d+) given-up (\d+) left (\d+)\n", output)
    if found is None:
        raise Failure(f"{what}: wanted a line of totals and one of an action, came {output!r}")
    taken, lost, held, due, done, given_up, left = map(int, found.groups())
    same(f"{what}: taken, in {output!r}", taken, done + given_up + held + lost)
    same(f"{what}: due, in {output!r}", due, done + given_up + left)
    return taken, lost, held, done, given_up


def stopped(room, relay, *ports):
    """Stops a relay of one action; its ports have to be free at once."""
    output = relay.stop()
    room.ports_are_free(*ports)
    return balanced(relay.name, output)


def forwarding(room, interval=30, flow="full", **queue):
    """A relay that forwards alone, with endless retries; answers it, its port, and that of the receiver, which isn't there."""
    port, inner = room.port(), room.port()
    room.site({"edge": module() + main_queue(**queue) + imtcp(port, flow) + omfwd("up", "hub", inner, -1, interval),
               "hub": module() + imtcp(inner) + omfile("audit", "audit.log")})
    return room.start_unchecked("edge", port), port, inner


@test
def without_any_connection(room):
    relay, port = room.hub()
    relay.stops_with(totals(0, 0, 0, ("audit", 0, 0, 0, 0)))
    room.ports_are_free(port)


@test
def standard_input_at_its_end_from_the_start(room):
    port = room.port()
    room.site({"hub": module() + imtcp(port) + omfile("audit", "audit.log")}, f"entry hub {port}", "protect auth.* hub audit")
    for _ in range(3):
        relay = Relay(room, "hub", ["site", "hub"], stdin=subprocess.DEVNULL)
        same("status", relay.ends(), 0)
        same("totals", relay.output(), totals(0, 0, 0, ("audit", 0, 0, 0, 0)))
        room.ports_are_free(port)


@test
def with_idle_connections(room):
    relay, port = room.hub()
    senders = [Sender(port).send(message(0, connection=it)) for it in range(64)]
    room.has("audit.log", 64)
    same("totals", stopped(room, relay, port), (64, 0, 0, 64, 0))
    for it in senders:
        it.is_ended()


@test
def with_connections_that_sent_nothing(room):
    relay, port = room.hub()
    senders = [Sender(port) for _ in range(10)]
    same("totals", stopped(room, relay, port), (0, 0, 0, 0, 0))
    for it in senders:
        it.is_ended()


@test
def with_half_frames(room):
    relay, port = room.hub()
    whole = [frame(message(0, connection=it)) for it in range(20)]
    senders = [Sender(port).send_bytes(text + text[:1 + it]) for it, text in enumerate(whole)]
    room.has("audit.log", 20)
    relay.rests(port)
    same("totals", stopped(room, relay, port), (20, 0, 0, 20, 0))
    # (a frame that the stop cuts is no fault)
    same("faults", relay.faults(), [])
    for it in senders:
        it.is_ended()


@test
def with_half_of_the_longest_frames(room):
    relay, port = room.hub()
    senders = [Sender(port).send_bytes(b"65536 <34>1 - - - - - - " + b"a" * 32_000) for _ in range(64)]
    relay.rests(port)
    same("totals", stopped(room, relay, port), (0, 0, 0, 0, 0))
    for it in senders:
        it.is_ended()


@test
def with_a_sender_that_goes_on_after_it(room):
    relay, port = room.hub()
    pump = Pump(port, 0)
    room.has("audit.log", 1000)
    taken, lost, held, done, _ = stopped(room, relay, port)
    same("lost", lost, 0)
    numbers = [int(it.split(b" ")[8][1:]) for it in room.lines("audit.log")]
    same("messages of the archive", numbers == list(range(done)) and len(numbers), done)
    pump.end()


@test
def what_senders_send_at_once_after_it_is_taken(room):
    relay, port = room.hub()
    for turn in range(10):
        if turn:
            room.write("audit.log", "")
            relay = room.start("hub", port)
        senders = [Sender(port).send(message(0, connection=it)) for it in range(8)]
        room.has("audit.log", 8)
        relay.process.stdin.close()
        # (it has ended its side of the connections, and reads on for two seconds)
        for connection, sender in enumerate(senders):
            sender.is_ended()
            try:
                sender.send(message(1, connection=connection)).half_close()
            except OSError:
                pass
        same("status", relay.ends(), 0)
        taken, lost, _, done, _ = balanced("totals", relay.output())
        same("lost, and lines of the archive", (lost, len(room.lines("audit.log"))), (0, done))
        # (on a machine that does much else two seconds may pass before this has sent)
        if taken == 16:
            return
    raise Failure(f"{taken} messages were taken, and none of those that were sent once the relay had ended its side")


@test
def amid_short_connections(room):
    relay, port = room.hub()
    is_over = threading.Event()

    def come_and_go(number):
        while not is_over.is_set():
            try:
                Sender(port).send(message(0, connection=number)).end()
            except (OSError, Failure):
                pass

    threads = [threading.Thread(target=come_and_go, args=(it,), daemon=True) for it in range(8)]
    for it in threads:
        it.start()
    room.has("audit.log", 300)
    _, lost, _, done, _ = stopped(room, relay, port)
    is_over.set()
    same("lost, and lines of the archive", (lost, len(room.lines("audit.log"))), (0, done))


@test
def of_a_relay_with_sixty_four_inputs(room):
    ports = [room.port() for _ in range(64)]
    room.site({"hub": module() + "".join(map(imtcp, ports)) + omfile("audit", "audit.log")},
              f"entry hub {ports[0]}", "protect auth.* hub audit")
    relay = room.start("hub", *ports)
    senders = [Sender(port).send(message(0, connection=it)) for it, port in enumerate(ports)]
    room.has("audit.log", 64)
    same("totals", stopped(room, relay, *ports), (64, 0, 0, 64, 0))
    for it in senders:
        it.is_ended()


@test(limit=3600)
def under_load_at_any_moment(room):
    relay, port = room.hub()
    for turn in range(5):
        if turn:
            room.write("audit.log", "")
            relay = room.start("hub", port)
        pumps = [Pump(port, it) for it in range(turn * 2 + 1)]
        until("the archive grows", lambda: room.size("audit.log") > turn * turn * 50_000)
        _, lost, _, done, _ = stopped(room, relay, port)
        same("lost", lost, 0)
        lines = room.lines("audit.log")
        same("lines of the archive", len(lines), done)
        for connection, numbers in places(lines).items():
            if numbers != list(range(len(numbers))):
                raise Failure(f"connection {connection}: the archive has other messages than its first {len(numbers)}")
        for it in pumps:
            it.end()


@test
def while_the_receiver_is_down(room):
    relay, port, _ = forwarding(room)
    send_all(port, messages(500))
    same("totals", stopped(room, relay, port), (500, 0, 500, 0, 0))


@test
def between_two_retries(room):
    relay, port, _ = forwarding(room, interval=2_147_483_647)
    send_all(port, messages(3))
    relay.rests(port)
    same("totals", stopped(room, relay, port), (3, 0, 3, 0, 0))


@test
def while_a_receiver_reads_nothing(room):
    relay, port, inner = forwarding(room, size=1000, fullDelayMark=900)
    receiver = Receiver(inner, reads=False, small=True)
    pump = Pump(port, 0, "a" * 1000)
    receiver.is_connected()
    pump.is_held(relay)
    taken, lost, held, _, _ = stopped(room, relay, port)
    same("lost", lost, 0)
    if held == 0:
        raise Failure(f"nothing is held of {taken} messages while the receiver read nothing")
    pump.end()
    receiver.close()


@test
def while_a_receiver_reads_slowly(room):
    relay, port, inner = forwarding(room, size=1000, fullDelayMark=900)
    receiver = Receiver(inner, reads=False)
    pump = Pump(port, 0, "a" * 60_000)
    receiver.is_connected()
    pump.is_held(relay)
    receiver.drips()
    _, lost, _, _, _ = stopped(room, relay, port)
    same("lost", lost, 0)
    pump.end()
    receiver.close()


@test
def what_is_done_comes_behind_the_end(room):
    relay, port, inner = forwarding(room, size=1000, fullDelayMark=900)
    receiver = Receiver(inner, reads=False, small=True)
    pump = Pump(port, 0, "a" * 1000)
    receiver.is_connected()
    pump.is_held(relay)
    _, lost, _, done, _ = stopped(room, relay, port)
    same("lost", lost, 0)
    # (it stands in socket buffers, and the host sends it on: at most the frame that was under way is cut)
    receiver.begins_to_read()
    until("all that is done is received", lambda: len(receiver.messages()) >= done, came=lambda: len(receiver.messages()))
    receiver.connections[0][1].join(PAUSE)
    same("what is received", receiver.messages(), messages(done, text="a" * 1000))
    pump.end()


@test
def while_a_receiver_takes_no_connection(room):
    relay, port, inner = forwarding(room)
    # A listener whose places are all taken: a further connection is neither made nor refused.
    receiver = socket.create_server(("127.0.0.1", inner), backlog=0)
    waiting = []
    for _ in range(4):
        waiting.append(socket.socket())
        waiting[-1].setblocking(False)
        waiting[-1].connect_ex(("127.0.0.1", inner))
    send_all(port, messages(10))
    relay.rests(port)
    same("totals", stopped(room, relay, port), (10, 0, 10, 0, 0))
    for it in waiting + [receiver]:
        it.close()


@test
def while_senders_are_held(room):
    relay, port, _ = forwarding(room, size=10, fullDelayMark=5, dequeueBatchSize=1)
    senders = [Sender(port).send(*messages(50, connection=it)) for it in range(20)]
    relay.rests()
    # one in the worker, five in the queue, one in the hand of each reader
    count = 6 + held_now(relay)
    same("totals", stopped(room, relay, port), (count, 0, count, 0, 0))
    for it in senders:
        it.is_ended()


@test
def while_messages_wait_for_room(room):
    relay, port, _ = forwarding(room, flow="off", size=10, dequeueBatchSize=1, timeoutEnqueue=2_147_483_647)
    senders = [Sender(port).send(*messages(50, connection=it)) for it in range(5)]
    relay.rests()
    # one in the worker, ten in the queue, one in the hand of each reader
    count = 11 + held_now(relay)
    same("totals", stopped(room, relay, port), (count, 0, count, 0, 0))
    for it in senders:
        it.is_ended()


@test
def in_light_delay(room):
    relay, port, _ = forwarding(room, flow="on", size=100, dequeueBatchSize=1, lightDelayMark=1)
    senders = [Sender(port).send(*messages(1000, connection=it)) for it in range(3)]
    until("they are read", lambda: relay.threads())
    taken, lost, held, done, _ = stopped(room, relay, port)
    same("lost and done", (lost, done), (0, 0))
    for it in senders:
        it.is_ended()


@test
def while_a_post_waits(room):
    port, inner = room.port(), room.port()
    more = ' queue.type="LinkedList" queue.size="2" queue.dequeueBatchSize="1" queue.discardMark="0" queue.timeoutEnqueue="2147483647"'
    room.site({"edge": module() + imtcp(port) + omfwd("up", "hub", inner, -1, 30, more) + omfile("after", "after.log"),
               "hub": module() + imtcp(inner) + omfile("audit", "audit.log")})
    relay = room.start_unchecked("edge", port)
    send_all(port, messages(1))
    room.has("after.log", 1)
    relay.rests(port)
    send_all(port, messages(9, 1))
    room.has("after.log", 3)
    relay.rests(port)
    same("totals", relay.stop().splitlines()[0], "taken 10 lost 0 held 10")
    same("last total", relay.output().splitlines()[1], "up due 1 done 0 given-up 0 left 1")


@test
def two_relays_one_after_the_other(room):
    entry, inner = room.port(), room.port()
    room.site({"edge": module() + main_queue(size=1000) + imtcp(entry) + omfwd("up", "hub", inner, -1, 0),
               "hub": module() + imtcp(inner) + omfile("audit", "audit.log")}, f"entry edge {entry}", "protect auth.* hub audit")
    hub, edge = room.start("hub", inner), room.start("edge", entry)
    pumps = [Pump(entry, it) for it in range(3)]
    room.has("audit.log", 2000)
    # the hub first, as the relay before it goes on forwarding
    taken, lost, _, done, _ = stopped(room, hub, inner)
    same("lost, and lines of hub", (lost, len(room.lines("audit.log"))), (0, done))
    _, lost, _, sent, _ = stopped(room, edge, entry)
    same("lost by edge", lost, 0)
    if sent < taken:
        raise Failure(f"edge forwarded {sent} messages, hub took {taken}")
    for it in pumps:
        it.end()


@test
def lines_on_standard_input_are_no_end(room):
    relay, port = room.hub()
    relay.process.stdin.write(b"hello\n\n\xff\n" + b"x" * 100_000 + b"\n")
    relay.process.stdin.flush()
    send_all(port, messages(10))
    room.holds("audit.log", messages(10))
    relay.stops_with(totals(10, 0, 0, ("audit", 10, 10, 0, 0)))

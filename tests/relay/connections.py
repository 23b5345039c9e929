"""Connections beside one another, and senders that are slow, half-closed or reset."""

from peers import Pump, Sender, frame, frames, message, messages, places, send_all, send_side_by_side
from room import Failure, imtcp, is_read, module, omfile, same, test, totals, until

AT_ONCE = 100


def served(room, port, count):
    """So many connections, each of which has sent a message that stands in the archive."""
    senders = [Sender(port).send(message(0, connection=it)) for it in range(count)]
    room.has("audit.log", count)
    return senders


@test
def connections_of_another_input(room):
    ports = [room.port(), room.port()]
    room.site({"hub": module() + imtcp(ports[0]) + imtcp(ports[1]) + omfile("audit", "audit.log")},
              f"entry hub {ports[0]}", "protect auth.* hub audit")
    relay = room.start("hub", *ports)
    senders = served(room, ports[0], AT_ONCE)
    send_all(ports[1], [message("other")])
    count = AT_ONCE + 1
    room.has("audit.log", count)
    for it in senders:
        it.end()
    relay.stops_with(totals(count, 0, 0, ("audit", count, count, 0, 0)))


@test
def all_at_once(room):
    relay, port = room.hub()
    lists = [messages(500, connection=it, text="a" * it) for it in range(AT_ONCE)]
    send_side_by_side(port, lists)
    count = 500 * AT_ONCE
    room.has("audit.log", count)
    relay.stops_with(totals(count, 0, 0, ("audit", count, count, 0, 0)))
    lines = room.lines("audit.log")
    for it, texts in enumerate(lists):
        if [line for line in lines if line.split(b" ")[7] == b"c%d" % it] != texts:
            raise Failure(f"connection {it}: the archive has other lines than its messages in their order")


@test
def half_closed_at_once(room):
    relay, port = room.hub()
    send_all(port, messages(5000))
    room.holds("audit.log", messages(5000))
    send_all(port, [])
    relay.stops_with(totals(5000, 0, 0, ("audit", 5000, 5000, 0, 0)))


@test
def closed_without_waiting(room):
    relay, port = room.hub()
    sender = Sender(port).send(*messages(5000))
    sender.close()
    room.holds("audit.log", messages(5000))
    relay.stops_with(totals(5000, 0, 0, ("audit", 5000, 5000, 0, 0)))


@test
def reset_between_frames(room):
    relay, port = room.hub()
    sender = Sender(port).send(*messages(100))
    room.holds("audit.log", messages(100))
    sender.reset()
    relay.says(f"syc: 71 Read at {port}")
    send_all(port, messages(1, 100))
    room.holds("audit.log", messages(101))
    relay.stops_with(totals(101, 0, 0, ("audit", 101, 101, 0, 0)), [f"syc: 71 Read at {port}"])


@test
def reset_at_once(room):
    relay, port = room.hub()
    for _ in range(300):
        Sender(port).reset()
    relay.rests(port)
    send_all(port, messages(5))
    room.holds("audit.log", messages(5))
    relay.rests(port)
    same("totals", relay.stop(), totals(5, 0, 0, ("audit", 5, 5, 0, 0)))
    same("faults", set(relay.faults()) <= {f"syc: 71 Read at {port}"}, True)


@test
def reset_within_a_frame(room):
    relay, port = room.hub()
    sender = Sender(port).send_bytes(frames(messages(10)) + b"100 <34>1 - -")
    room.holds("audit.log", messages(10))
    sender.reset()
    relay.says(f"syc: 71 Read at {port}")
    relay.stops_with(totals(10, 0, 0, ("audit", 10, 10, 0, 0)), [f"syc: 71 Read at {port}"])


@test
def byte_by_byte(room):
    relay, port = room.hub()
    senders = [Sender(port) for _ in range(3)]
    for number in range(3):
        for at in range(len(frame(message(number)))):
            for connection, sender in enumerate(senders):
                text = frame(message(number, connection=connection))
                sender.send_bytes(text[at:at + 1])
            until("the relay reads each byte", lambda: is_read(port))
        room.has("audit.log", 3 * number + 3)
        same("messages so far", sorted(room.lines("audit.log")),
             sorted(message(it, connection=connection) for it in range(number + 1) for connection in range(3)))
    for it in senders:
        it.end()
    relay.stops_with(totals(9, 0, 0, ("audit", 9, 9, 0, 0)))


@test
def slow_beside_fast(room):
    relay, port = room.hub()
    slow = [Sender(port).send_bytes(frame(message("slow", connection=it))[:7 + it]) for it in range(20)]
    send_all(port, messages(20_000))
    room.holds("audit.log", messages(20_000))
    for connection, sender in enumerate(slow):
        sender.send_bytes(frame(message("slow", connection=connection))[7 + connection:])
        sender.end()
    count = 20_020
    room.has("audit.log", count)
    relay.stops_with(totals(count, 0, 0, ("audit", count, count, 0, 0)))
    same("slow lines", sorted(room.lines("audit.log")[20_000:]), sorted(message("slow", connection=it) for it in range(20)))


@test
def frames_cut_everywhere(room):
    relay, port = room.hub()
    data = frames(messages(60))
    sender = Sender(port)
    for size in (1, 2, 3, 5, 7, 11, 23, 59):
        for at in range(0, len(data), size * 7):
            sender.send_bytes(data[at:at + size * 7])
    sender.end()
    room.holds("audit.log", messages(60) * 8)
    relay.stops_with(totals(480, 0, 0, ("audit", 480, 480, 0, 0)))


@test
def senders_that_come_and_go(room):
    relay, port = room.hub()
    pumps = [Pump(port, it) for it in range(4)]
    until("all are served", lambda: all(b" c%d n" % it in room.read("audit.log") for it in range(4)))
    for it in pumps:
        it.end()
    relay.rests(port)
    taken = len(room.lines("audit.log"))
    came = relay.stop()
    same("totals", came, totals(taken, 0, 0, ("audit", taken, taken, 0, 0)))
    for connection, numbers in places(room.lines("audit.log")).items():
        if numbers != list(range(len(numbers))):
            raise Failure(f"connection {connection}: the archive has other messages than its first {len(numbers)}")


def timer_of(port):
    """The timers of the host's connections that are established at a port (proc(5)): 2 is that of keep-alive."""
    with open("/proc/net/tcp", encoding="ascii") as it:
        rows = [line.split() for line in it][1:]
    return [row[5].split(":")[0] for row in rows if int(row[1].split(":")[1], 16) == port and row[3] == "01"]


@test
def keep_alive_that_is_given(room):
    ports = room.port(), room.port()
    more = ' keepAlive="off"'
    room.site({"hub": module() + imtcp(ports[0]) + imtcp(ports[1]).replace(")", more + ")") + omfile("audit", "audit.log")},
              f"entry hub {ports[0]}", f"entry hub {ports[1]}", "protect auth.* hub audit")
    relay = room.start("hub", *ports)
    senders = [Sender(port).send(*messages(1, at)) for at, port in enumerate(ports)]
    room.has("audit.log", 2)
    until("a timer asks one peer whether it is there, and the other not", lambda: (timer_of(ports[0]), timer_of(ports[1])) == (["02"], ["00"]))
    for sender in senders:
        sender.end()
    relay.stops_with(totals(2, 0, 0, ("audit", 2, 2, 0, 0)))


@test
def most_connections_by_the_module_and_by_an_input(room):
    ports = room.port(), room.port()
    loaded = module().replace(")", ' maxSessions="3")')
    room.site({"hub": loaded + imtcp(ports[0]).replace(")", ' MaxSessions="1")') + imtcp(ports[1]) + omfile("audit", "audit.log")},
              f"entry hub {ports[0]}", f"entry hub {ports[1]}", "protect auth.* hub audit")
    relay = room.start("hub", *ports)
    first = [Sender(ports[0]).send(*messages(1, at)) for at in range(2)]
    second = [Sender(ports[1]).send(*messages(1, 10 + at)) for at in range(4)]
    # (the second and the fifth wait with their host)
    room.has("audit.log", 4)
    relay.says(f"syc: as many connections are open as may be at {ports[0]}")
    relay.says(f"syc: as many connections are open as may be at {ports[1]}")
    same("lines", len(room.lines("audit.log")), 4)
    for sender in (first[0], second[0]):
        sender.end()
    room.has("audit.log", 6)
    relay.says(f"syc: connections are accepted again at {ports[0]}")
    for sender in (first[1], *second[1:]):
        sender.end()
    relay.stops_with(totals(6, 0, 0, ("audit", 6, 6, 0, 0)))

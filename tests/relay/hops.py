"""Messages over one and two relays."""

import shutil
import subprocess

from archives import Pipe
from control import DRAIN, asked
from peers import Pump, Sender, frame, message, messages, send_all, send_side_by_side, split
from room import ANY, WAIT, Failure, LeftOut, imtcp, main_queue, module, omfile, omfwd, same, test, totals, until

COUNT = 100_000
# The queue of an entry that waits before it is full, and discards nothing.
QUEUE = ('ruleset(name="out" queue.type="LinkedList" queue.size="{}" queue.fullDelayMark="{}" '
         'queue.discardSeverity="8") {{\n{}}}\n')


def two_relays(room, size, interval=30, words=()):
    """Starts edge and hub, which are accepted, and hub with these words more; answers both and edge's port."""
    entry, inner = room.port(), room.port()
    edge = module() + imtcp(entry, ruleset="out") + QUEUE.format(size, size * 9 // 10, omfwd("up", "hub", inner, -1, interval))
    room.site({"edge": edge, "hub": module() + imtcp(inner) + omfile("audit", "audit.log")},
              f"entry edge {entry}", "protect auth.* hub audit")
    hub = room.start("hub", inner, words=["site", "hub", *words])
    return room.start("edge", entry), hub, entry


def over_two_relays(room, size, connections):
    """Each message once, byte for byte, those of a connection in their order, and both relays' totals."""
    edge, hub, port = two_relays(room, size)
    lists = [messages(COUNT // connections, connection=it, text="a" * (it * 7 % 200)) for it in range(connections)]
    bytes_wanted = sum(len(it) + 1 for texts in lists for it in texts)
    send_side_by_side(port, lists)
    until("the archive has all messages", lambda: room.size("audit.log") >= bytes_wanted,
          came=lambda: f"{room.size('audit.log')} of {bytes_wanted} bytes")
    edge.stops_with(totals(COUNT, 0, 0, ("up", COUNT, COUNT, 0, 0)))
    hub.stops_with(totals(COUNT, 0, 0, ("audit", COUNT, COUNT, 0, 0)))
    came = {it: [] for it in range(connections)}
    for line in room.lines("audit.log"):
        came[int(line.split(b" ")[7][1:])].append(line)
    for it in range(connections):
        if came[it] != lists[it]:
            at = next((i for i, pair in enumerate(zip(came[it], lists[it])) if pair[0] != pair[1]), len(came[it]))
            raise Failure(f"connection {it}: {len(came[it])} lines for {len(lists[it])} messages, other ones from {at} on: "
                          f"wanted {lists[it][at:at + 1]}, came {came[it][at:at + 1]}")


@test(limit=3600)
def two_hops_over_one_connection(room):
    over_two_relays(room, 50_000, 1)


@test(limit=3600)
def two_hops_over_eight_connections(room):
    over_two_relays(room, 50_000, 8)


@test(limit=3600)
def two_hops_through_a_short_queue(room):
    over_two_relays(room, 100, 2)


@test
def four_workers_over_one_link(room):
    entry, inner, count = room.port(), room.port(), 20_000
    room.site({"edge": module() + main_queue(size=5000, dequeueBatchSize=50, workerThreads=4) + imtcp(entry)
               + omfwd("up", "hub", inner), "hub": module() + imtcp(inner) + omfile("audit", "audit.log")},
              f"entry edge {entry}", "protect auth.* hub audit")
    hub, edge = room.start("hub", inner), room.start("edge", entry)
    texts = messages(count, text="a" * 50)
    send_all(entry, texts)
    room.has("audit.log", count)
    edge.stops_with(totals(count, 0, 0, ("up", count, count, 0, 0)))
    hub.stops_with(totals(count, 0, 0, ("audit", count, count, 0, 0)))
    if sorted(room.lines("audit.log")) != sorted(texts):
        raise Failure("the archive has other lines than the messages")


@test
def logger_as_a_sender(room):
    if shutil.which("logger") is None:
        raise LeftOut("there is no logger (package bsdutils)")
    relay, port = room.hub()
    texts = ["a single text with äöü"] + [f"text {it} {'a' * (it % 300)}" for it in range(4999)]
    room.write("texts", "".join(f"{it}\n" for it in texts[1:]))
    command = ["logger", "--rfc5424", "--tcp", "--octet-count", "-n", "127.0.0.1", "-P", str(port), "-p", "auth.crit", "-t", "tests"]
    subprocess.run([*command, texts[0]], check=True, timeout=WAIT)
    # (it doesn't wait until it was read, and the next one has another connection)
    room.has("audit.log", 1)
    subprocess.run([*command, "-f", room.path("texts")], check=True, timeout=WAIT)
    room.has("audit.log", 5000)
    relay.stops_with(totals(5000, 0, 0, ("audit", 5000, 5000, 0, 0)))
    lines = [it.decode() for it in room.lines("audit.log")]
    same("lines", len(lines), 5000)
    for line, text in zip(lines, texts):
        if not (line.startswith("<34>1 2") and " tests - - [timeQuality " in line and line.endswith(f"] {text}")):
            raise Failure(f"wanted a line of auth.crit, tests and {text!r}, came {line!r}")


@test
def two_inputs_with_rulesets_and_tests(room):
    first, second = room.port(), room.port()
    one = 'ruleset(name="one") {\n  if prifilt("mail.*") then { ' + omfile("mail", "mail.log") + ' stop }\n' \
        + omfile("rest", "rest.log") + "}\n"
    two = 'ruleset(name="two") {\n  if $msg contains "twice" then call one\n' + omfile("two", "two.log") + "}\n"
    room.site({"hub": module() + imtcp(first, ruleset="one") + imtcp(second, "off", "two") + one + two})
    relay = room.start_unchecked("hub", first, second)
    mails, others = messages(20, pri=18), messages(30, pri=34)
    send_all(first, mails + others)
    twice = [message(1, "twice", 18), message(2, "once", 18), message(3, "twice", 34)]
    send_all(second, twice)
    room.holds("two.log", [twice[1], twice[2]])
    room.holds("mail.log", mails + [twice[0]])
    room.holds("rest.log", others + [twice[2]])
    # (a stop in a called ruleset ends all of the list)
    relay.stops_with(totals(53, 0, 0, ("mail", 21, 21, 0, 0), ("rest", 31, 31, 0, 0), ("two", 2, 2, 0, 0)))


@test
def widest_relay(room):
    # 64 inputs, 256 archives, and 256 workers: one of the main queue, the others of four rulesets
    ports, text = [room.port() for _ in range(64)], ""
    for queue in range(4):
        text += f'ruleset(name="r{queue}" queue.type="LinkedList" queue.workerThreads="{63 + (queue > 0)}") {{\n'
        text += "".join(omfile(f"a{it}", f"a{it}.log") for it in range(64 * queue, 64 * queue + 64)) + "}\n"
    room.site({"hub": module() + "".join(imtcp(port, ruleset=f"r{it % 4}") for it, port in enumerate(ports)) + text})
    relay = room.start_unchecked("hub", *ports)
    for it, port in enumerate(ports):
        send_all(port, messages(5, connection=it))
    for it in range(256):
        room.has(f"a{it}.log", 80)
    relay.stops_with(totals(320, 0, 0, *((f"a{it}", 80, 80, 0, 0) for it in range(256))))
    room.ports_are_free(*ports)


@test
def longest_and_odd_messages(room):
    edge, hub, port = two_relays(room, 100)
    head = b"<34>1 - - - - - - "
    texts = [head + bytes(range(256)) * 3, b"<34>1 - - - - - -", head + b"a" * (65536 - len(head)), head + b"\n\r\0\n",
             b"<191>1 2025-06-01T10:20:30.123456+02:00 web1 app 77 ID [a@1 b=\"\\]\"] \xef\xbb\xbfup", head + b"17 <34>1 - - - - - -"]
    send_all(port, texts)
    room.holds("audit.log", texts)
    edge.stops_with(totals(6, 0, 0, ("up", 6, 6, 0, 0)))
    hub.stops_with(totals(6, 0, 0, ("audit", 6, 6, 0, 0)))


@test
def addresses_of_relays(room):
    entry, inner = room.port(), room.port()
    room.site({"edge": module() + imtcp(entry, ruleset="out") + QUEUE.format(100, 90, omfwd("up", "hub", inner)),
               "hub": module() + imtcp(inner) + omfile("audit", "audit.log")})
    room.write("site", f"relay edge edge.conf 127.0.0.2\nrelay hub hub.conf 127.0.0.3\nentry edge {entry}\nprotect *.* hub audit\n")
    hub, edge = room.start("hub", inner), room.start("edge", entry)
    for port in entry, inner:
        try:
            Sender(port).close()
        except ConnectionRefusedError:
            continue
        raise Failure(f"port {port} takes a connection on 127.0.0.1, where the site file has another address")
    send_all(entry, messages(10), "127.0.0.2")
    room.holds("audit.log", messages(10))
    edge.stops_with(totals(10, 0, 0, ("up", 10, 10, 0, 0)))
    hub.stops_with(totals(10, 0, 0, ("audit", 10, 10, 0, 0)))


@test
def hub_stopped_in_order_and_restarted(room):
    edge, hub, port = two_relays(room, 1000)
    inner = int(room.read("edge.conf").split(b'target="hub" port="')[1].split(b'"')[0])
    sender = Sender(port)
    for turn in range(3):
        sender.send(*messages(50, turn * 50))
        room.holds("audit.log", messages(turn * 50 + 50))
        hub.stops_with(totals(50, 0, 0, ("audit", 50, 50, 0, 0)))
        hub = room.start("hub", inner)
    sender.end()
    edge.stops_with(totals(150, 0, 0, ("up", 150, 150, 0, 0)))
    hub.stops_with(totals(0, 0, 0, ("audit", 0, 0, 0, 0)))


@test(limit=3600)
def hub_restarted_in_order_under_load(room):
    # (hub reads on for so long that edge looks meanwhile, and ends its link, also where two seconds don't do for that)
    edge, hub, port = two_relays(room, 1000, 0, DRAIN)
    inner = int(room.read("edge.conf").split(b'target="hub" port="')[1].split(b'"')[0])
    pump, held = Pump(port, 0, "a" * 100), 0
    for _ in range(3):
        room.has("audit.log", room.count("audit.log") + 3000)
        held += int(hub.stop().split()[5])
        hub = room.start("hub", inner, words=["site", "hub", *DRAIN])
    room.has("audit.log", room.count("audit.log") + 3000)
    pump.finish()
    edge.rests(port)
    hub.rests(inner)
    edge.stops_with(totals(pump.sent, 0, 0, ("up", pump.sent, pump.sent, 0, 0)))
    hub.stop()
    numbers = [int(it.split(b" ")[8][1:]) for it in room.lines("audit.log")]
    # each once and in order, but for what a hub held as it was stopped
    same("messages that came twice or in another order", numbers == sorted(set(numbers)), True)
    same("messages in the archive or held", len(numbers) + held, pump.sent)


BUFFERS = 12_000_000  # bytes that the buffers of a link may hold, whatever the host's settings usually are


@test
def hub_restarted_in_order_while_it_is_held(room):
    entry, inner = room.port(), room.port()
    edge = module() + imtcp(entry, ruleset="out") + QUEUE.format(1000, 900, omfwd("up", "hub", inner, -1, 0))
    hub_text = module() + main_queue(size=100, fullDelayMark=90) + imtcp(inner) + omfile("audit", "audit.log", -1, 0, ANY)
    room.site({"edge": edge, "hub": hub_text}, f"entry edge {entry}", "protect auth.* hub audit")
    pipe = Pipe(room, reads=False)
    hub = room.start("hub", inner, words=["site", "hub", "--left", "left"])
    edge = room.start("edge", entry)
    pump = Pump(entry, 0, "a" * 1000)
    pump.is_held(edge, hub)
    # (what accepts, what starts readers, and each reader end)
    before = len(hub.threads())
    hub.process.stdin.close()
    until("nothing is accepted and read any more", lambda: len(hub.threads()) <= before - 3, came=hub.threads)
    pipe.reads()
    same("status of hub", hub.ends(), 0)
    held, rest = split(room.read(f"left.{inner}"))
    same("behind the last message that is left", rest, b"")
    hub = room.start("hub", inner)
    pump.finish()
    until("edge has sent all", lambda: asked(edge, 1) == [totals(pump.sent, 0, 0, ("up", pump.sent, pump.sent, 0, 0))], came=edge.errors)
    edge.stop()
    hub.rests(inner)
    hub.stop()
    lines = bytes(pipe.came).split(b"\n")[:-1]
    found = [int(it.split(b" ")[8][1:]) for it in lines + held]
    same("messages that came twice", len(found) - len(set(found)), 0)
    same("messages in another order", lines == sorted(lines, key=lambda it: int(it.split(b" ")[8][1:])), True)
    # (what the hub had not read as it ended stood in socket buffers: one run of messages, behind those that it held)
    missing = sorted(set(range(pump.sent)) - set(found))
    same("runs that are missing", missing, missing and list(range(missing[0], missing[-1] + 1)))
    if len(missing) * len(frame(message(0, "a" * 1000))) > BUFFERS:
        raise Failure(f"{len(missing)} messages are missing, more than socket buffers hold")


@test
def single_messages_go_out_at_once(room):
    relay, port = room.hub()
    sender = Sender(port)
    for number in range(20):
        sender.send(message(number))
        room.holds("audit.log", messages(number + 1))
    sender.end()
    relay.stops_with(totals(20, 0, 0, ("audit", 20, 20, 0, 0)))

"""What a relay leaves when it stops: what it still held, what it had read and not taken, and what it hadn't read."""

import os
import re
import select
import socket
import subprocess
import threading
import time

from control import edge, is_free
from peers import Receiver, Sender, frame, frames, message, messages, places, send_all, split
from room import Failure, Relay, imtcp, main_queue, module, omfile, omfwd, same, test, totals, until
from statuses import hub_files


def left_by(room, name, wanted):
    """The frames of a file, which have to be those of these messages, as `syc pass` reads them too."""
    same(name, room.read(name), frames(wanted))
    with open(room.path(name), "rb") as it:
        passed = subprocess.run([room.program, "pass"], stdin=it, stdout=subprocess.PIPE, stderr=subprocess.PIPE, check=False)
    same(f"syc pass of {name}", (passed.returncode, passed.stdout, passed.stderr), (0, b"".join(it + b"\n" for it in wanted), b""))


def files(room, name="left"):
    return sorted(it for it in os.listdir(room.folder) if it.startswith(name))


def told(relay, port):
    """What a relay told that it left of an input: whole frames that it had read, connections with a part of one, and the connections
    and bytes that it hadn't read."""
    taken = re.search(rf"^syc: input {port} not taken at the stop: (\d+) frames, and a part of one from (\d+) connections$", relay.errors(), re.M)
    unread = re.search(rf"^syc: input {port} unread at the stop: (\d+) connections, (\d+) bytes or more$", relay.errors(), re.M)
    return tuple(map(int, (taken.groups() if taken else (0, 0)) + (unread.groups() if unread else (0, 0))))


def counts(relay):
    return tuple(map(int, re.match(r"taken (\d+) lost (\d+) held (\d+)\n", relay.output()).groups()))


# ---- what it held

@test
def left_while_the_receiver_is_down(room):
    relay, port, inner = edge(room, ["--left", "left"], dequeueBatchSize=8)
    sent = [message(it, "x" * (it * 37 % 400)) for it in range(300)]
    send_all(port, sent)
    # (it has its batch then)
    relay.says("syc: action up fails: connection refused")
    relay.stops_with(totals(300, 0, 300, ("up", 8, 0, 0, 8)))
    left_by(room, f"left.{port}", sent)
    same("files", files(room), [f"left.{port}"])
    again = room.start("edge", port, words=["site", "edge", "--unchecked"])
    receiver = Receiver(inner)
    Sender(port).send_bytes(room.read(f"left.{port}")).end()
    receiver.has(sent)
    again.stops_with(totals(300, 0, 0, ("up", 300, 300, 0, 0)))


@test
def left_of_connections_in_their_order(room):
    relay, port, inner = edge(room, ["--left", "left"], dequeueBatchSize=8, workerThreads=4, workerThreadMinimumMessages=1)
    senders = [Sender(port) for _ in range(5)]
    for number in range(60):
        for connection, it in enumerate(senders):
            it.send(message(number, connection=connection))
    for it in senders:
        it.end()
    relay.says("syc: action up fails: connection refused")
    relay.stop()
    found, rest = split(room.read(f"left.{port}"))
    same("behind the last frame", rest, b"")
    same("messages of each connection", places(found), {it: list(range(60)) for it in range(5)})


@test
def left_beside_earlier_files(room):
    port = room.port()
    earlier = [f"left.{port}", f"left.{port}.1.new", f"left.{port}.2"]
    relay, port, inner = edge(room, ["--left", "left"])
    earlier = [f"left.{port}", f"left.{port}.1.new", f"left.{port}.2"]
    for it in earlier:
        room.write(it, "an earlier one, which is longer than what comes")
    send_all(port, messages(1))
    relay.says("syc: action up fails: connection refused")
    relay.stops_with(totals(1, 0, 1, ("up", 1, 0, 0, 1)))
    left_by(room, f"left.{port}.3", messages(1))
    for it in earlier:
        same(it, room.read(it), b"an earlier one, which is longer than what comes")
    same("files", files(room), sorted([*earlier, f"left.{port}.3"]))


@test
def nothing_left_makes_no_file(room):
    port = room.port()
    hub_files(room, port)
    relay = room.start("hub", port, words=["site", "--left", "left", "hub"])
    send_all(port, messages(3))
    room.holds("audit.log", messages(3))
    relay.rests(port)
    relay.stops_with(totals(3, 0, 0, ("audit", 3, 3, 0, 0)))
    same("files", files(room), [])


@test
def three_stops_with_the_receiver_away(room):
    relay, port, inner = edge(room, ["--left", "left"])
    for turn in range(3):
        if turn:
            relay = room.start("edge", port, words=["--unchecked", "--left", "left", "site", "edge"])
        send_all(port, messages(40, 40 * turn))
        relay.says("syc: action up fails: connection refused")
        same("counts", (relay.stop(), counts(relay))[1], (40, 0, 40))
    names = [f"left.{port}", f"left.{port}.1", f"left.{port}.2"]
    same("files", files(room), names)
    same("all that was sent", b"".join(map(room.read, names)), frames(messages(120)))


@test
def inputs_each_with_a_file_of_its_own(room):
    one, other, inner, further = (room.port() for _ in range(4))
    text = module()
    for name, port, to in (("auth", one, inner), ("access", other, further)):
        text += f'ruleset(name="{name}") {{\n{omfwd(name, name + "_hub", to, -1, 0)}}}\n{imtcp(port, ruleset=name)}'
    hubs = {f"{name}_hub": module() + imtcp(port) + omfile("audit", f"{name}.log") for name, port in (("auth", inner), ("access", further))}
    room.site({"edge": text, **hubs})
    words = ["--unchecked", "--left", "left", "site", "edge"]
    relay = room.start("edge", one, other, words=words)
    sent = {port: messages(50, connection=port) for port in (one, other)}
    for port in (one, other):
        send_all(port, sent[port])
    relay.says("syc: action auth fails: connection refused")
    same("counts", (relay.stop(), counts(relay))[1], (100, 0, 100))
    for port in (one, other):
        left_by(room, f"left.{port}", sent[port])
    relay = room.start("edge", one, other, words=words)
    auth, access = (room.start_unchecked(f"{name}_hub", port) for name, port in (("auth", inner), ("access", further)))
    for port in (one, other):
        Sender(port).send_bytes(room.read(f"left.{port}")).end()
    room.holds("auth.log", sent[one])
    room.holds("access.log", sent[other])
    for it in (relay, auth, access):
        it.stop()


@test
def message_that_is_left_at_two_places(room):
    port, inner = room.port(), room.port()
    text = (module() + f'ruleset(name="later" queue.type="LinkedList") {{\n{omfwd("up", "hub", inner, -1, 30)}}}\n'
            + imtcp(port) + "call later\n" + omfwd("too", "hub", inner, -1, 30))
    room.site({"edge": text, "hub": module() + imtcp(inner) + omfile("audit", "audit.log")})
    relay = room.start("edge", port, words=["--unchecked", "site", "edge", "--left", "left"])
    send_all(port, messages(1))
    relay.rests(port)
    relay.stop()
    left_by(room, f"left.{port}", messages(1) * 2)


# ---- what it had read and not taken

def held_relay(room, words=("--left", "left")):
    """A relay that is held soon, as its receiver is down."""
    return edge(room, words, 30, size=100, fullDelayMark=90, dequeueBatchSize=8)


def stopped_held(relay, port):
    """Stops a relay once it is held; answers what it held."""
    relay.says(f"syc: input {port} held: full-delay mark")
    relay.stop()
    taken, lost, held = counts(relay)
    same("lost", lost, 0)
    return held


def begins_with_what_is_left(room, relay, port, held, sent):
    """What is left has to be the first of these messages, and what is told has to be all behind them."""
    whole, parts, connections, unread = told(relay, port)
    found, rest = split(room.read(f"left.{port}"))
    same("behind the last frame", rest, b"")
    same("what is left", found, sent[:len(found)])
    same("held and not taken", held + whole, len(found))
    gone = len(frames(sent[len(found):]))
    if gone and not (parts or unread) or unread > gone or not unread and gone > len(frames(sent[len(found):len(found) + 1])):
        raise Failure(f"{gone} bytes are missing, and told are {parts} parts and {unread} bytes of {connections} connections")


@test
def frames_that_were_read_and_not_taken(room):
    relay, port, inner = held_relay(room)
    sent = messages(1000)
    sender = Sender(port).send(*sent).half_close()
    held = stopped_held(relay, port)
    begins_with_what_is_left(room, relay, port, held, sent)
    sender.is_ended()


@test
def frames_that_were_not_taken_and_are_not_kept(room):
    relay, port, inner = held_relay(room, ())
    sender = Sender(port).send(*messages(200)).half_close()
    held = stopped_held(relay, port)
    whole, parts, connections, unread = told(relay, port)
    if held + whole != 200 and not (parts or unread):
        raise Failure(f"{held} are held, {whole} are told, and 200 were sent")
    same("files", files(room), [])
    sender.is_ended()


@test
def parts_of_frames_are_counted(room):
    relay, port, inner = edge(room, ["--left", "left"], 30)
    senders = [Sender(port).send_bytes(frame(message(0, connection=it)) + frame(message(1))[:10 + it]) for it in range(3)]
    relay.says("syc: action up fails: connection refused")
    relay.rests(port)
    relay.stop()
    same("counts", counts(relay), (3, 0, 3))
    same("told", told(relay, port), (0, 3, 0, 0))
    same("messages of each connection", places(split(room.read(f"left.{port}"))[0]), {it: [0] for it in range(3)})
    for it in senders:
        it.is_ended()


@test
def frames_of_no_message_among_them_are_kept_as_they_are(room):
    relay, port, inner = held_relay(room)
    sent = [it if number % 3 else b"no message %d" % number for number, it in enumerate(messages(1000))]
    sender = Sender(port).send(*sent).half_close()
    held = stopped_held(relay, port)
    whole = told(relay, port)[0]
    found, rest = split(room.read(f"left.{port}"))
    same("behind the last frame", rest, b"")
    same("held and not taken", held + whole, len(found))
    same("what was held", found[:held], [it for number, it in enumerate(sent) if number % 3][:held])
    at = sent.index(found[held - 1]) + 1
    same("what wasn't taken", [it for it in found[held:] if it.startswith(b"<")], [it for it in sent[at:] if it.startswith(b"<")][:len([it for it in found[held:] if it.startswith(b"<")])])
    if not any(it.startswith(b"no message") for it in found[held:]):
        raise Failure("none of the frames that carry no message is there")
    sender.is_ended()


# ---- what it hadn't read

@test
def bytes_that_were_not_read_are_told(room):
    relay, port, inner = held_relay(room)
    sent = messages(8000, text="x" * 500)
    sender = Sender(port)
    sender.socket.setblocking(False)
    data, gone = frames(sent), 0

    def is_full():
        nonlocal gone
        try:
            gone += sender.socket.send(data[gone:gone + 65536])
        except BlockingIOError:
            return True
        return gone >= len(data)
    until("the relay reads no more", is_full)
    held = stopped_held(relay, port)
    whole, parts, connections, unread = told(relay, port)
    found, rest = split(room.read(f"left.{port}"))
    same("behind the last frame", rest, b"")
    same("what is left", found, sent[:len(found)])
    same("held and not taken", held + whole, len(found))
    if connections != 1 or not 0 < unread <= gone - len(frames(found)):
        raise Failure(f"{gone} bytes were sent, {len(frames(found))} are left, told are {unread} of {connections} connections")
    sender.close()


# ---- senders that look

class Looking:
    """A sender that ends its side as soon as the relay has ended its own, and sends nothing more then."""

    def __init__(self, port, connection):
        self.sender, self.sent, self.connection = Sender(port), 0, connection
        self.sender.socket.setsockopt(socket.SOL_SOCKET, socket.SO_SNDBUF, 16384)
        self.thread = threading.Thread(target=self.run, daemon=True)
        self.thread.start()

    def is_ended(self):
        return bool(select.select([self.sender.socket], [], [], 0)[0])

    def run(self):
        try:
            while not self.is_ended():
                self.sender.send(*messages(20, self.sent, connection=self.connection))
                self.sent += 20
            self.sender.socket.close()
        except OSError:
            pass


class Slow(Receiver):
    """A receiver that takes so many bytes 50 times a second."""

    def __init__(self, port, size):
        self.size = size
        super().__init__(port, small=True)

    def read(self, connection, into):
        try:
            while data := connection.recv(self.size):
                into += data
                time.sleep(0.02)
        except OSError:
            pass


def stands(number):
    """Whether a number stays what it is, half a second long."""
    before, end = number(), time.monotonic() + 0.5
    while number() == before and time.monotonic() < end:
        time.sleep(0.01)
    return number() == before


def stopped_under_load(room, drain, size, is_stuck):
    """A relay that is held by a slow receiver, with eight senders that look, is stopped; answers it, its port, the senders and the receiver."""
    relay, port, inner = edge(room, ["--drain", drain, "--left", "left"], size=2000, fullDelayMark=1800)
    receiver = Slow(inner, size)
    senders = [Looking(port, it) for it in range(8)]
    relay.says(f"syc: input {port} held: full-delay mark")
    if is_stuck:
        until("the senders are stuck", lambda: stands(lambda: sum(it.sent for it in senders)))
    relay.process.stdin.close()
    same("status", relay.ends(500), 0)
    for it in senders:
        it.thread.join(60)
    return relay, port, senders, receiver


@test(limit=3600)
def senders_that_look_lose_nothing(room):
    relay, port, senders, receiver = stopped_under_load(room, "86400", 2000, False)
    taken, lost, held = counts(relay)
    same("lost", lost, 0)
    same("told", told(relay, port), (0, 0, 0, 0))
    kept = split(room.read(f"left.{port}"))[0] if files(room) else []
    wanted = {it.connection: list(range(it.sent)) for it in senders}
    until("all arrives", lambda: len(receiver.messages()) + len(kept) >= sum(it.sent for it in senders),
          came=lambda: len(receiver.messages()))
    same("what arrived or is left", {it: sorted(found) for it, found in places(receiver.messages() + kept).items()}, wanted)


@test(limit=3600)
def what_is_told_adds_up(room):
    relay, port, senders, receiver = stopped_under_load(room, "1", 100, True)
    taken, lost, held = counts(relay)
    same("lost", lost, 0)
    whole, parts, connections, unread = told(relay, port)
    kept = split(room.read(f"left.{port}"))[0]
    same("kept", len(kept), held + whole)
    missing = sum(it.sent for it in senders) - (taken + whole)
    # (a sender's last pieces may never have left its own buffers)
    if missing and not (connections and unread) or unread > missing * len(frame(message(0, connection=0))) * 2:
        raise Failure(f"{missing} messages are missing, and {unread} bytes are told of {connections} connections")


# ---- where nothing can be left

def refused(room, words, line):
    port, inner = room.port(), room.port()
    room.site({"edge": module() + main_queue() + imtcp(port) + omfwd("up", "hub", inner, -1), "hub": module() + imtcp(inner) + omfile("audit", "audit.log")})
    relay = Relay(room, "edge", ["--unchecked", *words, "site", "edge"])
    same("status", relay.ends(), 4)
    same("faults", relay.errors(), f"syc: left file {line}\n")
    same("totals", relay.output(), "")


@test
def left_in_a_folder_that_is_not_there(room):
    refused(room, ["--left", "none/left"], "none/left: no such folder")


@test
def left_where_a_symbolic_link_is(room):
    os.symlink("elsewhere", room.path("left"))
    refused(room, ["--left", "left"], "left: a symbolic link")
    os.symlink("elsewhere", room.path("other.new"))
    refused(room, ["--left", "other"], "other: a symbolic link")


@test
def left_in_a_folder_that_is_not_writable(room):
    os.mkdir(room.path("shut"))
    os.chmod(room.path("shut"), 0o555)
    if os.access(room.path("shut"), os.W_OK):
        return  # (the superuser may write there)
    refused(room, ["--left", "shut/left"], "shut/left: permission denied")


# ---- standard input

@test
def standard_input_that_has_nothing(room):
    port = room.port()
    hub_files(room, port)
    relay = Relay(room, "hub", ["site", "hub"], stdin=subprocess.DEVNULL)
    same("status", relay.ends(), 0)
    relay.says("syc: standard input is at its end: nothing keeps the relay running; see syc-run")
    until("the port is free", lambda: is_free(port))

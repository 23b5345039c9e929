"""Connections that share a reader: what one sends, or doesn't send, mixes with nothing of the others and holds none of them up."""

import ctypes
import itertools
import multiprocessing
import os
import random
import socket
import statistics
import threading
import time

import unread
import unread_inputs
from crowd import arrived, connected, document, said, taken
from left import told
from peers import Sender, frame, frames, message, messages, send_all, split
from room import Failure, LeftOut, imtcp, is_read, module, omfile, same, shown, test, totals, until
from writes import answered, answering, needs_strace

TEXT = b"a" * 80


# ---- peers that fall silent

SILENT, IDLE, INTERVAL, PROBES = 70, 60, 10, 6  # connections; and of keep-alive two times in seconds, and how often
KEEPS_ALIVE = "02"  # the timer of /proc/net/tcp (Linux, Documentation/networking/proc_net_tcp)


def timers(port):
    """Of each connection that was accepted at this port the host's timer, and how many seconds it has left."""
    with open("/proc/net/tcp") as it:
        rows = [row.split() for row in it.readlines()[1:]]
    found = [row[5].split(":") for row in rows if int(row[1].split(":")[1], 16) == port and row[3] == "01"]
    return [(timer, int(ticks, 16) / os.sysconf("SC_CLK_TCK")) for timer, ticks in found]


@test
def silent_within_a_frame(room):
    """Peers that send a part of a frame and then nothing hold up no other, and the host asks whether they are still there."""
    relay, port = room.hub()
    senders = connected(relay, port, SILENT)
    whole = [frame(message(0, connection=it)) for it in range(SILENT)]
    parts = [frame(message(1, connection=it, text=TEXT.decode()))[:1 + it] for it in range(SILENT)]
    for sender, text, part in zip(senders, whole, parts):
        sender.send_bytes(text + part)
    room.has("audit.log", SILENT)
    relay.rests(port)
    # (a connection that is new, and one that is as old)
    send_all(port, messages(500, connection=SILENT))
    room.has("audit.log", SILENT + 500)
    senders[0].send_bytes(frame(message(1, connection=0, text=TEXT.decode()))[1:])
    room.has("audit.log", SILENT + 501)
    # (the host may still have the connection that has ended, and one that has just read has another timer for a moment)
    timed = lambda: [0 <= left <= IDLE for timer, left in timers(port) if timer == KEEPS_ALIVE]
    until(f"a timer of keep-alive of at most {IDLE} s for each of {SILENT} connections", lambda: timed() == [True] * SILENT,
          came=lambda: timers(port))
    relay.stops_with(taken(SILENT + 501))
    same("what is told at the stop", told(relay, port), (0, SILENT - 1, 0, 0))
    arrived(room, "audit.log", [messages(1) + messages(1, 1, text=TEXT.decode()),
                                *(messages(1, connection=it) for it in range(1, SILENT)), messages(500, connection=SILENT)])


PIDFD_GETFD = 438  # a system call of Linux 5.6, which duplicates a descriptor of another process
LIBC = ctypes.CDLL(None, use_errno=True)


def sockets_of(relay):
    """The sockets that a relay has, as this process has them then."""
    process = os.pidfd_open(relay.pid)
    for number in os.listdir(f"/proc/{relay.pid}/fd"):
        if os.readlink(f"/proc/{relay.pid}/fd/{number}").startswith("socket:"):
            copy = LIBC.syscall(PIDFD_GETFD, process, int(number), 0)
            if copy < 0:
                raise LeftOut(f"a descriptor of the relay can't be had: {os.strerror(ctypes.get_errno())}")
            with socket.socket(fileno=copy) as it:
                yield it
    os.close(process)


@test
def silent_peers_are_asked(room):
    """Keep-alive of an accepted connection: after 60 s the host asks, and then six times, 10 s apart."""
    relay, port = room.hub()
    senders = connected(relay, port, 3)
    wanted = [(socket.SOL_SOCKET, socket.SO_KEEPALIVE), (socket.IPPROTO_TCP, socket.TCP_KEEPIDLE),
              (socket.IPPROTO_TCP, socket.TCP_KEEPINTVL), (socket.IPPROTO_TCP, socket.TCP_KEEPCNT)]
    found = [[it.getsockopt(*option) for option in wanted] for it in sockets_of(relay)
             if it.family == socket.AF_INET and not it.getsockopt(socket.SOL_SOCKET, socket.SO_ACCEPTCONN)]
    same("keep-alive, its two times and its probes", found, [[1, IDLE, INTERVAL, PROBES]] * 3)
    for it in senders:
        it.end()
    relay.stops_with(taken(0))


# ---- one beside many that flood

FLOODING, SLOW, EACH = 20, 100, 0.02  # connections, messages, and seconds between two messages
BEHIND = 500_000  # messages that are taken before one that was sent before them, in the median at most: ten times what a queue has


def flood(port, answer, end):
    """Sends the same messages over many connections without end, until there is something to read; answers how many it sent."""
    counts, block, is_over = [0] * FLOODING, frames([b"<34>1 - - - - - - " + TEXT] * 500), threading.Event()

    def run(connection):
        sender = Sender(port)
        while not is_over.is_set():
            sender.send_bytes(block)
            counts[connection] += 500
        sender.end()

    threads = [threading.Thread(target=run, args=(it,), daemon=True) for it in range(FLOODING)]
    for it in threads:
        it.start()
    end.recv()
    is_over.set()
    for it in threads:
        it.join()
    answer.send(sum(counts))


@test
def one_beside_twenty_that_flood(room):
    """Beside connections that send without end one that sends little gets its messages through, each before many others."""
    port, took, behind = room.port(), [], []
    room.site({"hub": module() + imtcp(port) + f'if prifilt("mail.*") then {{ {omfile("slow", "slow.log")} stop }}\n'
               + omfile("flood", "/dev/null")})
    relay = room.start_unchecked("hub", port)
    (answer, theirs), (begins, end) = multiprocessing.Pipe(False), multiprocessing.Pipe(False)
    # (in a process of its own, so that it floods while this one waits)
    multiprocessing.get_context("fork").Process(target=flood, args=(port, theirs, begins), daemon=True).start()
    until("they flood", lambda: relay.status_field("Threads") and not is_read(port))
    sender = Sender(port)
    for number in range(SLOW):
        size, before, begun = room.size("slow.log"), document(relay)["taken"], time.monotonic()
        sender.send(message(number, pri=18))
        until(f"message {number} is there", lambda: room.size("slow.log") > size)
        took.append(time.monotonic() - begun)
        behind.append(document(relay)["taken"] - before)
        time.sleep(max(0, begun + EACH - time.monotonic()))
    end.send(True)
    many = answer.recv()
    sender.end()
    until("all is written", lambda: document(relay)["held"] == 0, came=lambda: document(relay))
    relay.stops_with(totals(SLOW + many, 0, 0, ("slow", SLOW, SLOW, 0, 0), ("flood", many, many, 0, 0)))
    room.holds("slow.log", messages(SLOW, pri=18))
    if statistics.median(behind) >= BEHIND:
        raise Failure(f"{statistics.median(behind):.0f} messages were taken while one waited, in the median, and {max(behind)} at most")
    return (f"beside {many} messages one took {statistics.median(took) * 1000:.0f} ms in the median, {max(took) * 1000:.0f} ms at most, "
            f"in which {statistics.median(behind):.0f} others were taken, {max(behind)} at most")


# ---- frames in pieces

def in_pieces(port, senders, streams, sizes):
    """Sends streams, a piece of each in its turn, of these sizes; each piece is read before the next of its connection is sent."""
    at = [0] * len(streams)
    while any(place < len(stream) for place, stream in zip(at, streams)):
        for connection, sender in enumerate(senders):
            size = next(sizes[connection])
            sender.send_bytes(streams[connection][at[connection]:at[connection] + size])
            at[connection] += size
        until("each piece is read", lambda: is_read(port))


def served_in_pieces(room, lists, sizes):
    """A hub that reads connections which send these lists of messages, a piece of each in its turn."""
    relay, port = room.hub()
    senders = connected(relay, port, len(lists))
    in_pieces(port, senders, list(map(frames, lists)), sizes)
    count = sum(map(len, lists))
    room.has("audit.log", count)
    for it in senders:
        it.end()
    relay.stops_with(taken(count))
    same("what is told", said(relay), [])
    arrived(room, "audit.log", lists)


def own(connection, number, size):
    """A message of a connection whose text is of a letter of its own, and looks like a frame."""
    return message(number, connection=connection, text="18 <34>1 - - - - - - " + chr(97 + connection % 26) * size)


@test
def byte_by_byte_in_turn(room):
    """Twelve connections whose frames come byte by byte, a byte of each in its turn."""
    lists = [[own(it, number, it) for number in range(3)] for it in range(12)]
    served_in_pieces(room, lists, [itertools.repeat(1)] * 12)


@test
def cut_at_every_byte(room):
    """For each place of a frame a connection that is cut there, and behind that within the next frame at the same place."""
    size = len(frame(own(10, 0, 30)))
    # (the lengths of all frames are the same, so that each cut moves by none from frame to frame)
    lists = [[own(10 + it, number, 30) for number in range(4)] for it in range(size - 1)]
    lists = [[] for _ in range(10)] + lists
    cuts = [itertools.chain([max(it - 9, 1)], itertools.repeat(size)) for it in range(len(lists))]
    served_in_pieces(room, lists, cuts)


@test
def odd_pieces_in_turn(room):
    """Thirty connections whose frames come in pieces of odd sizes, so that most reads end within a frame."""
    chosen = random.Random(1)
    lists = [[own(it, number, chosen.randrange(300)) for number in range(30)] for it in range(30)]
    served_in_pieces(room, lists, [iter(lambda: chosen.randrange(1, 400), None) for _ in lists])


@test
def longest_frames_in_pieces(room):
    """Ten connections whose frames are the longest, in pieces of which some are longer than a reader takes at once."""
    chosen = random.Random(2)
    size = 65_536 - len(own(0, 0, 0))
    lists = [[own(it, number, size - chosen.randrange(3)) for number in range(6)] for it in range(10)]
    sizes = (1, 7, 1_000, 4_096, 16_383, 65_536, 65_541, 100_000)
    served_in_pieces(room, lists, [iter(lambda: chosen.choice(sizes), None) for _ in lists])


# ---- frames that carry no message

def mixed(connection):
    """What a connection sends: messages, frames that carry none, and two that are too long for one."""
    found = []
    for number in range(6):
        found += [message(number, connection=connection), b"none %d of %d" % (number, connection)]
        found += [b"long %d of %d " % (number, connection) + b"y" * (65_536 + connection)] if number % 3 == 1 else []
    return found


def kept(port, peer, texts):
    """The records of these frames of a peer, of those that carry no message."""
    found = []
    for number, text in enumerate(texts, 1):
        if text.startswith(b"none"):
            found.append(unread.record(port, peer, number, "1 Pri", 0, text))
        elif text.startswith(b"long"):
            found += unread.parts_of(port, peer, number, text[:65_536], len(text))
    return found


@test
def a_hundred_that_send_what_is_no_message(room):
    """A hundred connections that send messages, frames without one and frames that are too long: each is where it belongs, once."""
    relay, (port,) = unread_inputs.hub(room, ["kept"], entry=" whole")
    senders, chosen = connected(relay, port, 100), random.Random(3)
    texts = [mixed(it) for it in range(100)]
    at, streams = [0] * 100, list(map(frames, texts))
    while any(place < len(stream) for place, stream in zip(at, streams)):
        for connection, sender in enumerate(senders):
            size = chosen.choice((1, 100, 10_000, 70_000))
            sender.send_bytes(streams[connection][at[connection]:at[connection] + size])
            at[connection] += size
    peers = [unread.address(it) for it in senders]
    for it in senders:
        it.end()
    same("totals", relay.stop_at_rest(), unread_inputs.done(800, 600))
    arrived(room, "audit.log", [messages(6, connection=it) for it in range(100)])
    found, rest = split(room.read("kept"))
    same("behind the last record", rest, b"")
    of = {peer: [] for peer in peers}
    for it in found:
        of[it.partition(b'peer="')[2].partition(b'"')[0].decode()].append(it)
    for peer, sent in zip(peers, texts):
        same(f"what is kept of {peer}", of[peer], kept(port, peer, sent))


@test
def reads_that_are_interrupted(room):
    """The first, the third, and so on of each reader's reads is interrupted: no connection ends at one, and nothing is lost."""
    needs_strace(room)
    port = room.port()
    room.site({"hub": module() + imtcp(port) + omfile("audit", "audit.log", -1, 0)})
    relay = room.start("hub", port, words=["--unchecked", "site", "hub"], under=answering(room, "recvfrom", "EINTR", "1+2"))
    senders = [Sender(port) for _ in range(8)]
    for number in range(50):
        for connection, it in enumerate(senders):
            it.send(message(number, connection=connection))
        room.has("audit.log", 8 * (number + 1))
    for it in senders:
        it.end()
    relay.stops_with(taken(400))
    if answered(room) < 50:
        raise Failure(f"{answered(room)} reads alone were interrupted")
    arrived(room, "audit.log", [messages(50, connection=it) for it in range(8)])


@test
def others_go_on_while_many_wait_for_the_unread_file(room):
    """Forty connections at once send what can't be kept, more than there are processors; another one is taken all the same."""
    relay, port = unread.hub(room, "/dev/full", words=["--left", "left"])
    waiting = [Sender(port) for _ in range(40)]
    for it in waiting:
        it.send(b"x")
    relay.says("syc: unread file /dev/full fails: no storage space")
    sender = Sender(port)
    for number in range(100):
        sender.send(message(number))
        room.has("audit.log", number + 1)
    sender.end()
    same("totals", relay.stop(), unread.done(100, 0))
    same("what is left", room.read(f"left.{port}"), frames([b"x"] * 40))
    arrived(room, "audit.log", [messages(100)])
    for it in waiting:
        it.close()


@test
def others_go_on_while_the_unread_file_fails(room):
    """A connection whose frame can't be kept waits, and none of forty others does, though they share its reader."""
    relay, port = unread.hub(room, "/dev/full", words=["--left", "left"])
    waits = Sender(port).send(message(0, connection=40), b"x", message(1, connection=40))
    relay.says("syc: unread file /dev/full fails: no storage space")
    senders = [Sender(port) for _ in range(40)]
    for number in range(20):
        for connection, it in enumerate(senders):
            it.send(message(number, connection=connection))
    room.has("audit.log", 801)
    for it in senders:
        it.end()
    same("totals", relay.stop(), unread.done(801, 0))
    same("what is left", room.read(f"left.{port}"), frames([b"x", message(1, connection=40)]))
    arrived(room, "audit.log", [*(messages(20, connection=it) for it in range(40)), messages(1, connection=40)])
    waits.close()

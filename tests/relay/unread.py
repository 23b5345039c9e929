"""Frames that carry no message: they are kept in a file, or dropped, and told either way."""

import os
import re

from archives import lift, limited, with_a_small_disk
from crowd import document
from rotation import answer, asks
from faults import MESSAGE_FAULTS
from peers import Sender, frame, frames, message, messages, send_all, split
from room import imtcp, module, omfile, same, test, totals, until
from statuses import refuses

AUDIT = ("audit", "audit.log")


def address(sender):
    """The address of a sender, as the relay sees it."""
    return "{}:{}".format(*sender.socket.getsockname())


def record(port, peer, number, fault, place, text, part=""):
    """What the unread file has of a frame (RFC 5424: facility 5, severity 4)."""
    said = f'[unread@32473 input="{port}" peer="{peer}" frame="{number}" fault="{fault}" at="{place}"{part}]'
    return f"<44>1 - hub syc - - {said} ".encode() + text


def hub(room, file="unread", limits=None, words=()):
    """A relay that archives all, and keeps frames that carry no message in a file; answers it and its port."""
    port = room.port()
    room.site({"hub": module() + imtcp(port) + omfile(*AUDIT)})
    return room.start("hub", port, words=["--unchecked", "--unread", file, *words, "site", "hub"], limits=limits), port


def done(count, unread, held=0):
    return totals(count, 0, held, ("audit", count, count, 0, 0), unread=unread)


def has(room, wanted, file="unread"):
    """Waits until the file has these records, and nothing else: of one that can't be kept what was written is cut off again."""
    until(f"{file} has {len(wanted)} records alone", lambda: room.size(file) == len(frames(wanted)), came=lambda: room.size(file))
    same(file, room.read(file), frames(wanted))


def asked(relay, text):
    """Asks for the totals until they are these."""
    def come():
        before = relay.errors().count("taken ")
        relay.process.stdin.write(b"status\n")
        relay.process.stdin.flush()
        until("totals come", lambda: relay.errors().count("taken ") > before, came=relay.errors)
        return text in relay.errors().rpartition("taken ")[1] + relay.errors().rpartition("taken ")[2]
    until(f"the totals say {text!r}", come, came=relay.errors)


@test
def each_fault_is_kept_as_it_came(room):
    relay, port = hub(room)
    sender = Sender(port)
    texts = [it for number, fault in enumerate(MESSAGE_FAULTS) for it in (message(number), fault[2])]
    sender.send(*texts)
    wanted = [record(port, address(sender), 2 * number + 2, fault, place, text) for number, (fault, place, text) in enumerate(MESSAGE_FAULTS)]
    has(room, wanted)
    # (they are told, and counted, while it lasts)
    count = len(MESSAGE_FAULTS)
    asked(relay, f"taken {count} lost 0 held 0\nunread {count}\n")
    fault, place, _ = MESSAGE_FAULTS[0]
    relay.says(f"syc: input {port} peer {address(sender)} sends what is no message: {fault} at {place} in frame 2; kept in unread")
    sender.end()
    same("totals", relay.stop_at_rest(), done(count, count))
    found, rest = split(room.read("unread"))
    same("the bytes of each frame", [it.partition(b"] ")[2] for it in found], [text for _, _, text in MESSAGE_FAULTS])


@test
def none_is_told_where_they_are_kept(room):
    relay, port = hub(room)
    send_all(port, messages(3))
    room.holds("audit.log", messages(3))
    same("totals", relay.stop_at_rest(), done(3, 0))
    same("the file", room.read("unread"), b"")


@test
def dropped_without_a_file(room):
    relay, port = room.hub()
    sender = Sender(port).send(b"x", message(0))
    room.holds("audit.log", messages(1))
    relay.says(f"syc: input {port} peer {address(sender)} sends what is no message: 1 Pri at 0 in frame 1; dropped")
    asked(relay, "taken 1 lost 0 held 0\nunread 1\n")
    sender.end()
    same("totals", relay.stop_at_rest(), done(1, 1))


@test
def file_of_an_earlier_run_is_gone_on_with(room):
    relay, port = hub(room)
    first = Sender(port).send(b"first")
    wanted = [record(port, address(first), 1, "1 Pri", 0, b"first")]
    has(room, wanted)
    first.end()
    same("totals", relay.stop_at_rest(), done(0, 1))
    # (a crash may tear the last one)
    with open(room.path("unread"), "ab") as it:
        it.write(b"100 <44>1 - hub")
    relay = room.start("hub", port, words=["--unchecked", "--unread", "unread", "site", "hub"])
    relay.says("syc: unread file unread: cut off a part of a record at its end, 15 bytes")
    second = Sender(port).send(b"second")
    wanted.append(record(port, address(second), 1, "1 Pri", 0, b"second"))
    has(room, wanted)
    second.end()
    same("totals", relay.stop_at_rest(), done(0, 1))


@test
def longest_frame_is_kept_in_two_records(room):
    relay, port = hub(room)
    text = bytes(range(256)) * 256
    sender = Sender(port).send(text)
    parts = (text[:32768], ' part="1/2"'), (text[32768:], ' part="2/2"')
    has(room, [record(port, address(sender), 1, "1 Pri", 0, it, part) for it, part in parts])
    sender.end()
    same("totals", relay.stop_at_rest(), done(0, 1))
    with open(room.path("unread"), "rb") as it:
        passed = os.popen(f"{room.program} pass < {room.path('unread')} | wc -l").read().strip()
    same("syc pass", int(passed) > 0, True)


@test
def full_disk_holds_the_connection(room):
    port = room.port()
    room.site({"hub": module() + imtcp(port) + omfile("audit", "audit.log")})
    # (room for one record and a half)
    one = len(frame(record(port, "127.0.0.1:12345", 1, "1 Pri", 0, b"x" * 5000)))
    relay = room.start("hub", port, words=["--unchecked", "--unread", "unread", "site", "hub"], limits=limited(one * 3 // 2))
    sender = Sender(port).send(b"x" * 5000, b"y" * 5000, message(0))
    relay.says("syc: unread file unread fails: file too large")
    wanted = [record(port, address(sender), number + 1, "1 Pri", 0, it * 5000) for number, it in enumerate((b"x", b"y"))]
    has(room, wanted[:1])
    asked(relay, "taken 0 lost 0 held 0\nunread 1\n")
    # (others go on)
    send_all(port, messages(1, 7))
    room.holds("audit.log", messages(1, 7))
    same("what is watched", [document(relay)[it] for it in ("unread", "unread_fails")], [1, 1])
    lift(relay)
    has(room, wanted)
    room.holds("audit.log", [message(7), message(0)])
    until("it works again", lambda: re.search(r"^syc: unread file unread works after \d+ s$", relay.errors(), re.M), came=relay.errors)
    sender.end()
    same("totals", relay.stop_at_rest(), done(2, 2))


@test
def write_that_fails_at_each_place(room):
    # (places in the first record, between two frames, in both records of a long frame, between them, and behind all)
    texts, long = (b"x" * 5_000, b"y" * 70_000, b"z"), b"y" * 65_536
    for place in (4_000, 5_099, 5_100, 5_250, 5_300, 20_000, 38_000, 38_100, 38_150, 70_000, 70_900, 70_990, 71_100):
        name = f"unread{place}"
        relay, port = hub(room, name, limits=limited(place))
        sender = Sender(port).send(*texts, message(0))
        peer = address(sender)
        units = [[record(port, peer, 1, "1 Pri", 0, texts[0])], parts_of(port, peer, 2, long, 70_000), [record(port, peer, 3, "1 Pri", 0, texts[2])]]
        sizes = [sum(len(frame(it)) for it in unit) for unit in units]
        whole = sum(sum(sizes[:count + 1]) <= place for count in range(3))
        if whole < 3:
            relay.says(f"syc: unread file {name} fails: file too large")
            has(room, sum(units[:whole], []), name)
            asked(relay, f"taken 0 lost 0 held 0\nunread {whole}\n")
            lift(relay)
        has(room, sum(units, []), name)
        room.holds("audit.log", messages(1))
        sender.end()
        same("totals", relay.stop_at_rest(), done(1, 3))
        os.remove(room.path("audit.log"))


@test
def file_on_a_disk_that_is_full_for_a_while(room):
    relay, port, disk = with_a_small_disk(room, lambda: hub(room, "disk/unread"))
    sender = Sender(port).send(b"x" * 3_000, b"y" * 3_000, message(0))
    relay.says("syc: unread file disk/unread fails: no storage space")
    wanted = [record(port, address(sender), number + 1, "1 Pri", 0, it * 3_000) for number, it in enumerate((b"x", b"y"))]
    asked(relay, "taken 0 lost 0 held 0\nunread 1\n")
    read = lambda: open(f"{disk}/unread", "rb").read()
    until("the file has the first record alone", lambda: read() == frames(wanted[:1]), came=lambda: len(read()))
    os.unlink(f"{disk}/other")
    until("both are kept", lambda: read() == frames(wanted), came=lambda: len(read()))
    room.holds("audit.log", messages(1))
    sender.end()
    same("totals", relay.stop_at_rest(), done(1, 2))


@test
def stop_while_the_file_fails(room):
    relay, port = hub(room, "/dev/full", words=["--left", "left"])
    sender = Sender(port).send(message(0), b"x", message(1))
    relay.says("syc: unread file /dev/full fails: no storage space")
    room.holds("audit.log", messages(1))
    # (what wasn't kept is left, with what came after it)
    same("totals", relay.stop(), done(1, 0))
    same("what is left", room.read(f"left.{port}"), frames([b"x", message(1)]))
    relay_lines = relay.lines()
    same("it is told", f"syc: input {port} not taken at the stop: 2 frames, and a part of one from 0 connections" in relay_lines, True)
    sender.close()


@test
def stop_at_a_long_frame_while_the_file_fails(room):
    relay, port = hub(room, "/dev/full")
    sender = Sender(port).send(message(0), b"x" * 70_000)
    relay.says("syc: unread file /dev/full fails: no storage space")
    room.holds("audit.log", messages(1))
    same("totals", relay.stop(), done(1, 0))
    told = [it for it in relay.lines() if it.startswith(f"syc: input {port} unread at the stop: 1 connections, ")]
    same("it is told", [int(it.split(", ")[1].split()[0]) >= 65_542 for it in told], [True])
    same("and which it is", f"syc: input {port} peer {address(sender)} not kept at the stop: 12 TooLong at 0 in frame 2, 70000 bytes" in relay.lines(), True)
    sender.close()


@test
def stop_at_bytes_without_a_frame_while_the_file_fails(room):
    relay, port = hub(room, "/dev/full")
    sender = Sender(port).send_bytes(frame(message(0)) + b"<34>Oct 11 22:14:15 host su: x\n")
    relay.says("syc: unread file /dev/full fails: no storage space")
    room.holds("audit.log", messages(1))
    same("totals", relay.stop(), done(1, 0))
    lines = relay.lines()
    said = f"syc: input {port} peer {address(sender)} not kept at the stop: 11 BadLength at 0 in frame 2, which begins like RFC 3164"
    same("it is told", said in lines, True)
    same("its bytes", f"syc: input {port} unread at the stop: 1 connections, 31 bytes or more" in lines, True)
    sender.close()


@test
def stop_within_a_long_frame(room):
    relay, port = hub(room)
    sender = Sender(port).send_bytes(frame(message(0)) + b"100000 " + b"y" * 30_000)
    room.holds("audit.log", messages(1))
    same("totals", relay.stop(), done(1, 0))
    same("it is told", f"syc: input {port} not taken at the stop: 0 frames, and a part of one from 1 connections" in relay.lines(), True)
    sender.close()


@test
def file_is_opened_anew(room):
    relay, port = hub(room)
    sender = Sender(port).send(b"first")
    has(room, [record(port, address(sender), 1, "1 Pri", 0, b"first")])
    os.rename(room.path("unread"), room.path("unread.1"))
    asks(relay)
    relay.says(answer(2))
    sender.send(b"second")
    has(room, [record(port, address(sender), 2, "1 Pri", 0, b"second")])
    has(room, [record(port, address(sender), 1, "1 Pri", 0, b"first")], "unread.1")
    sender.end()
    same("totals", relay.stop_at_rest(), done(0, 2))


@test
def file_that_is_none_of_frames(room):
    port = room.port()
    room.site({"hub": module() + imtcp(port) + omfile("audit", "audit.log")})
    room.write("unread", b"a line of an archive\n")
    refuses(room, ["--unchecked", "--unread", "unread", "site", "hub"], 4, "", "syc: unread file unread: it hasn't whole frames alone\n")
    same("the file", room.read("unread"), b"a line of an archive\n")
    refuses(room, ["--unchecked", "--unread", "none/unread", "site", "hub"], 4, "", "syc: unread file none/unread: no such folder\n")


@test
def many_connections_share_the_file(room):
    relay, port = hub(room)
    senders = [Sender(port) for _ in range(20)]
    for number in range(50):
        for it in senders:
            it.send(b"x%d" % number, message(number))
    peers = {address(it).encode() for it in senders}
    for it in senders:
        it.end()
    same("totals", relay.stop_at_rest(), done(1000, 1000))
    found, rest = split(room.read("unread"))
    same("behind the last record", rest, b"")
    of = {peer: [it.partition(b"] ")[2] for it in found if b'peer="%s"' % peer in it] for peer in peers}
    same("of each connection, in its order", of, {peer: [b"x%d" % number for number in range(50)] for peer in peers})


def parts_of(port, peer, number, text, length):
    """The two records of a frame that is too long."""
    halves = (text[:32768], "1/2"), (text[32768:65536], "2/2")
    return [record(port, peer, number, "12 TooLong", 0, it, f' length="{length}" part="{part}"') for it, part in halves]


@test
def frame_that_is_too_long_is_skipped(room):
    relay, port = hub(room)
    text = bytes(range(256)) * 400
    sender = Sender(port).send(message(0), text, message(1), b"x", text[:65537], message(2))
    room.holds("audit.log", messages(3))
    peer = address(sender)
    has(room, [*parts_of(port, peer, 2, text, len(text)), record(port, peer, 4, "1 Pri", 0, b"x"), *parts_of(port, peer, 5, text[:65536], 65537)])
    relay.says(f"syc: input {port} peer {peer} sends what is no message: 12 TooLong at 0 in frame 2; kept in unread")
    asked(relay, "taken 3 lost 0 held 0\nunread 3\n")
    sender.end()
    # (its end tells of the first of them too)
    relay.says(f"syc: 3 unread at {port}: 12 TooLong at 0 in frame 2")
    same("totals", relay.stop_at_rest(), done(3, 3))


@test
def frames_behind_one_that_is_too_long_are_told(room):
    relay, port = hub(room)
    sender = Sender(port).send(b"y" * 70_000)
    peer = address(sender)
    relay.says(f"syc: input {port} peer {peer} sends what is no message: 12 TooLong at 0 in frame 1; kept in unread")
    sender.end()
    relay.says(f"syc: 1 unread at {port}: 12 TooLong at 0 in frame 1")
    # (the first of a connection is the first of whatever kind)
    other = Sender(port).send(message(0), b"x", b"y" * 70_000, b"z")
    room.holds("audit.log", messages(1))
    has(room, [*parts_of(port, peer, 1, b"y" * 65536, 70_000), record(port, address(other), 2, "1 Pri", 0, b"x"),
               *parts_of(port, address(other), 3, b"y" * 65536, 70_000), record(port, address(other), 4, "1 Pri", 0, b"z")])
    other.end()
    relay.says(f"syc: 3 unread at {port}: 1 Pri at 0 in frame 2")
    same("totals", relay.stop_at_rest(), done(1, 4))


@test
def frame_that_is_too_long_is_cut(room):
    relay, port = hub(room)
    sender = Sender(port).send_bytes(frame(message(0)) + b"100000 " + b"y" * 70_000)
    sender.half_close().is_ended()
    has(room, parts_of(port, address(sender), 2, b"y" * 65536, 100_000))
    same("totals", relay.stop_at_rest(), done(1, 1))
    same("it is told", f"syc: 13 Truncated at {port}" in relay.lines(), True)


@test
def long_frames_cut_at_each_place(room):
    relay, port = hub(room)
    wanted = []
    for number, tail in enumerate((b"7000", b"70000 ", b"70000 y", b"70000 " + b"y" * 65_535, b"70000 " + b"y" * 65_536, b"70000 " + b"y" * 69_999)):
        sender = Sender(port).send_bytes(frame(message(number)) + frame(b"x") + tail)
        peer = address(sender)
        sender.half_close().is_ended()
        wanted += [record(port, peer, 2, "1 Pri", 0, b"x"), *(parts_of(port, peer, 3, b"y" * 65_536, 70_000) if len(tail) > 65_541 else [])]
        has(room, wanted)
    room.holds("audit.log", messages(6))
    # (of one that is too long less came than is kept, so that it isn't: 12)
    for fault in ("12 TooLong", "13 Truncated"):
        often = lambda: sum(1 + int(it or 0) for it in re.findall(rf"(?m)^syc: {fault} at {port}(?:, and (\d+) others)?$", relay.errors()))
        until(f"{fault} is told three times", lambda: often() == 3, came=often)
    same("totals", relay.stop_at_rest(), done(6, 8))


@test
def what_is_not_framed_is_kept(room):
    relay, port = hub(room)
    for text, hint in ((b"GET / HTTP/1.1\r\n\r\n", "begins like HTTP"), (b"<34>Oct 11 22:14:15 host su: x\n", "begins like RFC 3164"),
                       (b"<34>1 - - - - - - x\n", "begins like messages framed by line feeds"), (b"\x16\x03\x01\x00\x05hello", "begins like a TLS hello")):
        before = room.size("unread")
        sender = Sender(port).send_bytes(text)
        sender.is_ended()
        wanted = frame(record(port, address(sender), 1, "11 BadLength", 0, text))
        until("it is kept", lambda: room.size("unread") == before + len(wanted), came=lambda: room.read("unread")[before:])
        same("its record", room.read("unread")[before:], wanted)
        until("it is told", lambda: f"11 BadLength at 0 in frame 1, which {hint}; kept in unread" in relay.errors(), came=relay.errors)
    same("totals", relay.stop_at_rest(), done(0, 0))


@test
def what_is_not_framed_has_the_fault_that_ends_it(room):
    relay, port = hub(room)
    for text, fault, place in ((b"0 x", "11 BadLength", 0), (b"12a", "11 BadLength", 2), (b"65536,", "11 BadLength", 5),
                               (b"65537,", "12 TooLong", 4), (b"1234567890 x", "12 TooLong", 5), (b"9" * 2000, "12 TooLong", 4)):
        before = room.size("unread")
        sender = Sender(port).send_bytes(frame(message(0)) + frame(b"x") + text)
        sender.is_ended()
        kept = record(port, address(sender), 2, "1 Pri", 0, b"x"), record(port, address(sender), 3, fault, place, text[:1024])
        wanted = frames(kept)
        until("they are kept", lambda: room.size("unread") == before + len(wanted), came=lambda: room.read("unread")[before:])
        same("the records", room.read("unread")[before:], wanted)
        until("the end is told", lambda: re.search(rf"^syc: {fault} at {port}(, and \d+ others)?$", relay.errors(), re.M), came=relay.errors)
    room.holds("audit.log", [message(0)] * 6)
    same("totals", relay.stop_at_rest(), done(6, 6))

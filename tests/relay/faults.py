"""Messages and frames that are none."""

import re

from peers import Sender, frame, frames, message, messages, send_all
from room import Failure, imtcp, module, omfile, same, test, totals

# Of each fault its code and name, its place, and a message that has it.
MESSAGE_FAULTS = [
    ("1 Pri", 0, b"34>1 - - - - - -"), ("1 Pri", 1, b"<192>1 - - - - - -"), ("2 Version", 4, b"<34>2 - - - - - -"),
    ("3 Timestamp", 6, b"<34>1 2023-02-29T00:00:00Z - - - - -"), ("4 Hostname", 8, b"<34>1 - \x7f - - - -"),
    ("5 AppName", 10, b"<34>1 - - " + b"a" * 49 + b" - - -"), ("6 ProcId", 12, b"<34>1 - - - \xff - -"),
    ("7 MsgId", 14, b"<34>1 - - - - " + b"a" * 33 + b" -"), ("8 StructuredData", 16, b"<34>1 - - - - - x"),
    ("9 Trailing", 17, b"<34>1 - - - - - -x"),
]
FRAME_FAULTS = [("11 BadLength", b"017 <34>1 - - - - - -"), ("11 BadLength", b"\n17 <34>1 - - - - - -"), ("11 BadLength", b"6553x"),
                ("12 TooLong", b"65537 "), ("12 TooLong", b"100000"), ("13 Truncated", b"18 <34>1 - - - - - -"), ("13 Truncated", b"65536")]


def unread(port, count, fault, place, number):
    """The line of a connection with frames that are no messages; behind it the first fault, however it is put."""
    return re.compile(rf"syc: {count} unread at {port}\b.*\b{re.escape(fault)} at {place} in frame {number}\b.*")


def says(relay, wanted):
    """Compares the faults with regular expressions, each for one line, in any order."""
    left = relay.faults()
    for it in wanted:
        found = next((line for line in left if it.fullmatch(line)), None)
        if found is None:
            raise Failure(f"wanted a line {it.pattern!r}, came {left}")
        left.remove(found)
    same("other lines", left, [])


@test
def each_message_fault(room):
    # (each at an input of its own, of which a line is told at once)
    ports = [room.port() for _ in MESSAGE_FAULTS]
    room.site({"hub": module() + "".join(map(imtcp, ports)) + omfile("audit", "audit.log")})
    relay = room.start_unchecked("hub", *ports)
    good, wanted = [], []
    for number, (fault, place, text) in enumerate(MESSAGE_FAULTS):
        port = ports[number]
        pair = messages(2, 2 * number)
        send_all(port, [pair[0], text, pair[1]])
        good += pair
        wanted.append(unread(port, 1, fault, place, 2))
    room.holds("audit.log", good)
    same("totals", relay.stop_at_rest(), totals(len(good), 0, 0, ("audit", len(good), len(good), 0, 0), unread=len(wanted)))
    says(relay, wanted)


@test
def all_message_faults_of_a_connection(room):
    relay, port = room.hub()
    texts = [it for number, fault in enumerate(MESSAGE_FAULTS) for it in (message(number), fault[2])]
    send_all(port, texts)
    room.holds("audit.log", messages(len(MESSAGE_FAULTS)))
    count = len(MESSAGE_FAULTS)
    same("totals", relay.stop_at_rest(), totals(count, 0, 0, ("audit", count, count, 0, 0), unread=count))
    fault, place, _ = MESSAGE_FAULTS[0]
    says(relay, [unread(port, count, fault, place, 2)])


@test
def each_frame_fault(room):
    relay, port = room.hub()
    for number, (_, text) in enumerate(FRAME_FAULTS):
        sender = Sender(port).send_bytes(frame(message(number)) + text)
        # (that a frame is truncated shows at the end alone)
        if FRAME_FAULTS[number][0] == "13 Truncated":
            sender.half_close()
        sender.is_ended()
    room.holds("audit.log", messages(len(FRAME_FAULTS)))
    count = len(FRAME_FAULTS)
    relay.stops_with(totals(count, 0, 0, ("audit", count, count, 0, 0)), [f"syc: {fault} at {port}" for fault, _ in FRAME_FAULTS])


@test
def others_go_on_beside_a_fault(room):
    relay, port = room.hub()
    other = Sender(port).send(message(0))
    room.holds("audit.log", messages(1))
    faulty = Sender(port).send_bytes(frame(message(1)) + b"x" + frame(message(2)))
    relay.says(f"syc: 11 BadLength at {port}")
    faulty.is_ended()
    other.send(message(3))
    room.holds("audit.log", [message(0), message(1), message(3)])
    other.end()
    relay.stops_with(totals(3, 0, 0, ("audit", 3, 3, 0, 0)), [f"syc: 11 BadLength at {port}"])


@test
def unread_frames_before_a_frame_fault(room):
    relay, port = room.hub()
    sender = Sender(port).send_bytes(frames([message(0), b"x", b"y", message(1)]) + b"0")
    sender.is_ended()
    room.holds("audit.log", messages(2))
    same("totals", relay.stop_at_rest(), totals(2, 0, 0, ("audit", 2, 2, 0, 0), unread=2))
    says(relay, [re.compile(re.escape(f"syc: 11 BadLength at {port}")), unread(port, 2, "1 Pri", 0, 2)])


@test
def many_unread_frames(room):
    relay, port = room.hub()
    send_all(port, [b"x"] * 100_000 + [message(0)] + [b"<34>2 - - - - - -"] * 5000)
    room.holds("audit.log", messages(1))
    same("totals", relay.stop_at_rest(), totals(1, 0, 0, ("audit", 1, 1, 0, 0), unread=105_000))
    says(relay, [unread(port, 105_000, "1 Pri", 0, 1)])

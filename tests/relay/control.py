"""What standard input asks, and relays that empty before they stop."""

import re
import time

from peers import Pump, Receiver, Sender, messages, send_all
from room import Failure, imtcp, is_listening, main_queue, module, omfile, omfwd, same, test, totals, until
from statuses import hub_files, refuses
from stops import balanced


DRAIN = ["--drain", "600"]  # more seconds than a relay takes to empty, beside whatever else the host does


def edge(room, words=(), interval=0, **queue):
    """A relay that forwards alone, with endless retries; answers it, its port, and that of the receiver, which isn't there."""
    port, inner = room.port(), room.port()
    room.site({"edge": module() + main_queue(**queue) + imtcp(port) + omfwd("up", "hub", inner, -1, interval),
               "hub": module() + imtcp(inner) + omfile("audit", "audit.log")})
    return room.start("edge", port, words=["--unchecked", *words, "site", "edge"]), port, inner


def printed(relay):
    """The totals on standard error, without the lines about what happens."""
    return [it for it in relay.errors().splitlines(keepends=True) if it.endswith("\n") and not it.startswith("syc: ")]


def asked(relay, times, lines=2):
    """Asks a relay of one action for the totals as they stand, one answer of so many lines after the other, and answers them."""
    found = []
    for _ in range(times):
        before = len(printed(relay))
        relay.process.stdin.write(b"status\n")
        relay.process.stdin.flush()
        until("totals come", lambda: len(printed(relay)) == before + lines, came=relay.errors)
        found.append("".join(printed(relay)[before:]))
    return found


def is_free(port):
    """Whether nothing listens there any more."""
    return not is_listening(port)


# ---- status

@test
def status_before_the_first_message(room):
    relay, port = room.hub()
    same("the totals", asked(relay, 2), [totals(0, 0, 0, ("audit", 0, 0, 0, 0))] * 2)
    relay.stops_with(totals(0, 0, 0, ("audit", 0, 0, 0, 0)))


@test
def status_after_messages(room):
    relay, port = room.hub()
    send_all(port, messages(5))
    room.holds("audit.log", messages(5))
    relay.rests(port)
    same("the totals", asked(relay, 1), [totals(5, 0, 0, ("audit", 5, 5, 0, 0))])
    send_all(port, messages(2, 5))
    room.holds("audit.log", messages(7))
    relay.rests(port)
    same("the totals", asked(relay, 1), [totals(7, 0, 0, ("audit", 7, 7, 0, 0))])
    relay.stops_with(totals(7, 0, 0, ("audit", 7, 7, 0, 0)))


@test
def status_amid_load(room):
    relay, port = room.hub()
    pumps = [Pump(port, it) for it in range(3)]
    room.has("audit.log", 1000)
    found = [balanced("totals amid load", it) for it in asked(relay, 40)]
    for it in pumps:
        it.finish()
    for earlier, later in zip(found, found[1:]):
        if later[0] < earlier[0] or later[3] < earlier[3]:
            raise Failure(f"totals that fell: {earlier} and then {later}")
    if found[0][0] == found[-1][0]:
        raise Failure(f"forty totals amid load tell the same: {found[0]}")
    sent = sum(it.sent for it in pumps)
    room.has("audit.log", sent)
    relay.rests(port)
    relay.stops_with(totals(sent, 0, 0, ("audit", sent, sent, 0, 0)))


@test
def status_while_an_input_is_held(room):
    relay, port, inner = edge(room, interval=30, size=100, fullDelayMark=4, dequeueBatchSize=1)
    sender = Sender(port).send(*messages(20))
    relay.rests(port)
    # one in the worker, four in the queue, one in the hand of the connection
    wanted = totals(6, 0, 6, ("up", 1, 0, 0, 1))
    same("the totals", asked(relay, 3), [wanted] * 3)
    relay.stops_with(wanted)
    sender.is_ended()


@test
def status_and_lines_that_mean_nothing(room):
    relay, port = room.hub()
    relay.is_told(b"\nstatu\nstatuss\nstatus \nSTATUS\n status\nstatus\r\nstat", port)
    same("the totals", printed(relay), [])
    relay.is_told(b"us\n", port)
    same("the totals", "".join(printed(relay)), totals(0, 0, 0, ("audit", 0, 0, 0, 0)))
    # (a line that is cut by the end of standard input asks nothing)
    relay.is_told(b"status", port)
    relay.stops_with(totals(0, 0, 0, ("audit", 0, 0, 0, 0)))
    same("the totals", "".join(printed(relay)), totals(0, 0, 0, ("audit", 0, 0, 0, 0)))


# ---- relays that empty

@test
def drain_with_a_receiver_that_comes_late(room):
    relay, port, inner = edge(room, DRAIN)
    send_all(port, messages(500))
    relay.process.stdin.close()
    until("the port is free", lambda: is_free(port))
    receiver = Receiver(inner)
    same("status", relay.ends(), 0)
    receiver.has(messages(500))
    same("totals", relay.output(), totals(500, 0, 0, ("up", 500, 500, 0, 0)))


@test
def drain_with_a_slow_receiver(room):
    relay, port, inner = edge(room, DRAIN, size=5000)
    receiver = Receiver(inner, reads=False, small=True)
    sent = messages(1500, text="x" * 2000)
    send_all(port, sent)
    receiver.is_connected()
    relay.process.stdin.close()
    until("the port is free", lambda: is_free(port))
    for connection, _ in receiver.connections:
        until("all of it comes", lambda: not connection.recv(65536) or relay.process.poll() is not None)
    same("status", relay.ends(), 0)
    same("totals", relay.output(), totals(1500, 0, 0, ("up", 1500, 1500, 0, 0)))


@test
def drain_takes_no_longer_than_needed(room):
    port = room.port()
    hub_files(room, port)
    relay = room.start("hub", port, words=["--drain", "86400", "site", "hub"])
    send_all(port, messages(3))
    # (not once it rests: it has to empty as it stops)
    same("totals", relay.stop(), totals(3, 0, 0, ("audit", 3, 3, 0, 0)))


@test
def drain_with_a_receiver_that_is_down(room):
    relay, port, inner = edge(room, ["--drain", "2", "--left", "left"])
    send_all(port, messages(20))
    begun = time.monotonic()
    relay.process.stdin.close()
    same("status", relay.ends(), 0)
    took = time.monotonic() - begun
    if took < 2:
        raise Failure(f"it ended within {took:.3f} s, and not after two seconds")
    balanced("totals", relay.output())
    found = re.match(r"taken 20 lost 0 held 20\n", relay.output())
    if found is None:
        raise Failure(f"wanted 20 that are held, came {relay.output()!r}")


@test
def drain_takes_what_senders_had_sent(room):
    # (its sender ends its side, so all that it sent is taken, also what was behind a message that was held)
    relay, port, inner = edge(room, DRAIN, size=100, fullDelayMark=4, dequeueBatchSize=1)
    sender = Sender(port).send(*messages(20)).half_close()
    until("an input is held", lambda: asked(relay, 1) == [totals(6, 0, 6, ("up", 1, 0, 0, 1))], came=relay.errors)
    relay.process.stdin.close()
    until("the port is free", lambda: is_free(port))
    receiver = Receiver(inner)
    same("status", relay.ends(), 0)
    same("totals", relay.output(), totals(20, 0, 0, ("up", 20, 20, 0, 0)))
    receiver.has(messages(20))
    sender.is_ended()


@test
def drain_with_a_sender_that_goes_on(room):
    # (it never ends its side, so the relay goes on reading until the time is over)
    port = room.port()
    hub_files(room, port)
    relay = room.start("hub", port, words=["site", "hub", "--drain", "3"])
    pump = Pump(port, 0)
    room.has("audit.log", 100)
    begun = time.monotonic()
    relay.process.stdin.close()
    same("status", relay.ends(), 0)
    if time.monotonic() - begun < 3:
        raise Failure("it ended before its time was over")
    taken, lost, held, done, given_up = balanced("totals", relay.output())
    same("lost and given up", (lost, given_up), (0, 0))
    same("the archive", room.lines("audit.log"), messages(taken - held))
    pump.end()


# ---- words

@test
def options_at_any_place(room):
    port = room.port()
    hub_files(room, port)
    for words in (["--drain", "0", "--left", "left", "site", "hub"], ["site", "--left", "left", "hub", "--drain", "005"],
                  ["--unchecked", "site", "--drain", "86400", "hub", "--left", "left"], ["site", "hub", "--unchecked", "--drain", "1"],
                  ["--explain", "--metrics-every", "86400", "site", "--metrics", "metrics", "hub", "--left", "left", "--drain", "0"]):
        room.start("hub", port, words=words).stops_with(totals(0, 0, 0, ("audit", 0, 0, 0, 0)))


@test
def words_that_are_none(room):
    port = room.port()
    hub_files(room, port)
    for words in (["site", "hub", "--drain", "x"], ["site", "hub", "--drain"], ["site", "hub", "--drain", "86401"],
                  ["site", "hub", "--drain", "-1"], ["site", "hub", "--drain", ""], ["site", "hub", "--drain", "1s"],
                  ["site", "hub", "--left"], ["site", "--left", "--unchecked", "hub"], ["site", "hub", "--left", "--drain", "1"],
                  ["site", "hub", "--left", "a", "--left", "b"], ["site", "hub", "--drain", "1", "--drain", "1"],
                  ["site", "hub", "--unchecked", "--unchecked"], ["--left", "site", "hub"], ["site", "hub", "other"],
                  ["site", "hub", "--explain", "--explain"], ["site", "hub", "--metrics"], ["site", "--metrics", "--explain", "hub"],
                  ["site", "hub", "--metrics", "a", "--metrics", "b"], ["site", "hub", "--metrics-every", "5"],
                  ["site", "hub", "--metrics", "a", "--metrics-every", "0"], ["site", "hub", "--metrics", "a", "--metrics-every", "86401"]):
        refuses(room, words, 2, "", None)


@test
def unchecked_is_no_name_of_a_file(room):
    # a site that is refused starts with --unchecked alone, which isn't taken from behind --left
    port, inner = room.port(), room.port()
    room.site({"edge": module() + imtcp(port) + omfwd("up", "hub", inner, 0), "hub": module() + imtcp(inner) + omfile("audit", "audit.log")},
              f"entry edge {port}", "protect auth.* hub audit")
    refuses(room, ["site", "edge", "--left", "unchecked", "--drain", "1"], 1, None, "")
    refuses(room, ["site", "edge", "--left", "--unchecked"], 2, "", None)

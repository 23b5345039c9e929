"""Inputs that name files for their frames without a message, and whole entries, which need one."""

import os
import re

from archives import lift, limited
from crowd import document
from peers import Sender, frame, message, messages, send_all
from room import module, omfile, same, test, totals, until
from rotation import answer, asks
from starts import place
from statuses import refuses
from unread import address, asked, has, record

AUDIT = ("audit", "audit.log")


def input_at(port, file=None):
    named = "" if file is None else f' unreadFile="{file}"'
    return f'input(type="imtcp" port="{port}" flowControl="full"{named})\n'


def hub(room, files, words=(), entry="", limits=None, starts=True):
    """A relay with an input for each of these files, or none, which archives all; answers it and its ports."""
    ports = [room.port() for _ in files]
    text = module() + "".join(map(input_at, ports, files)) + omfile(*AUDIT)
    room.site({"hub": text}, *(f"entry hub {port}{entry}" for port in ports), "protect auth.* hub audit")
    return room.start("hub", *ports, words=[*words, "site", "hub"], limits=limits) if starts else None, ports


def sends(ports):
    """A sender to each port, which has sent what is no message."""
    return [Sender(port).send(b"x%d" % number) for number, port in enumerate(ports)]


def records(senders, ports, *numbers):
    """What a file has of these."""
    return [record(ports[it], address(senders[it]), 1, "1 Pri", 0, b"x%d" % it) for it in numbers]


def done(unread, taken=0):
    return totals(taken, 0, 0, ("audit", taken, taken, 0, 0), unread=unread)


def ends(relay, senders, unread, taken=0):
    for it in senders:
        it.end()
    same("totals", relay.stop_at_rest(), done(unread, taken))


@test
def inputs_with_files_of_their_own(room):
    relay, ports = hub(room, ["one", "two", None, None], ["--unread", "unread"])
    senders = sends(ports)
    for number, file in enumerate(("one", "two", "unread", "unread")):
        relay.says(f"syc: input {ports[number]} peer {address(senders[number])} sends what is no message: 1 Pri at 0 in frame 1; kept in {file}")
    has(room, records(senders, ports, 0), "one")
    has(room, records(senders, ports, 1), "two")
    until("unread has two records", lambda: room.size("unread") == sum(len(frame(it)) for it in records(senders, ports, 2, 3)))
    same("their order", sorted(room.read("unread").split(b"x")[-2:])[0][:1] in (b"2", b"3"), True)
    asked(relay, "taken 0 lost 0 held 0\nunread 4\n")
    ends(relay, senders, 4)


@test
def others_are_dropped(room):
    relay, ports = hub(room, ["one", None])
    senders = sends(ports)
    has(room, records(senders, ports, 0), "one")
    relay.says(f"syc: input {ports[1]} peer {address(senders[1])} sends what is no message: 1 Pri at 0 in frame 1; dropped")
    # (one that is too long ends a connection of which nothing is kept, and no other)
    for it in senders:
        it.send(b"y" * 65537, message(0))
    senders[1].is_ended()
    room.holds("audit.log", messages(1))
    relay.says(f"syc: 12 TooLong at {ports[1]}")
    ends(relay, senders[:1], 3, 1)


@test
def none_is_told_of_an_input_with_a_file(room):
    relay, ports = hub(room, ["one", None])
    send_all(ports[1], messages(3))
    room.holds("audit.log", messages(3))
    same("totals", relay.stop_at_rest(), done(0, 3))
    same("the file", room.read("one"), b"")


@test
def inputs_share_a_file(room):
    # (those that name it, and the one that names none)
    relay, ports = hub(room, ["kept", "kept", None, "other"], ["--unread", "kept"])
    senders = sends(ports[:3])
    has_all(room, records(senders, ports, 0, 1, 2), "kept")
    for _ in range(50):
        for it in senders:
            it.send(b"y" * 1000, message(0))
    until("each is there", lambda: room.read("kept").count(b"] y") == 150)
    asks(relay)
    relay.says(answer(3))
    ends(relay, senders, 153, 150)
    same("the other file", room.read("other"), b"")


def has_all(room, wanted, file):
    """Waits until a file has these records, in whatever order."""
    until(f"{file} has {len(wanted)} records", lambda: room.size(file) >= sum(len(frame(it)) for it in wanted), came=lambda: room.size(file))
    for it in wanted:
        same(f"{file} has {it!r}", frame(it) in room.read(file), True)


@test
def file_of_one_input_fails(room):
    one = len(frame(record(12345, "127.0.0.1:12345", 1, "1 Pri", 0, b"x" * 5000)))
    relay, ports = hub(room, ["one", "two"], limits=limited(one * 3 // 2))
    first, second = Sender(ports[0]), Sender(ports[1])
    first.send(b"x" * 5000, b"y" * 5000, message(0))
    relay.says("syc: unread file one fails: file too large")
    # (the other file is written meanwhile)
    second.send(b"x", message(7))
    has(room, [record(ports[1], address(second), 1, "1 Pri", 0, b"x")], "two")
    room.holds("audit.log", [message(7)])
    same("what is watched", [document(relay)[it] for it in ("unread", "unread_fails")], [2, 1])
    second.send(b"z" * (one * 3 // 2), message(8))
    relay.says("syc: unread file two fails: file too large")
    same("what is watched of both", document(relay)["unread_fails"], 1)
    lift(relay)
    for file in "one", "two":
        until(f"{file} works again", lambda: re.search(rf"^syc: unread file {file} works after \d+ s$", relay.errors(), re.M), came=relay.errors)
    until("all is taken", lambda: len(room.lines("audit.log")) == 3)
    same("what is watched once they work", document(relay)["unread_fails"], 0)
    ends(relay, [first, second], 4, 3)


@test
def files_that_can_not_be_opened(room):
    _, ports = hub(room, ["one", "none/two"], starts=False)
    refuses(room, ["site", "hub"], 4, "", "syc: unread file none/two: no such folder\n")
    where = f"(looked for in {os.path.realpath(room.folder)}, the working directory)"
    refuses(room, ["site", "hub", "--explain"], 4, "", "syc: unread file none/two: no such folder\n"
            f"where: hub.conf:{place(room, ports[1])}: input at port {ports[1]}\nwhy: none/two: no such folder {where}\n"
            "change: make that folder, or another name in that line\n")
    refuses(room, ["--unread", "none/all", "site", "hub", "--explain"], 4, "", "syc: unread file none/all: no such folder\n"
            f"where: the command line: --unread none/all\nwhy: none/all: no such folder {where}\n"
            "change: make that folder, or another name on the command line\n")
    os.mkdir(room.path("none"))
    room.write("none/two", "a line\n")
    refuses(room, ["site", "hub"], 4, "", "syc: unread file none/two: it hasn't whole frames alone\n")
    os.remove(room.path("none/two"))
    os.link(room.path("one"), room.path("none/two"))
    refuses(room, ["site", "hub"], 4, "", "syc: unread file none/two: it is an unread file by another name too\n")
    os.remove(room.path("none/two"))
    text = room.read("hub.conf").replace(b"none/two", b"\xff")
    room.write("hub.conf", text)
    refuses(room, ["site", "hub"], 4, "", None)
    room.ports_are_free(*ports)


WHOLE = "is a whole entry of the site, and nothing keeps its frames without a message: give --unread FILE, or unreadFile= on the input"


@test
def whole_entry_without_a_file(room):
    _, ports = hub(room, ["one", None, None], entry=" whole", starts=False)
    for words in ["site", "hub"], ["--unchecked", "site", "hub"], ["--left", "left", "site", "hub"]:
        refuses(room, words, 2, "", f"syc: input {ports[1]} {WHOLE}\n")
    # (nothing was opened)
    same("the files", sorted(it for it in os.listdir(room.folder) if it in ("one", "audit.log")), [])
    room.ports_are_free(*ports)


@test
def whole_entries_with_files(room):
    relay, ports = hub(room, ["one", None], ["--unread", "unread"], entry=" whole")
    senders = sends(ports)
    has(room, records(senders, ports, 0), "one")
    has(room, records(senders, ports, 1), "unread")
    ends(relay, senders, 2)


@test
def whole_entry_of_another_relay(room):
    # (only those of the relay that runs need a file)
    first, second = room.port(), room.port()
    text = module() + input_at(second) + omfile(*AUDIT)
    room.site({"edge": module() + input_at(first) + omfile("edge", "edge.log"), "hub": text},
              f"entry edge {first} whole", f"entry hub {second}", "protect auth.* edge edge", "protect auth.* hub audit")
    refuses(room, ["--unchecked", "site", "edge"], 2, "", f"syc: input {first} {WHOLE}\n")
    relay = room.start("hub", second, words=["--unchecked", "site", "hub"])
    same("totals", relay.stop(), totals(0, 0, 0, ("audit", 0, 0, 0, 0)))

"""Relays that can't start, and totals that can't be written."""

import os
import socket

from peers import Sender, frames, messages, send_all
from room import Failure, Relay, imtcp, module, omfile, omfwd, same, test, totals


def hub_files(room, port, file="audit.log", more=""):
    room.site({"hub": module() + imtcp(port) + more + omfile("audit", file)}, f"entry hub {port}", "protect auth.* hub audit")


def refuses(room, words, status, output, errors):
    """A relay that ends by itself, with all that it prints."""
    relay = Relay(room, "refused", words)
    same("status", relay.ends(), status)
    if output is not None:
        same("standard output", relay.output(), output)
    if errors is not None:
        same("standard error", relay.errors(), errors)
    return relay


@test
def port_in_use(room):
    port = room.port()
    hub_files(room, port)
    with socket.create_server(("127.0.0.1", port)):
        refuses(room, ["site", "hub"], 4, "", f"syc: 72 Bind at {port}\n")


@test
def second_port_in_use(room):
    first, second = room.port(), room.port()
    hub_files(room, first, more=imtcp(second))
    with socket.create_server(("127.0.0.1", second)):
        refuses(room, ["site", "hub"], 4, "", f"syc: 72 Bind at {second}\n")
    room.ports_are_free(first, second)


@test
def address_of_another_host(room):
    port = room.port()
    hub_files(room, port)
    room.write("site", f"relay hub hub.conf 192.0.2.1\nentry hub {port}\nprotect auth.* hub audit\n")
    refuses(room, ["site", "hub"], 4, "", f"syc: 72 Bind at {port}\n")


@test
def all_addresses_of_this_host(room):
    port = room.port()
    hub_files(room, port)
    room.write("site", f"relay hub hub.conf 0.0.0.0\nentry hub {port}\nprotect auth.* hub audit\n")
    relay = room.start("hub", port)
    send_all(port, messages(2))
    send_all(port, messages(2, 2), "127.0.0.5")
    room.holds("audit.log", messages(4))
    relay.stops_with(totals(4, 0, 0, ("audit", 4, 4, 0, 0)))
    room.ports_are_free(port)


@test
def port_of_another_relay(room):
    relay, port = room.hub()
    # (an archive that is another relay's would be refused before)
    hub_files(room, port, "other.log")
    refuses(room, ["site", "hub"], 4, "", f"syc: 72 Bind at {port}\n")
    send_all(port, messages(3))
    room.holds("audit.log", messages(3))
    relay.stops_with(totals(3, 0, 0, ("audit", 3, 3, 0, 0)))


@test
def archives_that_can_not_be_opened(room):
    os.mkdir(room.path("folder"))
    port = room.port()
    for file in "nowhere/audit.log", "folder", "", "a" * 300:
        hub_files(room, port, file)
        refuses(room, ["site", "hub"], 4, "", "syc: write failed\n")
        room.ports_are_free(port)


@test
def archive_whose_name_is_no_text(room):
    port = room.port()
    text = (module() + imtcp(port)).encode() + omfile("audit", "FILE").encode().replace(b"FILE", b"audit\xff.log")
    room.site({"hub": ""}, f"entry hub {port}", "protect auth.* hub audit")
    room.write("hub.conf", text)
    refuses(room, ["site", "hub"], 4, "", "syc: write failed\n")


@test
def faulty_archive_before_a_port_in_use(room):
    port = room.port()
    hub_files(room, port, "nowhere/audit.log")
    with socket.create_server(("127.0.0.1", port)):
        refuses(room, ["site", "hub"], 4, "", "syc: write failed\n")


@test
def refused_site(room):
    port = room.port()
    room.site({"hub": module() + imtcp(port, "on") + omfile("audit", "audit.log")}, f"entry hub {port}", "protect auth.* hub audit")
    refuses(room, ["site", "hub"], 1, f"refused: auth.emerg at hub {port}: 1 NotFull\n", "")
    for count, words in (4, ["--unchecked", "site", "hub"]), (8, ["site", "hub", "--unchecked"]):
        relay = room.start("hub", port, words=words)
        send_all(port, messages(4))
        room.has("audit.log", count)
        relay.stops_with(totals(4, 0, 0, ("audit", 4, 4, 0, 0)))


@test
def refused_site_with_a_way(room):
    entry, inner = room.port(), room.port()
    room.site({"edge": module() + imtcp(entry) + omfwd("up", "hub", inner),
               "hub": module() + imtcp(inner, "on") + omfile("audit", "audit.log")}, f"entry edge {entry}", "protect auth.* hub audit")
    for name in "edge", "hub":
        refuses(room, ["site", name], 1, f"refused: auth.emerg at hub {inner}: 1 NotFull\n  edge {entry} by 0\n", "")
    if os.path.exists(room.path("audit.log")):
        raise Failure("a site that was refused has made its archive")


@test
def relay_that_is_not_in_the_site(room):
    port = room.port()
    hub_files(room, port)
    refuses(room, ["site", "hubb"], 2, "", "syc: no relay hubb\n")
    # (before any check)
    room.site({"hub": module() + imtcp(port, "on") + omfile("audit", "audit.log")}, f"entry hub {port}", "protect auth.* hub audit")
    refuses(room, ["site", "Hub"], 2, "", "syc: no relay Hub\n")
    refuses(room, ["--unchecked", "site", ""], 2, "", "syc: no relay \n")


@test
def faulty_files(room):
    port = room.port()
    hub_files(room, port)
    refuses(room, ["nowhere", "hub"], 4, "", "syc: read failed\n")
    room.write("site", "relay hub nowhere.conf\n")
    refuses(room, ["site", "hub"], 4, "", "syc: read failed\n")
    room.write("site", "relay hub hub.conf\nentri hub 1\n")
    refuses(room, ["site", "hub"], 2, "", "syc: 51 Line in line 2\n")
    hub_files(room, port, more='input(type="imtcp")\n')
    refuses(room, ["--unchecked", "site", "hub"], 2, "", "syc: 40 Missing of hub: port\n")
    room.write("hub.conf", "module(")
    refuses(room, ["site", "hub"], 2, "", "syc: 22 Unclosed at 1:7 of hub\n")


@test
def site_without_protect_lines(room):
    port = room.port()
    room.site({"hub": module() + imtcp(port) + omfile("audit", "audit.log")}, f"entry hub {port}")
    for words in ["site", "hub"], ["--unchecked", "site", "hub"]:
        refuses(room, words, 2, "", "syc: 56 NothingProtected in line 1\n")


@test
def faulty_words(room):
    port = room.port()
    hub_files(room, port)
    for words in [], ["site"], ["site", "hub", "more"], ["--checked", "site", "hub"], ["--unchecked", "--unchecked", "site", "hub"]:
        relay = refuses(room, words, 2, "", None)
        if not relay.errors():
            raise Failure(f"run {' '.join(words)}: nothing on standard error")
    relay = Relay(room, "help", ["--help"])
    same("status of run --help", relay.ends(), 0)
    if "--unchecked" not in relay.output():
        raise Failure(f"run --help doesn't name --unchecked: {relay.output()!r}")


@test
def totals_that_can_not_be_written(room):
    port = room.port()
    hub_files(room, port)
    with open("/dev/full", "wb") as full:
        relay = room.start("hub", port, stdout=full)
        send_all(port, messages(3))
        room.holds("audit.log", messages(3))
        relay.process.stdin.close()
        same("status", relay.ends(), 4)
        same("standard error", relay.faults(), ["syc: write failed"])
    room.ports_are_free(port)


@test
def totals_that_nobody_reads(room):
    port = room.port()
    hub_files(room, port)
    reads, writes = os.pipe()
    relay = room.start("hub", port, stdout=writes)
    os.close(writes)
    os.close(reads)
    relay.process.stdin.close()
    same("status", relay.ends(), 4)
    same("standard error", relay.faults(), ["syc: write failed"])


def with_closed(room, descriptor):
    """A hub that was started with a descriptor closed; it has taken a message, and a connection has ended with a fault."""
    port = room.port()
    hub_files(room, port)
    relay = room.start("hub", port, words=["site", "hub"], limits=lambda: os.close(descriptor))
    sender = Sender(port).send_bytes(frames(messages(1)) + b"0")
    sender.is_ended()
    room.has("audit.log", 1)
    relay.process.stdin.close()
    return relay


@test
def standard_output_closed(room):
    relay = with_closed(room, 1)
    same("status", relay.ends(), 4)
    same("faults", relay.faults()[1:], ["syc: write failed"])
    same("archive", room.lines("audit.log"), messages(1))


@test
def standard_error_closed(room):
    relay = with_closed(room, 2)
    same("status", relay.ends(), 0)
    same("totals", relay.output(), totals(1, 0, 0, ("audit", 1, 1, 0, 0)))
    same("archive", room.lines("audit.log"), messages(1))


@test
def standard_input_closed(room):
    port = room.port()
    hub_files(room, port)
    relay = Relay(room, "hub", ["site", "hub"], limits=lambda: os.close(0))
    same("status", relay.ends() in (0, 4), True)
    same("archive", room.lines("audit.log"), [])


@test
def relay_without_inputs(room):
    room.site({"hub": module() + omfile("audit", "audit.log"), "edge": module() + imtcp(room.port())})
    room.start("hub", words=["--unchecked", "site", "hub"]).stops_with(totals(0, 0, 0, ("audit", 0, 0, 0, 0)))


@test
def relay_without_actions(room):
    port = room.port()
    room.site({"hub": module() + imtcp(port), "other": module() + omfile("audit", "audit.log")})
    relay = room.start_unchecked("hub", port)
    send_all(port, messages(25))
    relay.rests(port)
    relay.stops_with(totals(25, 0, 0))


@test
def action_without_a_name(room):
    port = room.port()
    text = omfile("audit", "audit.log") + omfile("x", "second.log").replace('name="x" ', "")
    room.site({"hub": module() + imtcp(port) + text}, f"entry hub {port}", "protect auth.* hub audit")
    relay = room.start("hub", port)
    send_all(port, messages(2))
    room.holds("second.log", messages(2))
    relay.stops_with(totals(2, 0, 0, ("audit", 2, 2, 0, 0), ("action-1", 2, 2, 0, 0)))

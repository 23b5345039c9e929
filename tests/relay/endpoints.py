"""Where relays and other receivers are reached: addresses of IPv6, names of hosts, addresses to listen at, and endpoints that aren't told apart."""

import socket

from daemons import COUNT, RSYSLOG_FILE, rsyslogd
from peers import messages, send_all
from room import LeftOut, imtcp, module, omfile, omfwd, same, test, totals, until
from starts import explains, place

ENTRY = "protect auth.* hub audit"


def edge_conf(entry, target, port, name="up"):
    return module() + imtcp(entry) + omfwd(name, target, port, interval=0)


def hub_conf(port):
    return module() + imtcp(port) + omfile("audit", "audit.log")


def refuses_at_once(room, relay, first, *notes):
    """A relay of the site doesn't start, checked or not."""
    explains(room, ["site", relay], 2, first, *notes)
    explains(room, ["--unchecked", "site", relay], 2, first, *notes)


# ---- Endpoints that aren't told apart

@test
def two_relays_at_one_port_without_an_address(room):
    """The usual port, no address: the edge would forward to itself."""
    room.site({"edge": edge_conf(6514, "hub", 6514), "hub": hub_conf(6514)}, "entry edge 6514", ENTRY)
    why = ("it is reached at 127.0.0.1 port 6514, and relay edge (site:1:1) at 127.0.0.1 port 6514: "
           "what is sent to one of them may come to the other")
    for relay in "edge", "hub":
        refuses_at_once(room, relay, f"syc: site:2:1: relay hub: {why}\n", "where: site:2:1: relay hub", f"why: {why}",
                        "change: the address of each relay's host behind its file in the site file, or another port of one of them")


@test
def relays_of_one_name_and_port(room):
    room.site({"edge": edge_conf(6514, "hub", 6514), "hub": hub_conf(6514)})
    room.write("site", f"relay edge edge.conf log.example\nrelay hub hub.conf LOG.Example\nentry edge 6514\n{ENTRY}\n")
    explains(room, ["site", "edge"], 2, "syc: site:2:1: relay hub: it is reached at LOG.Example port 6514, and relay edge (site:1:1) at "
             "log.example port 6514: what is sent to one of them may come to the other\n",
             "where: site:2:1: relay hub",
             "why: it is reached at LOG.Example port 6514, and relay edge (site:1:1) at log.example port 6514: what is sent to one of them "
             "may come to the other",
             "change: the address of each relay's host behind its file in the site file, or another port of one of them")


@test
def a_forward_back_to_the_relay_itself(room):
    """The receiver has no such port, the relay itself has."""
    entry, inner = room.port(), room.port()
    room.site({"edge": module() + imtcp(entry) + omfile("kept", "kept.log") + omfwd("up", "hub", entry, interval=0), "hub": hub_conf(inner)},
              f"entry edge {entry}", "protect auth.* edge kept", "spare edge up")
    room.write("site", b"policy 2\n" + room.read("site"))
    at = place(room, entry, "edge.conf")
    why = f"it connects to 127.0.0.1 port {entry}, where relay edge itself listens: input at port {entry} (edge.conf:{at})"
    up = place(room, '"up"', "edge.conf")
    refuses_at_once(room, "edge", f"syc: edge.conf:{up}: action up: {why}\n", f"where: edge.conf:{up}: action up", f"why: {why}",
                    "change: the address of the receiver's host in its line of the site file, or another port of one of them")


@test
def a_receiver_at_this_host_where_the_relay_listens_at_all(room):
    entry = room.port()
    room.site({"edge": module() + imtcp(entry) + omfile("kept", "kept.log") + omfwd("up", "siem", entry, interval=0)},
              f"entry edge {entry}", "protect auth.* edge kept", "spare edge up", f"outside siem localhost {entry}")
    text = room.read("site").replace(b"edge.conf", b"edge.conf edge.example listen 0.0.0.0")
    room.write("site", b"policy 2\n" + text)
    at, up = place(room, entry, "edge.conf"), place(room, '"up"', "edge.conf")
    why = f"it connects to localhost port {entry}, where relay edge itself listens: input at port {entry} (edge.conf:{at})"
    refuses_at_once(room, "edge", f"syc: edge.conf:{up}: action up: {why}\n", f"where: edge.conf:{up}: action up", f"why: {why}",
                    "change: the address of the receiver's host in its line of the site file, or another port of one of them")


@test
def addresses_of_no_host(room):
    entry, inner = room.port(), room.port()
    room.site({"edge": edge_conf(entry, "hub", inner), "hub": hub_conf(inner)})
    up = place(room, '"up"', "edge.conf")
    for address in "0.0.0.0", "::", "224.0.0.1", "239.255.255.255", "255.255.255.255", "ff02::1":
        room.write("site", f"relay edge edge.conf\nrelay hub hub.conf {address} listen 127.0.0.1\nentry edge {entry}\n{ENTRY}\n")
        why = f"it connects to {address} port {inner} of relay hub (site:2:1), and that is the address of no host"
        for relay in "edge", "hub":
            refuses_at_once(room, relay, f"syc: edge.conf:{up}: action up: {why}\n", f"where: edge.conf:{up}: action up", f"why: {why}",
                            "change: the address of the receiver's host; where a relay listens is said behind it, as in listen 0.0.0.0")


# ---- Links

def carried(room, hub_line, listens):
    """Messages over an edge and a hub of this relay line, which listens there."""
    port = room.port()
    entry = room.port()
    room.site({"edge": edge_conf(entry, "hub", port), "hub": hub_conf(port)})
    room.write("site", f"relay edge edge.conf\nrelay {hub_line}\nentry edge {entry}\n{ENTRY}\n")
    hub = room.start("hub")
    hub.says(f"syc: input {port} listening at {listens}")
    edge = room.start("edge", entry)
    send_all(entry, messages(100))
    room.holds("audit.log", messages(100))
    edge.stops_with(totals(100, 0, 0, ("up", 100, 100, 0, 0)))
    hub.stops_with(totals(100, 0, 0, ("audit", 100, 100, 0, 0)))


def has_ipv6():
    try:
        with socket.create_server(("::1", 0), family=socket.AF_INET6):
            return True
    except OSError:
        return False


@test
def hub_of_ipv6(room):
    if not has_ipv6():
        raise LeftOut("this host has no ::1")
    carried(room, "hub hub.conf ::1", "::1")


@test
def hub_by_a_name_alone_listens_at_all_addresses(room):
    port, entry = room.port(), room.port()
    room.site({"edge": edge_conf(entry, "hub", port), "hub": hub_conf(port)})
    room.write("site", f"relay edge edge.conf\nrelay hub hub.conf hub.invalid\nentry edge {entry}\n{ENTRY}\n")
    hub = room.start("hub")
    hub.says(f"syc: input {port} listening at all addresses")
    send_all(port, messages(1))
    room.holds("audit.log", messages(1))
    hub.stops_with(totals(1, 0, 0, ("audit", 1, 1, 0, 0)))


@test
def hub_that_listens_at_another_address_than_others_connect_to(room):
    carried(room, "hub hub.conf 127.0.0.2 listen 0.0.0.0", "0.0.0.0")


@test
def hub_by_a_name_that_listens_at_an_address(room):
    carried(room, "hub hub.conf localhost listen 127.0.0.1", "127.0.0.1")


@test
def two_relays_of_one_port_at_two_addresses(room):
    port = room.port()
    room.site({"edge": edge_conf(port, "hub", port), "hub": hub_conf(port)})
    room.write("site", f"relay edge edge.conf 127.0.0.1\nrelay hub hub.conf 127.0.0.2\nentry edge {port}\n{ENTRY}\n")
    hub = room.start("hub", port)
    edge = room.start("edge")
    edge.says(f"syc: input {port} listening at 127.0.0.1")
    send_all(port, messages(100))
    room.holds("audit.log", messages(100))
    edge.stops_with(totals(100, 0, 0, ("up", 100, 100, 0, 0)))
    hub.stops_with(totals(100, 0, 0, ("audit", 100, 100, 0, 0)))


@test
def a_name_that_no_resolver_knows(room):
    entry, inner = room.port(), room.port()
    room.site({"edge": edge_conf(entry, "hub", inner), "hub": hub_conf(inner)})
    room.write("site", f"relay edge edge.conf\nrelay hub hub.conf nobody.invalid\nentry edge {entry}\n{ENTRY}\n")
    edge = room.start("edge", entry)
    send_all(entry, messages(1))
    until("the edge says that the name can't be resolved", lambda: "its host's name can't be resolved" in edge.errors(), came=edge.errors)
    edge.process.stdin.close()


# ---- Receivers that aren't relays

def forwards_outside(room, target, lines):
    """An edge keeps its messages, and copies them to a receiver."""
    entry = room.port()
    room.site({"edge": module() + imtcp(entry) + omfile("kept", "kept.log") + target},
              f"entry edge {entry}", "protect auth.* edge kept", "spare edge copy", *lines)
    room.write("site", b"policy 2\n" + room.read("site"))
    return entry


@test
def receiver_by_an_outside_line(room):
    """What a receiver gets is what another relay would."""
    hub, port = room.hub()
    entry = forwards_outside(room, omfwd("copy", "siem", port, interval=0), [f"outside siem 127.0.0.1 {port}"])
    edge = room.start("edge", entry)
    send_all(entry, messages(100))
    room.holds("kept.log", messages(100))
    room.holds("audit.log", messages(100))
    edge.stops_with(totals(100, 0, 0, ("kept", 100, 100, 0, 0), ("copy", 100, 100, 0, 0)))
    hub.stops_with(totals(100, 0, 0, ("audit", 100, 100, 0, 0)))


@test
def receiver_by_an_address_as_the_target(room):
    hub, port = room.hub()
    entry = forwards_outside(room, omfwd("copy", "127.0.0.1", port, interval=0), [])
    edge = room.start("edge", entry)
    send_all(entry, messages(100))
    room.holds("audit.log", messages(100))
    edge.stops_with(totals(100, 0, 0, ("kept", 100, 100, 0, 0), ("copy", 100, 100, 0, 0)))
    hub.stops_with(totals(100, 0, 0, ("audit", 100, 100, 0, 0)))


@test
def rsyslogd_by_an_outside_line(room):
    file = room.path("received.log")
    port = rsyslogd(room, RSYSLOG_FILE, file=file)
    entry = forwards_outside(room, omfwd("copy", "siem", port, -1, 1), [f"outside siem localhost {port}"])
    edge = room.start("edge", entry)
    texts = messages(COUNT, text="a" * 100)
    send_all(entry, texts)
    room.has("received.log", COUNT)
    edge.stops_with(totals(COUNT, 0, 0, ("kept", COUNT, COUNT, 0, 0), ("copy", COUNT, COUNT, 0, 0)))
    same("what the daemon wrote", room.lines("received.log"), texts)

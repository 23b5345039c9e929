"""Many connections to a relay, and what it says of them."""

import json
import resource

from peers import Sender
from room import LISTEN, LeftOut, same, totals, until

SPARE = 100  # descriptors of a test, or of a relay, beside those of connections
READERS = 64  # of an input at most


def allow(connections):
    """Lets this test, and the relays that it starts, have descriptors for so many connections, where the host does."""
    wanted = connections + SPARE
    soft, hard = resource.getrlimit(resource.RLIMIT_NOFILE)
    if hard != resource.RLIM_INFINITY and hard < wanted:
        raise LeftOut(f"it wants {wanted} descriptors, and may have {hard} (ulimit -Hn)")
    if soft != resource.RLIM_INFINITY and soft < wanted:
        resource.setrlimit(resource.RLIMIT_NOFILE, (wanted, hard))


def waiting(port):
    """How many connections to this port the host has that weren't accepted yet."""
    with open("/proc/net/tcp") as it:
        next(it)
        for row in it:
            fields = row.split(None, 5)
            # (those that listen come first)
            if fields[3] != LISTEN:
                break
            if int(fields[1].split(":")[1], 16) == port:
                return int(fields[4].split(":")[1], 16)
    return 0


def document(relay):
    """What it answers to `status json`."""
    def lines():
        return [it for it in relay.errors().splitlines(keepends=True) if it.startswith("{") and it.endswith("\n")]

    before = len(lines())
    relay.process.stdin.write(b"status json\n")
    relay.process.stdin.flush()
    until("the document comes", lambda: len(lines()) > before, came=relay.errors)
    return json.loads(lines()[-1])


def open_now(relay):
    """How many connections of its inputs are open, as it says itself."""
    return sum(it["open"] for it in document(relay)["inputs"])


def held_now(relay):
    """How many of them wait with a message, as the queue has no room."""
    return sum(it["held"] for it in document(relay)["inputs"])


def has_open(relay, count):
    until(f"{count} connections are open", lambda: open_now(relay) == count, came=lambda: open_now(relay))


def connected(relay, port, count):
    """So many connections more, all of which are open at once."""
    before, senders = open_now(relay), []
    while len(senders) < count:
        # (no more at a time than the host keeps for the relay)
        senders += [Sender(port) for _ in range(min(100, count - len(senders)))]
        until("they are accepted", lambda: waiting(port) == 0, came=lambda: waiting(port))
    has_open(relay, before + count)
    return senders


def said(relay):
    """The lines on standard error, without those of the start and the answers to `status json`."""
    return [it for it in relay.lines() if it.startswith("syc: ")]


def arrived(room, name, lists):
    """Compares an archive with what each connection sent: all of it in its order, and nothing else."""
    found = [[] for _ in lists]
    for line in room.lines(name):
        found[int(line.split(b" ", 8)[7][1:])].append(line)
    for connection, (came, wanted) in enumerate(zip(found, lists)):
        same(f"messages of connection {connection}", came, wanted)


def taken(count):
    """The totals of a hub that took so many messages and wrote all of them."""
    return totals(count, 0, 0, ("audit", count, count, 0, 0))

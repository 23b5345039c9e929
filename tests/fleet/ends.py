"""What a queue has when rsyslogd ends, in good order or not, and is started again."""

import os

from hosts import HUB, Host, Hub
from room import Failure, same, test, until

COUNT, LAST = 10, 999


def over_an_end(room, name, ends):
    """Ends rsyslogd while it holds what it has confirmed, and starts it again; answers what comes to the hub then."""
    host = Host(room, name, "relp")
    host.give(*range(COUNT))
    host.giver.waits()
    ends(host)
    host.start()
    hub = Hub(host.port(HUB))
    hub.takes_again(host, LAST)
    host.stop()
    return {it for it in hub.tokens() if it != LAST}


@test
def memory_queue_kill(room):
    same("what comes", over_an_end(room, "ends/memory_queue_kill", Host.kill), set())


@test
def memory_queue_stop(room):
    same("what comes", over_an_end(room, "ends/memory_queue_stop", Host.stop), set())


@test
def disk_queue_kill(room):
    """There is no .qi file: the queue begins again, with its file."""
    came = over_an_end(room, "ends/disk_queue_kill", Host.kill)
    if came == set(range(COUNT)):
        raise Failure(f"all come: {sorted(came)}")


@test
def disk_queue_stop(room):
    """A stop in good order breaks the retry off, and the batch that is in hand is lost; kept/disk_queue_checkpoint is the same
    configuration, which loses nothing where it is killed."""
    came = over_an_end(room, "ends/disk_queue_stop", Host.stop)
    same("whether the first comes, and the last", (0 in came, COUNT - 1 in came), (False, True))


@test
def disk_queue_checkpoint(room):
    same("what comes", over_an_end(room, "kept/disk_queue_checkpoint", Host.kill), set(range(COUNT)))


@test
def imfile_stop(room):
    """What imfile has read, and the queue doesn't take, is lost at a stop, beside the batch that is in hand."""
    count, batch = 5000, 1024
    host = Host(room, "ends/imfile_stop", "file")
    os.mkdir(room.path("log/auth.log"))
    host.give(*range(count))
    until("the file can't be opened", lambda: "open error" in host.said(), came=host.said)
    host.rests()
    host.stop()
    os.rmdir(room.path("log/auth.log"))
    host.start()
    host.wrote("auth.log", count - 1)
    host.stop()
    lost = set(range(count)) - set(host.log("auth.log"))
    if not any(it >= batch for it in lost):
        raise Failure(f"lost are {sorted(lost)}")

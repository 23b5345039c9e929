"""Queues that are full: before an action, of a ruleset, at the mark from which severities are discarded, on a disk."""

from hosts import AUTH_EMERG, HUB, Host, Hub
from room import Failure, same, test

COUNT, LAST = 60, 999


def passes_over(room, name, more="", first=0):
    """All messages are written to the first file, while the hub isn't there; some of them don't come there then, and one does
    that is known, or any."""
    host = Host(room, name, "relp")
    host.give(*range(COUNT), more=more)
    host.wrote("syslog", *range(COUNT))
    hub = Hub(host.port(HUB))
    hub.takes_again(host, LAST)
    host.stop()
    came = {it for it in hub.tokens() if it != LAST}
    if not came or len(came) > COUNT // 2 or first is not None and first not in came:
        raise Failure(f"of {COUNT} messages came {sorted(came)}")


@test
def action_queue(room):
    passes_over(room, "queues/action_queue")


@test
def action_queue_legacy(room):
    passes_over(room, "queues/action_queue_legacy")


@test
def ruleset_queue(room):
    passes_over(room, "queues/ruleset_queue")


@test
def disk_space(room):
    # (which of them the disk queue keeps differs from run to run)
    passes_over(room, "queues/disk_space", f" for {'u' * 200}", first=None)


@test
def discard_mark(room):
    """The queue that an input fills has no severities yet: an emergency is discarded as what is for debugging. So it is
    where it is taken out of a queue at its mark: a worker that comes late discards all, and the queue stays at its mark."""
    host = Host(room, "queues/discard_mark", "relp")
    host.give(*range(COUNT), pri=AUTH_EMERG)
    host.giver.waits()
    hub = Hub(host.port(HUB))
    host.is_done()
    came = set(hub.tokens())
    # (that queue's end may be rsyslogd's by SIGSEGV)
    host.kill()
    if len(came) > COUNT // 2:
        raise Failure(f"of {COUNT} emergencies came {sorted(came)}")


@test
def sampling(room):
    host = Host(room, "queues/sampling", "relp")
    host.give(*range(9))
    host.wrote("auth.log", 8)
    host.stop()
    same("auth.log", host.log("auth.log"), [2, 5, 8])

"""Inputs that don't wait, that limit how much they take, or that change what they take."""

import signal

from hosts import HUB, Host, Hub
from room import Failure, same, test, threads_of, until

SIZE = 10  # of the queues
LAST = 999


def discards(room, name, giver, count=40):
    """Sends more than the queue holds while its action waits for the hub, which then comes; what comes there is about as much as
    the queue and a batch hold."""
    host = Host(room, name, giver)
    host.give(*range(count))
    host.has_read()
    hub = Hub(host.port(HUB))
    hub.takes_again(host, LAST)
    host.stop()
    came = {it for it in hub.tokens() if it != LAST}
    if not SIZE <= len(came) <= 2 * SIZE + 2:
        raise Failure(f"of {count} messages came {sorted(came)}")
    return host


@test
def imtcp_light(room):
    discards(room, "inputs/imtcp_light", "tcp", 30)


@test
def imptcp_off(room):
    discards(room, "inputs/imptcp_off", "tcp")


@test
def imrelp_default(room):
    """What is discarded was confirmed: all that was given before the hub was there is confirmed then."""
    discards(room, "inputs/imrelp_default", "relp", 30)


@test
def imuxsock_none(room):
    discards(room, "inputs/imuxsock_none", "socket")


def limited(room, name, giver):
    """Five messages are taken, and no more."""
    host = Host(room, name, giver)
    host.give(*range(20))
    host.has_read()
    host.wrote("auth.log", *range(5))
    host.stop()
    same("auth.log", host.log("auth.log"), list(range(5)))


@test
def imuxsock_limit(room):
    limited(room, "inputs/imuxsock_limit", "socket")


@test
def imuxsock_limit_legacy(room):
    limited(room, "inputs/imuxsock_limit_legacy", "socket")


@test
def imtcp_limit(room):
    limited(room, "inputs/imtcp_limit", "tcp")


@test
def imudp(room):
    """More comes, while rsyslogd has no turn, than the socket's buffer holds."""
    host = Host(room, "inputs/imudp", "udp")
    host.process.send_signal(signal.SIGSTOP)
    until("rsyslogd is halted", lambda: all(it[0] == "T" for it in threads_of(host.process.pid).values()))
    host.give(*range(200))
    host.process.send_signal(signal.SIGCONT)
    until("the last is written", lambda: host.give(LAST) or LAST in host.log("auth.log"))
    host.stop()
    came = [it for it in host.log("auth.log") if it != LAST]
    if len(came) == 200 or came != list(range(len(came))):
        raise Failure(f"of 200 messages came {came}")


@test
def long_message(room):
    host = Host(room, "inputs/long_message", "relp")
    host.give(0, more=f" for {'u' * 900} at last")
    host.give(1, more=f" for {'u' * 2000} at last")
    host.wrote("auth.log", 0, 1)
    host.stop()
    same("which have their ends", [b"at last" in it for it in room.lines("log/auth.log")], [True, False])


@test
def repeated(room):
    """Of messages that are the same the first is written, and how many others there were."""
    host = Host(room, "inputs/repeated", "socket")
    host.give(1, 1, 1, 1, 2)
    host.wrote("auth.log", 2)
    host.stop()
    same("auth.log", host.log("auth.log"), [1, 1, 2])
    same("whether it tells", b"message repeated 3 times" in room.lines("log/auth.log")[1], True)

"""Rules that a message doesn't come through: statements that end its way, selectors, templates, actions for some of them."""

from hosts import AUTH_DEBUG, AUTHPRIV_INFO, HUB, MAIL_INFO, USER_INFO, Host, Hub
from room import same, test, until


def differs(room, name, lost, kept, file="auth.log", giver="socket"):
    """Of two messages, which differ in their priority or their program, a file has one."""
    host = Host(room, name, giver)
    host.give(0, **lost)
    host.give(1, **kept)
    host.wrote(file, 1)
    host.stop()
    same(file, host.log(file), [1])


@test
def stop(room):
    differs(room, "rules/stop", {}, {"tag": "sudo:"})


@test
def tilde(room):
    differs(room, "rules/tilde", {"pri": AUTHPRIV_INFO}, {})


@test
def ampersand_stop(room):
    differs(room, "rules/ampersand_stop", {}, {"tag": "sudo:"})


@test
def none(room):
    differs(room, "rules/none", {}, {"pri": USER_INFO})


@test
def order(room):
    differs(room, "rules/order", {}, {"pri": AUTH_DEBUG})


@test
def template(room):
    host = Host(room, "rules/template", "socket")
    host.give(0, 1)
    room.has("log/auth.log", 2)
    host.stop()
    same("texts in auth.log", host.log("auth.log"), [])


@test
def other_ruleset(room):
    host = Host(room, "rules/other_ruleset", "tcp")
    host.give(0)
    host.wrote("remote.log", 0)
    host.stop()
    same("auth.log", host.log("auth.log"), [])


@test
def every_third(room):
    host = Host(room, "rules/every_third", "socket")
    host.give(*range(6))
    host.wrote("auth.log", 5)
    host.stop()
    same("auth.log", host.log("auth.log"), [2, 5])


@test
def once_a_minute(room):
    host = Host(room, "rules/once_a_minute", "socket")
    host.give(0, 1)
    host.give(2, pri=MAIL_INFO)
    host.give(3)
    host.give(4, pri=MAIL_INFO)
    host.wrote("mail.log", 2)
    host.stop()
    same("auth.log", host.log("auth.log"), [0])
    same("mail.log", host.log("mail.log"), [2])


@test
def when_suspended(room):
    """What the link takes as it breaks is neither at the hub nor in the file."""
    host = Host(room, "rules/when_suspended", "socket")
    hub = Hub(host.port(HUB), reads=False)
    host.give(0, 1)
    host.wrote("syslog", 1)
    hub.breaks()
    until("the file is written", lambda: host.give(2) or host.log("auth.log"))
    host.stop()
    same("auth.log", set(host.log("auth.log")), {2})

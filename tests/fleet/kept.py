"""Configurations by which nothing is lost, while a device fails for a time, or by rules that only look as if."""

import os

from hosts import HUB, Host, Hub
from room import same, test, until


def waits_for_its_device(room, name, giver, count):
    """A folder lies in the archive's place at first."""
    host = Host(room, name, giver)
    host.giver.window = count
    os.mkdir(room.path("log/auth.log"))
    host.give(*range(count))
    until("the file can't be opened", lambda: "open error" in host.said(), came=host.said)
    host.rests()
    os.rmdir(room.path("log/auth.log"))
    host.wrote("auth.log", count - 1)
    host.stop()
    same("auth.log", host.log("auth.log"), list(range(count)))


@test
def imfile_omfile(room):
    waits_for_its_device(room, "kept/imfile_omfile", "file", 5000)


@test
def ruleset_with_queue(room):
    waits_for_its_device(room, "kept/ruleset_with_queue", "relp", 300)


@test
def imrelp_full(room):
    host = Host(room, "kept/imrelp_full", "relp")
    host.giver.window = 300
    host.give(*range(300))
    hub = Hub(host.port(HUB))
    hub.has(299)
    host.giver.waits()
    host.stop()
    same("what comes", hub.tokens(), list(range(300)))


@test
def omfile_three_retries(room):
    """A count of retries that isn't 0 has no end where omfile can't open its file."""
    host = Host(room, "kept/omfile_three_retries", "relp")
    host.giver.window = 20
    os.mkdir(room.path("log/auth.log"))
    host.give(*range(20))
    host.sleeps(8)
    os.rmdir(room.path("log/auth.log"))
    host.wrote("auth.log", 19)
    host.stop()
    same("auth.log", host.log("auth.log"), list(range(20)))


@test
def rules(room):
    """Each priority of auth and authpriv."""
    priorities = [*range(32, 40), *range(80, 88)]
    host = Host(room, "kept/rules", "relp")
    for it in priorities:
        host.give(it, pri=it)
    host.wrote("auth.log", priorities[-1])
    host.stop()
    same("auth.log", host.log("auth.log"), priorities)


@test
def block(room):
    """A block in the style of BSD is none: rsyslogd leaves its lines out, and the rules there are for all programs."""
    host = Host(room, "kept/block", "relp")
    host.give(0)
    host.give(1, tag="sudo:")
    host.wrote("auth.log", 1)
    host.stop()
    same("auth.log", host.log("auth.log"), [0, 1])

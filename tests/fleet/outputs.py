"""Actions that give a message up, while another one has it."""

import os
import socket

from hosts import HUB, Host, Hub, tokens
from room import same, test, until


def passes(host, *numbers):
    """Gives messages one after the other, each once syslog has the one before, until all actions have had the last."""
    for it in numbers:
        host.give(it)
        host.wrote("syslog", it)
    host.passed("syslog", numbers[-1])


@test
def omfile_no_retry(room):
    """What comes while the action is suspended, for 30 seconds, is lost as well."""
    host = Host(room, "outputs/omfile_no_retry", "relp")
    os.mkdir(room.path("log/auth.log"))
    passes(host, 0, 1)
    os.rmdir(room.path("log/auth.log"))
    passes(host, 2)
    host.stop()
    same("auth.log", host.log("auth.log"), [])


@test
def omfile_full_device(room):
    """No retry keeps what a device has no room for: the next message is written after it."""
    host = Host(room, "outputs/omfile_full_device", "relp")
    os.symlink("/dev/full", room.path("log/auth.log"))
    passes(host, 0, 1, 2)
    host.stop()
    same("messages of which it says so", host.said().count("message lost, could not be processed"), 3)


@test
def omfile_no_folder(room):
    """A folder can't be made at first, as below /proc."""
    host = Host(room, "outputs/omfile_no_folder", "relp")
    os.symlink("/proc", room.path("log/private"))
    passes(host, 0, 1)
    os.remove(room.path("log/private"))
    host.give(2)
    host.wrote("private/web/auth.log", 2)
    host.stop()
    same("auth.log", host.log("private/web/auth.log"), [2])


@test
def omfile_dynafile(room):
    host = Host(room, "outputs/omfile_dynafile", "relp")
    passes(host, 0, 1)
    os.mkdir(room.path("log/web"))
    host.give(2)
    host.wrote("web/auth.log", 2)
    host.stop()
    same("auth.log", host.log("web/auth.log"), [2])


@test
def omfile_async(room):
    host = Host(room, "outputs/omfile_async", "relp")
    os.mkdir(room.path("log/auth.log"))
    passes(host, 0)
    until("it can't be opened", lambda: "open error" in host.said(), came=host.said)
    os.rmdir(room.path("log/auth.log"))
    host.give(1)
    host.wrote("auth.log", 1)
    host.stop()
    same("auth.log", host.log("auth.log"), [1])


@test
def ompipe(room):
    """Nobody reads until the pipe is full."""
    host = Host(room, "outputs/ompipe", "socket")
    os.mkfifo(room.path("log/auth.pipe"))
    host.give(*range(100), more=f" for {'u' * 1000}")
    host.passed("syslog", *range(100))
    reader = os.open(room.path("log/auth.pipe"), os.O_RDONLY | os.O_NONBLOCK)
    came = tokens(os.read(reader, 1_000_000))
    passes(host, 100)
    host.stop()
    same("what comes through the pipe", came, list(range(len(came))))
    same("whether all come", len(came) < 100, True)
    same("what comes then", os.read(reader, 1_000_000), b"")


@test
def omfwd_udp(room):
    host = Host(room, "outputs/omfwd_udp", "socket")
    passes(host, 0, 1)
    with socket.socket(socket.AF_INET, socket.SOCK_DGRAM) as hub:
        hub.bind(("127.0.0.1", host.port(HUB)))
        host.give(2)
        same("whether the first that comes is the last", b"{2}" in hub.recv(65_536), True)
    host.stop()


def gives_up(room, name, giver):
    """The hub is there after two messages, the first of which doesn't come there."""
    host = Host(room, name, giver)
    passes(host, 0, 1)
    hub = Hub(host.port(HUB))
    hub.takes_again(host, 2)
    host.stop()
    same("whether the first comes", 0 in hub.tokens(), False)


@test
def omfwd_no_retry(room):
    gives_up(room, "outputs/omfwd_no_retry", "socket")


@test
def omfwd_three_retries(room):
    gives_up(room, "outputs/omfwd_three_retries", "socket")


@test
def retries_of_one_action(room):
    gives_up(room, "outputs/retries_of_one_action", "relp")


@test
def omfwd_break(room):
    """What the kernel took is lost with the link."""
    host = Host(room, "outputs/omfwd_break", "relp")
    hub = Hub(host.port(HUB), reads=False)
    passes(host, 0, 1, 2)
    hub.breaks()
    hub = Hub(host.port(HUB))
    hub.takes_again(host, 3)
    host.stop()
    same("what comes", set(hub.tokens()), {3})

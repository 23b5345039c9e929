"""`syc convert` of configurations: a relay with what it prints writes each message to the files that rsyslogd writes it to."""

import os
import re
import socket
import subprocess

from hosts import HUB, Host, Hub, tokens
from peers import PAUSE
from room import Failure, is_listening, same, test, until

# Of each message its priority, the name of its program, and its text behind the number.
MESSAGES = [(pri, program, more) for pri in (2, 4, 6, 14, 22, 32, 38, 78, 86, 134) for program in ("sshd", "cron", "app")
            for more in ("", " noise", " session opened")] + [(22, "app", "no number first"), (38, "sshd", "neither noise"), (38, "last", "")]
LAST = len(MESSAGES) - 1
ARCHIVE = re.compile(r'file="([^"]*)"')


def message(number, pri, program, more):
    body = more if more[:1].isalpha() else f"{{{number}}}{more}"
    return f"<{pri}>1 2026-10-11T22:14:15.003Z web {program} - ID{number} - {body} {{{number}}}".encode()


def frames():
    return b"".join(b"%d %s" % (len(it), it) for it in (message(at, *it) for at, it in enumerate(MESSAGES)))


def send(port):
    with socket.create_connection(("127.0.0.1", port), PAUSE) as it:
        it.sendall(frames())
        it.shutdown(socket.SHUT_WR)
        it.recv(1)


def numbers(text):
    """The numbers of the messages that a text has, in their order, each once for each line."""
    return [tokens(line)[-1] for line in text.splitlines() if tokens(line)]


def converted(room, path):
    """What is printed of a configuration, and its site file."""
    done = subprocess.run([room.program, "convert", "--protect", "*.*", path], stdin=subprocess.DEVNULL, stdout=subprocess.PIPE, check=False)
    if done.returncode not in (0, 1):
        raise Failure(f"syc convert ended with {done.returncode}")
    return done.stdout.decode()


class Relay:
    """A relay with what was converted, its archives in a folder of their own."""

    def __init__(self, room, text, port):
        self.room = room
        os.mkdir(room.path("of-relay"))
        text = text.replace(room.path("log/"), room.path("of-relay/"))
        room.write("plan", text)
        archives = ARCHIVE.findall(text)
        room.write("site", f"relay host plan\nentry host {port}\nprotect *.* host {self.name_of(text)}\n")
        for it in archives:
            os.makedirs(os.path.dirname(it), exist_ok=True)
        self.process = subprocess.Popen([room.program, "run", "--unchecked", room.path("site"), "host"], stdin=subprocess.PIPE,
                                        stdout=subprocess.DEVNULL, stderr=subprocess.DEVNULL, cwd=room.folder)
        until("the relay listens", lambda: is_listening(port) or self.process.poll() is not None)

    @staticmethod
    def name_of(text):
        return re.search(r'^[^#\n]*action\(name="([^"]*)" type="omfile"', text, re.M)[1]

    def stop(self):
        self.process.stdin.close()
        until("the relay ends", lambda: self.process.poll() is not None)


def files_of(room, folder):
    """Of each file of a folder that has messages their numbers."""
    files = [it for it in sorted(os.listdir(room.path(folder))) if os.path.isfile(room.path(f"{folder}/{it}"))]
    found = {it: numbers(room.read(f"{folder}/{it}")) for it in files}
    return {it: has for it, has in found.items() if has}


def came_to(hub):
    """The numbers of the messages that came to a hub."""
    return sorted(numbers(b"\n".join(hub.came).replace(b"<", b"\n<")))


def agree(room, name, last=None):
    """Gives rsyslogd and the relay the same messages, and compares what each writes and forwards. The last message comes to
    this file, or to the hub."""
    host = Host(room, name, "tcp")
    hub = None if last else Hub(host.port(HUB))
    send(host.port("514"))
    if hub:
        until("the hub has the last message", lambda: LAST in came_to(hub), came=lambda: came_to(hub))
    else:
        until("rsyslogd has written the last message", lambda: LAST in files_of(room, "log").get(last, []), came=lambda: files_of(room, "log"))
    host.stop()
    wanted = files_of(room, "log")
    forwarded = []
    if hub:
        forwarded = came_to(hub)
        hub.breaks()
        hub = Hub(host.port(HUB))
    port = host.port("514")
    relay = Relay(room, converted(room, room.path("rsyslog.conf")), port)
    send(port)
    until("the relay has written all", lambda: files_of(room, "of-relay") == wanted, came=lambda: files_of(room, "of-relay"))
    if hub:
        until("all is forwarded", lambda: came_to(hub) == forwarded, came=lambda: came_to(hub))
    relay.stop()
    same("files", files_of(room, "of-relay"), wanted)
    same("some file has messages", any(wanted.values()), True)


@test
def convert_selectors(room):
    agree(room, "conversions/selectors", "rest")


@test
def convert_script(room):
    agree(room, "conversions/script", "rest")


@test
def convert_rulesets(room):
    agree(room, "conversions/rulesets", "other")


@test
def convert_forward(room):
    agree(room, "conversions/forward")

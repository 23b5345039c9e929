"""A host with rsyslogd: its configuration with paths and ports of a test's own, what is sent to it, and where that went."""

import glob
import os
import re
import shutil
import signal
import socket
import struct
import subprocess
import threading

from givers import GIVERS
from room import Failure, LeftOut, are_asleep, same, until

HERE = os.path.dirname(os.path.realpath(__file__))
PATH = f"{os.environ.get('PATH', '')}:/usr/sbin:/sbin"
MODULES = ["/usr/lib/x86_64-linux-gnu/rsyslog", "/usr/lib/aarch64-linux-gnu/rsyslog", "/usr/lib64/rsyslog", "/usr/lib/rsyslog"]
TOKEN = re.compile(rb"\{(\d+)\}")
PORTS = re.compile(r"\b(?:514|2514|6514)\b")
AUTH_EMERG, AUTH_INFO, AUTH_DEBUG, AUTHPRIV_INFO, MAIL_INFO, USER_INFO = 32, 38, 39, 86, 22, 14
HUB = "6514"
# The numbers of the calls that wait for input (poll, select, epoll_wait, pselect6, ppoll, epoll_pwait), and of futex.
CALLS = {"x86_64": dict.fromkeys(["7", "23", "232", "270", "271", "281"], "poll") | {"202": "futex"},
         "aarch64": dict.fromkeys(["22", "72", "73"], "poll") | {"98": "futex"}}
LOOKS = 100  # one after the other in which no thread waits, as far as the kernel tells


def program():
    found = shutil.which("rsyslogd", path=PATH)
    if found is None:
        raise LeftOut("there is no rsyslogd (package rsyslog)")
    return found


def has_module(name):
    return any(os.path.exists(f"{it}/{name}.so") for it in MODULES)


def configuration(name):
    with open(f"{HERE}/configurations/{name}.conf", encoding="utf-8") as it:
        return it.read()


def tokens(text):
    """The numbers of the messages that are in a text, in their order."""
    return [int(it) for it in TOKEN.findall(text)]


def place_of(waits, calls):
    """What a thread waits for, also of one that sleeps where the kernel can't tell: then by its system call."""
    if waits in ("", "0"):
        try:
            with open(calls, encoding="ascii") as it:
                return CALLS.get(os.uname().machine, {}).get(it.read().split()[0], waits)
        except (PermissionError, IndexError):
            pass
    return waits


class Host:
    """rsyslogd with a configuration of this folder. Its files lie in the test's folder, and its ports are the test's."""

    def __init__(self, room, name, giver):
        self.room, self.ports, self.looks = room, {}, 0
        text = PORTS.sub(lambda it: str(self.port(it[0])), configuration(name))
        for folder in ("log", "spool"):
            os.makedirs(room.path(f"{folder}/rsyslog"))
        for path, own in (("/var/log/", "log/"), ("/var/spool/", "spool/"), ("/dev/log", "dev-log")):
            text = text.replace(path, room.path(own))
        room.write("rsyslog.conf", text.replace("hub.example.com", "127.0.0.1"))
        for module in set(re.findall(r"\b[io]mrelp\b", text)):
            if not has_module(module):
                raise LeftOut(f"rsyslogd has no {module} (package rsyslog-relp)")
        self.giver, self.process = GIVERS[giver](self), None
        self.start()

    def port(self, number):
        """The port that stands for one of the configuration."""
        if number not in self.ports:
            self.ports[number] = self.room.port()
        return self.ports[number]

    def start(self):
        words = [program(), "-n", "-i", "NONE", "-f", self.room.path("rsyslog.conf")]
        with open(self.room.path("rsyslogd.said"), "ab") as log:
            self.process = subprocess.Popen(words, cwd=self.room.folder, stdin=subprocess.DEVNULL, stdout=log, stderr=log,
                                            env=os.environ | {"TZ": "UTC"})
        until("rsyslogd reads", lambda: self.giver.is_there() and self.is_reading() or self.process.poll() is not None)
        if self.process.poll() is not None:
            raise Failure(f"rsyslogd did not start: {self.said()}")

    def said(self):
        return self.room.read("rsyslogd.said").decode("utf-8", "replace")

    def give(self, *numbers, **more):
        """Sends messages of these numbers, each with its number as a token."""
        self.giver.give_all([text(it, self.giver.host, **more) for it in numbers])

    def threads(self):
        """Of each thread its name, and what it waits for in the kernel."""
        found = []
        for it in glob.glob(f"/proc/{self.process.pid}/task/*"):
            try:
                with open(f"{it}/comm", encoding="utf-8") as name, open(f"{it}/wchan", encoding="ascii") as waits:
                    found.append((name.read().strip(), place_of(waits.read(), f"{it}/syscall")))
            except (FileNotFoundError, ProcessLookupError):
                continue
        self.looks = 0 if any(it[1] not in ("", "0") for it in found) else self.looks + 1
        if self.looks > LOOKS:
            raise LeftOut("the kernel doesn't say what threads wait for")
        return found

    def is_reading(self):
        """Whether its input waits for more, and is done with all that it has read."""
        return any(name.startswith(("in:", "imudp")) and ("poll" in it or "select" in it) for name, it in self.threads())

    def is_idle(self):
        """Whether its input waits for more, and the worker of its main queue for work: what isn't delivered by now is lost."""
        waits = dict(self.threads())
        worker = waits.pop("rs:main Q:Reg", "")
        inputs = [it for name, it in waits.items() if name.startswith(("in:", "imudp"))]
        return "futex" in worker and any("poll" in it or "select" in it for it in inputs)

    def is_done(self):
        """Waits until it is idle, one look after the other."""
        looks = [0]

        def stays():
            looks[0] = looks[0] + 1 if self.is_idle() else 0
            return looks[0] > LOOKS // 2
        until("rsyslogd has nothing to do", stays, came=self.threads)

    def has_read(self):
        """Waits until its input has dealt with all that was given."""
        self.giver.is_taken()
        until("the input waits for more", self.is_reading, came=self.threads)

    def rests(self):
        """Waits until all its threads sleep for a while."""
        until("rsyslogd rests", lambda: are_asleep(self.process.pid))

    def sleeps(self, times):
        """Waits until the worker of its main queue has slept so many times more, as it does before each retry."""
        before = self.sleeps_so_far()
        until(f"the worker sleeps {times} times", lambda: self.sleeps_so_far() >= before + times, came=self.sleeps_so_far)

    def sleeps_so_far(self):
        found = 0
        for it in glob.glob(f"/proc/{self.process.pid}/task/*/status"):
            with open(it, encoding="ascii") as status:
                said = status.read()
            found += int(re.search(r"\nvoluntary_ctxt_switches:\s*(\d+)", said)[1]) if "rs:main Q:Reg" in said else 0
        return found

    def stop(self):
        """Stops it in good order."""
        self.process.terminate()
        until("rsyslogd ends", lambda: self.process.poll() is not None, came=self.said)
        self.giver.close()
        same("status of rsyslogd", self.process.returncode, 0)

    def kill(self):
        self.giver.close()
        self.process.send_signal(signal.SIGKILL)
        self.process.wait()

    def log(self, name):
        """The numbers of the messages that a file has."""
        path = self.room.path(f"log/{name}")
        return tokens(self.room.read(f"log/{name}")) if os.path.isfile(path) else []

    def wrote(self, name, *numbers):
        """Waits until a file has messages of these numbers."""
        until(f"{name} has {list(numbers)}", lambda: set(numbers) <= set(self.log(name)), came=lambda: self.log(name))

    def passed(self, name, *numbers):
        """Waits until all actions have had messages of these numbers: a file has them, and one given after them, which is for
        no other action."""
        self.wrote(name, *numbers)
        last = 1_000 + max(numbers)
        self.give(last, pri=USER_INFO)
        self.wrote(name, last)


def text(number, host="web ", pri=AUTH_INFO, tag="sshd[77]:", more=""):
    """A message with its number as a token."""
    return f"<{pri}>Oct 11 22:14:15 {host}{tag} {{{number}}} session opened{more}".encode()


class Hub:
    """A place that rsyslogd forwards to over TCP, and what came there."""

    def __init__(self, port, reads=True):
        self.reads = reads
        self.listener = socket.create_server(("127.0.0.1", port))
        self.links, self.came = [], []
        threading.Thread(target=self.accept, daemon=True).start()

    def accept(self):
        while True:
            try:
                link = self.listener.accept()[0]
            except OSError:
                return
            self.links.append(link)
            self.came.append(b"")
            if self.reads:
                threading.Thread(target=self.read, args=(link, len(self.came) - 1), daemon=True).start()

    def read(self, link, place):
        while True:
            try:
                piece = link.recv(65_536)
            except OSError:
                return
            if not piece:
                return
            self.came[place] += piece

    def breaks(self):
        """Ends all connections at once, and takes no more."""
        self.listener.shutdown(socket.SHUT_RDWR)
        self.listener.close()
        for it in self.links:
            it.setsockopt(socket.SOL_SOCKET, socket.SO_LINGER, struct.pack("ii", 1, 0))
            it.close()

    def tokens(self):
        return tokens(b"\n".join(self.came))

    def has(self, *numbers):
        until(f"the hub has {list(numbers)}", lambda: set(numbers) <= set(self.tokens()), came=self.tokens)

    def takes_again(self, host, number):
        """Waits until a message of this number, which is sent again when the last is dealt with, comes through."""
        def came():
            if host.is_reading():
                host.give(number)
            return number in self.tokens()
        until(f"{number} comes through", came, came=self.tokens)

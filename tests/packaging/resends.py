#!/usr/bin/env python3
"""What packaging/syc-run does with the files that earlier stops left, by a small program in the relay's place; each test with
sh and python3, and with bash and perl. The last line is 'N passed, M failed'."""

import fcntl
import itertools
import os
import re
import shutil
import signal
import socket
import subprocess
import sys
import tempfile
import time

TOP = os.path.dirname(os.path.dirname(os.path.dirname(os.path.realpath(__file__))))
sys.dont_write_bytecode = True
sys.path.insert(0, f"{TOP}/tests/relay")
from ports import free_ports, own_ports  # noqa: E402

WRAPPER = os.path.join(TOP, "packaging", "syc-run")
LIMIT = 120  # seconds in which what has to come comes, beside whatever else the host does
TOOLS = "cat cut mkdir mkfifo mktemp mv rm sed sort timeout tr uniq".split()
# What it listens at and what it does there is in PORTS; it ends with STATUS, once its standard input and its connections end.
RELAY = f"""#!{sys.executable} -S
import os, socket, struct, sys, threading, time
stop = threading.Event()
def serve(port, way, at):
    while True:
        peer, _ = at.accept()
        with open("connected", "a") as file:
            file.write(f"{{port}}\\n")
        if way == "closes":
            peer.close()
        elif way == "resets":
            peer.recv(10)
            peer.setsockopt(socket.SOL_SOCKET, socket.SO_LINGER, struct.pack("ii", 1, 0))
            peer.close()
        else:
            if way in ("held", "unread"):
                stop.wait()
                peer.shutdown(socket.SHUT_WR)
            with open(f"got.{{port}}", "ab") as file:
                while way != "unread" and (part := peer.recv(4096)):
                    file.write(part)
            if way == "unread":
                continue
            peer.close()
        with open("over", "a") as file:
            file.write(f"{{port}}\\n")
ways = dict(it.split(":") for it in os.environ["PORTS"].split())
for port, way in ways.items():
    if way != "refuses":
        at = socket.create_server(("127.0.0.1", int(port)))
        threading.Thread(target=serve, args=(port, way, at), daemon=True).start()
    print(f"syc: input {{port}} listening at 127.0.0.1", file=sys.stderr, flush=True)
print("syc: relay hub runs: site 00, 2 files", file=sys.stderr, flush=True)
print("words", *sys.argv[1:], file=sys.stderr, flush=True)
for line in sys.stdin:
    print("line", line, end="", file=sys.stderr, flush=True)
stop.set()
for port, way in ways.items():
    if way == "unread":
        print(f"syc: input {{port}} unread at the stop: 1 connections, 20 bytes or more", file=sys.stderr, flush=True)
    while way == "held" and not (os.path.exists("over") and port in open("over").read().split()):
        time.sleep(0.01)
print("the end", end="", file=sys.stderr, flush=True)
os._exit(int(os.environ.get("STATUS", "0")))
"""
NOTIFY = """#!/bin/sh
printf '%s\\n' "$@" left.* >>ready
"""
TESTS = []
MACHINE = {"python3": "sh", "perl": "bash"}


class Failure(Exception):
    """What came wasn't what was wanted."""


def test(function):
    TESTS.append(function)
    return function


def same(what, got, wanted):
    if got != wanted:
        raise Failure(f"{what}\n  wanted: {wanted!r}\n  got:    {got!r}")


def frames(first, count):
    return b"".join(b"%d %s" % (len(it), it) for it in (b"<34>1 - - - - - - %d" % n for n in range(first, first + count)))


class Room:
    """A folder of a test with its files, and the wrapper that runs in it."""

    def __init__(self, folder, sender):
        self.folder, self.sender, self.process = folder, sender, None
        self.write("relay", RELAY.encode(), 0o755)
        os.mkdir(self.path("bin"))
        os.mkdir(self.path("temporary"))
        for it in (*TOOLS, MACHINE[sender]):
            os.symlink(shutil.which(it), self.path(f"bin/{it}"))
        self.write(f"bin/{sender}", f'#!/bin/sh\nexec {sys.executable if sender == "python3" else shutil.which("perl")} "$@"\n'.encode(), 0o755)
        self.write("bin/systemd-notify", NOTIFY.encode(), 0o755)

    def ports(self, count):
        """Ports that nobody listens at, the lowest first."""
        block, self.holds = own_ports()
        return list(itertools.islice(free_ports(block), count))

    def path(self, name):
        return os.path.join(self.folder, name)

    def write(self, name, content, mode=0o644):
        with open(self.path(name), "wb") as file:
            file.write(content)
        os.chmod(self.path(name), mode)

    def read(self, name):
        try:
            with open(self.path(name), "rb") as file:
                return file.read()
        except FileNotFoundError:
            return b""

    def left(self):
        return sorted(it for it in os.listdir(self.folder) if it.startswith("left"))

    def start(self, ports, status=0, words=("--resend", "site", "hub", "--left", "left"), error=None):
        environment = {"PATH": self.path("bin"), "SYC": self.path("relay"), "TMPDIR": self.path("temporary"), "NOTIFY_SOCKET": "/none",
                       "PORTS": " ".join(f"{port}:{way}" for port, way in ports.items()), "STATUS": str(status)}
        with open(self.path("err"), "wb") as file:
            self.process = subprocess.Popen([MACHINE[self.sender], WRAPPER, *words], cwd=self.folder, env=environment, stdin=subprocess.DEVNULL,
                                            stderr=error or file, start_new_session=True)

    def wait(self, what, condition):
        end = time.monotonic() + LIMIT
        while not condition():
            if time.monotonic() > end or self.process.poll() is not None:
                raise Failure(f"{what} didn't come; standard error: {self.read('err')!r}")
            time.sleep(0.01)

    def ready(self):
        self.wait("that it is ready", lambda: self.read("ready").startswith(b"--ready"))

    def stop(self):
        self.process.send_signal(signal.SIGTERM)
        return self.process.wait(LIMIT)

    def said(self):
        return re.findall("syc-run: .*", self.read("err").decode())

    def of_session(self):
        """The processes of the session which still run."""
        return [int(it) for it in os.listdir("/proc") if it.isdigit() and session_of(it) == (self.process and self.process.pid)]

    def end(self):
        """Ends what still runs of the session a while after the wrapper has ended, and says whether anything did, or a folder is left."""
        end = time.monotonic() + 10
        while self.process and self.process.poll() is not None and self.of_session() and time.monotonic() < end:
            time.sleep(0.01)
        found = self.of_session()
        for it in found:
            os.kill(it, signal.SIGKILL)
        if self.process:
            self.process.wait()
        return len(found), os.listdir(self.path("temporary"))


def session_of(process):
    try:
        with open(f"/proc/{process}/stat", encoding="utf-8", errors="replace") as file:
            words = file.read().rpartition(")")[2].split()
    except OSError:
        return 0
    return 0 if words[0] in "ZX" else int(words[3])


@test
def files_are_sent_in_their_order(room):
    first, second = room.ports(2)
    for place, name in enumerate((f"left.{first}", f"left.{first}.2", f"left.{first}.10", f"left.{second}.1")):
        room.write(name, frames(place * 5000, 5000))
    room.start({first: "takes", second: "takes"}, 3)
    room.ready()
    same("what was there when it was ready", room.read("ready"), b"--ready\n--status=the relay runs\nleft.*\n")
    same("the first input", room.read(f"got.{first}"), frames(0, 15000))
    same("the second input", room.read(f"got.{second}"), frames(15000, 5000))
    room.process.send_signal(signal.SIGUSR1)
    room.wait("the line", lambda: b"line status\n" in room.read("err"))
    same("status", room.stop(), 3)
    same("files", room.left(), [])
    lines = [f"syc: input {it} listening at 127.0.0.1\n" for it in (first, second)]
    same("standard error", room.read("err").decode(),
         "".join(lines) + "syc: relay hub runs: site 00, 2 files\nwords run site hub --left left\nline status\nthe end")


def kept_by(room, way, reasons):
    first, second = room.ports(2)
    room.write(f"left.{first}", frames(0, 1))
    room.write(f"left.{first}.1", frames(1, 1))
    room.write(f"left.{second}", frames(2, 1))
    room.start({first: way, second: "takes"})
    room.ready()
    same("status", room.stop(), 0)
    same("files", room.left(), [f"left.{first}", f"left.{first}.1"])
    same("contents", room.read(f"left.{first}") + room.read(f"left.{first}.1"), frames(0, 2))
    same("the other input", room.read(f"got.{second}"), frames(2, 1))
    same("said", [it in [f"syc-run: left.{first} is kept: {why}" for why in reasons] for it in room.said()], [True])
    same("told", b"1 files of earlier stops weren't taken" in room.read("ready"), True)


@test
def refused_file_is_kept(room):
    kept_by(room, "refuses", ["connection refused"])


@test
def file_whose_connection_is_reset_is_kept(room):
    kept_by(room, "resets", ["connection reset by peer", "broken pipe", "transport endpoint is not connected"])


@test
def file_whose_connection_is_closed_unread_is_kept(room):
    kept_by(room, "closes", ["connection reset by peer", "broken pipe", "transport endpoint is not connected",
                             "the relay ended the connection"])


@test
def file_with_a_faulty_frame_is_kept(room):
    port, = room.ports(1)
    for number, bad in enumerate((b"17 <34>1 - - -", b"017 <34>1 - - - - - -", b"65537 x", b"hello", b"17")):
        room.write(f"left.{port}" + f".{number}" * bool(number), frames(0, 1) + bad)
    room.write(f"left.{port}.5", frames(7, 1))
    room.start({port: "takes"})
    room.ready()
    same("status", room.stop(), 0)
    same("taken", room.read(f"got.{port}"), frames(7, 1))
    same("files", room.left(), [f"left.{port}" + f".{number}" * bool(number) for number in range(5)])
    same("said", [it.split(": ", 2)[2] for it in room.said()], [f"faulty frame at byte {len(frames(0, 1))}"] * 5)


@test
def what_is_unfinished_or_of_no_input_is_kept(room):
    port, other = room.ports(2)
    names = ["left", f"left.{other}", f"left.{port}.1.new", f"left.{port}.new", "left.old"]
    for it in names:
        room.write(it, frames(0, 1))
    os.symlink("left", room.path(f"left.{port}"))
    room.start({port: "takes"})
    room.ready()
    same("status", room.stop(), 0)
    same("files", room.left(), sorted([*names, f"left.{port}"]))
    same("taken", room.read("connected"), b"")
    same("said", sorted(room.said()), sorted([
        "syc-run: left is of an earlier version, and names no input: it is kept, and not sent",
        f"syc-run: left.{other} is kept: no input {other} listens",
        f"syc-run: left.{port} is no file: it is kept, and not sent",
        f"syc-run: left.{port}.1.new is unfinished: it is kept, and not sent",
        f"syc-run: left.{port}.new is unfinished: it is kept, and not sent"]))


def stopped(room, way, status, files):
    port, = room.ports(1)
    room.write(f"left.{port}", frames(0, 1))
    room.write(f"left.{port}.1", frames(1, 1))
    room.start({port: way}, status)
    room.wait("the connection", lambda: room.read("connected") == b"%d\n" % port)
    same("status", room.stop(), status)
    same("files", room.left(), [f"left.{port}{it}" for it in files])
    kept = [f"syc-run: left.{port} is kept: the relay stopped meanwhile; what it took of it comes again"]
    same("said", room.said(), kept if "" in files else [])
    same("ready", room.read("ready"), b"")


@test
def file_that_a_relay_reads_as_it_stops_is_removed(room):
    stopped(room, "held", 0, [".1"])


@test
def file_that_a_relay_leaves_unread_is_kept(room):
    stopped(room, "unread", 0, ["", ".1"])


@test
def file_is_kept_where_a_relay_fails_at_its_stop(room):
    stopped(room, "held", 4, ["", ".1"])


@test
def next_file_of_a_stop_comes_after_those_that_wait(room):
    port, = room.ports(1)
    for number, it in enumerate((frames(0, 1), b"17 x", frames(2, 1))):
        room.write(f"left.{port}" + f".{number}" * bool(number), it)
    room.start({port: "takes"})
    room.ready()
    same("status", room.stop(), 0)
    # (the first one's name stays taken, by an empty file, until nothing behind it waits)
    same("files", room.left(), [f"left.{port}", f"left.{port}.1"])
    same("sizes", [len(room.read(it)) for it in room.left()], [0, 4])
    os.unlink(room.path("ready"))
    room.start({port: "takes"})
    room.ready()
    same("status", room.stop(), 0)
    same("files of the next start", [(it, room.read(it)) for it in room.left()], [(f"left.{port}", b"17 x")])


@test
def goes_on_without_systemd_notify(room):
    os.unlink(room.path("bin/systemd-notify"))
    port, = room.ports(1)
    room.write(f"left.{port}", frames(0, 1))
    room.start({port: "takes"})
    room.wait("that all was taken", lambda: room.left() == [])
    same("status", room.stop(), 0)
    same("said", room.said(), ["syc-run: no systemd-notify is there: nothing says that the relay is ready"])


@test
def stops_while_nobody_reads_what_it_says(room):
    port, = room.ports(1)
    room.write(f"left.{port}", frames(0, 1))
    reading, writing = os.pipe()
    try:
        os.set_blocking(writing, False)
        os.write(writing, b"x" * fcntl.fcntl(writing, fcntl.F_GETPIPE_SZ))
        os.set_blocking(writing, True)
        room.start({port: "takes"}, 3, error=writing)
        # (it waits in its first line, and the relay's lines in the pipe to it)
        room.wait("that the relay runs", lambda: _accepts(port))
        same("status", room.stop(), 3)
        same("files", room.left(), [f"left.{port}"])
    finally:
        os.close(reading)
        os.close(writing)


def _accepts(port):
    with socket.socket() as it:
        return it.connect_ex(("127.0.0.1", port)) == 0


@test
def words_that_are_missing(room):
    room.start({}, words=("--resend", "site", "hub"))
    same("status", room.process.wait(LIMIT), 2)
    same("said", room.said(), ["syc-run: --resend needs --left FILE: see syc-run -h"])


def main():
    passed = failed = 0
    for sender in filter(shutil.which, MACHINE):
        for each in TESTS:
            with tempfile.TemporaryDirectory() as folder:
                room, fault = Room(folder, sender), ""
                try:
                    each(room)
                except (Failure, subprocess.TimeoutExpired) as it:
                    fault = str(it)
                finally:
                    rest = room.end()
            if not fault and rest != (0, []):
                fault = f"{rest[0]} processes and the folders {rest[1]} were left"
            passed, failed = passed + (not fault), failed + bool(fault)
            if fault:
                print(f"failed: {each.__name__} with {sender}: {fault}", flush=True)
    print(f"{passed} passed, {failed} failed")
    return 1 if failed else 0


if __name__ == "__main__":
    signal.signal(signal.SIGTERM, lambda *_: sys.exit(143))
    sys.exit(main())

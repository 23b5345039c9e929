"""A relay that runs, and streams that come to it over TCP."""

import contextlib
import os
import re
import signal
import socket
import sys
import time

sys.path.append(f"{os.path.dirname(os.path.dirname(os.path.realpath(__file__)))}/relay")
from mutate import cuttings
from ports import free_ports, own_ports
from program import LIMIT, MEMORY, hold

# What a relay says: lines of text, whatever was sent.
LINE = re.compile(rb"syc: [ -~]{1,300}")
CONFIGURATION = b"""module(load="imtcp")
input(type="imtcp" port="%d" flowControl="full")
action(name="audit" type="omfile" file="audit.log" action.resumeRetryCount="-1")
"""


class Relay:
    """A relay with an archive, in the runner's folder."""

    def __init__(self, runner):
        self.room, self.written, self.is_over = runner.room, 0, True
        for _ in range(5):
            self.start(runner)
            if self.listens():
                return
        hold(False, f"the relay doesn't start: {self.told('said')!r}")

    def start(self, runner):
        block, self.holds = own_ports()
        self.port = next(free_ports(block))
        runner.put({"site": b"relay hub hub.conf\nentry hub %d\nprotect *.* hub audit\n" % self.port, "hub.conf": CONFIGURATION % self.port})
        reads, self.stdin = os.pipe2(os.O_CLOEXEC)
        streams = {it: os.open(f"{self.room}/relay.{it}", os.O_RDWR | os.O_CREAT | os.O_TRUNC | os.O_CLOEXEC) for it in ("out", "said")}
        known = [(os.POSIX_SPAWN_DUP2, of, to) for of, to in ((reads, 0), (streams["out"], 1), (streams["said"], 2))]
        self.pid = os.posix_spawn(runner.program, ["syc", "run", "site", "hub"], {}, file_actions=known)
        for it in reads, *streams.values():
            os.close(it)
        self.is_over = False

    def listens(self):
        """Whether it listens; if not, it has ended."""
        end = time.monotonic() + LIMIT
        while time.monotonic() < end:
            with contextlib.suppress(ConnectionRefusedError):
                self.connect().close()
                return True
            if os.waitpid(self.pid, os.WNOHANG) != (0, 0):
                os.close(self.stdin)
                self.is_over = True
                # (another process may have taken the port)
                hold(b"72 Bind" in self.told("said"), f"the relay ended at once: {self.told('said')!r}")
                return False
            time.sleep(0.01)
        return False

    def connect(self):
        return socket.create_connection(("127.0.0.1", self.port), LIMIT)

    def told(self, name):
        with open(f"{self.room}/relay.{name}", "rb") as it:
            return it.read()

    def sends(self, pieces):
        """Sends a stream over a connection, and waits until the relay has ended it."""
        with self.connect() as it:
            it.setsockopt(socket.IPPROTO_TCP, socket.TCP_NODELAY, 1)
            try:
                for piece in pieces:
                    it.sendall(piece)
                it.shutdown(socket.SHUT_WR)
                came = it.recv(1)
            except OSError:
                came = b""  # (it was closed at a fault, with more to come)
        hold(came == b"", f"the relay sent {came!r}")

    def archived(self):
        """What was written since the last call, all of it: a last message that is sent now comes behind it."""
        last = b"<13>1 - - - - - - the last after %d bytes" % self.written
        self.sends([b"%d %s" % (len(last), last)])
        end = time.monotonic() + LIMIT
        with open("audit.log", "rb") as it:
            while True:
                it.seek(self.written)
                came = it.read()
                if came.endswith(last + b"\n"):
                    self.written += len(came)
                    return came[: -len(last) - 1]
                hold(time.monotonic() < end, "the last message wasn't written")
                time.sleep(0.002)

    def ends(self):
        """Ends its standard input: its status, and what it wrote to both streams."""
        os.close(self.stdin)
        signal.signal(signal.SIGALRM, lambda *_: os.kill(self.pid, signal.SIGKILL))
        signal.alarm(LIMIT)
        _, how, used = os.wait4(self.pid, 0)
        signal.alarm(0)
        self.is_over = True
        hold(os.WIFEXITED(how), f"the relay ended by signal {os.WTERMSIG(how) if os.WIFSIGNALED(how) else '?'}")
        hold(used.ru_maxrss < MEMORY, f"the relay took {used.ru_maxrss} KiB")
        return os.WEXITSTATUS(how), self.told("out"), self.told("said")

    def close(self):
        if not self.is_over:
            os.kill(self.pid, signal.SIGKILL)
            os.waitpid(self.pid, 0)
            os.close(self.stdin)
        if os.path.exists("audit.log"):
            os.unlink("audit.log")


def of_streams(runner, random, texts):
    """Streams that come one after the other: of each the archive has the lines that `pass` writes and, where that stopped at a
    frame without a message, perhaps more; in the end the totals are those of the archive."""
    passed = [runner.run("pass", given=it) for it in texts]
    relay = Relay(runner)
    try:
        for text, wanted in zip(texts, passed):
            relay.sends(cuttings(random, text))
            came = relay.archived()
            is_all = wanted.status == 0 or re.match(rb"syc: 1[123] ", wanted.said)
            hold(came.startswith(wanted.out), "the archive has other lines than pass writes")
            hold(not is_all or came == wanted.out, "the archive has more lines than pass writes")
        status, out, said = relay.ends()
        hold(status == 0, f"the relay ended with {status}: {said[-200:]!r}")
        totals = re.fullmatch(rb"taken (\d+) lost 0 held 0\n(?:unread [1-9]\d*\n)?audit due (\d+) done (\d+) given-up 0 left 0\n", out)
        hold(totals and len({*totals.groups()}) == 1, f"the relay's totals are {out!r}")
        hold(all(LINE.fullmatch(it) for it in said.split(b"\n")[:-1]), f"the relay said {said[:200]!r}")
    finally:
        relay.close()
